/* engines.h: the three engines of the benchmark behind one form.
 *
 * open prepares a document and a query once, outside of all timing; run
 * evaluates the query once and gives back how many nodes it selects; nodes
 * evaluates once more and lists their places in document order, ascending.
 */
#ifndef ENGINES_H
#define ENGINES_H

#include <stddef.h>
#include <stdint.h>

#ifdef __cplusplus
extern "C" {
#endif

struct question {
    const uint32_t *table; /* the document as a table */
    uint32_t rows;
    const char *xml;       /* and as text */
    const char *query;
};

struct engine {
    const char *name;
    void *(*open)(const struct question *question);
    size_t (*run)(void *state);
    size_t (*nodes)(void *state, uint32_t *out);
};

extern const struct engine ours, pugixml, libxml2;

/* the versions of the two others, as text */
const char *pugixml_version(void);
const char *libxml2_version(void);

#ifdef __cplusplus
}
#endif

#endif
