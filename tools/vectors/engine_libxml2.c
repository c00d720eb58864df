/* Answers XPath questions with libxml2. The same input and output as
   engine_pugixml.cpp; see there. */
#include <libxml/parser.h>
#include <libxml/xpath.h>
#include <stdint.h>
#include <stdio.h>
#include <stdlib.h>
#include <string.h>

static xmlDocPtr document;
static xmlNodePtr *nodes;
static size_t node_count, node_room;

static void remember(xmlNodePtr n) {
    if (node_count == node_room) {
        node_room = node_room ? 2 * node_room : 64;
        nodes = realloc(nodes, node_room * sizeof *nodes);
    }
    n->_private = (void *)(uintptr_t)node_count;
    nodes[node_count++] = n;
}

/* An attribute is a node of its own sort, with the same first fields. */
static void remember_attributes(xmlNodePtr n) {
    for (xmlAttrPtr a = n->properties; a; a = a->next) remember((xmlNodePtr)a);
}

static void number_nodes(void) {
    node_count = 0;
    xmlNodePtr n = (xmlNodePtr)document;
    while (n) {
        remember(n);
        if (n->type == XML_ELEMENT_NODE) remember_attributes(n);
        if (n->children) { n = n->children; continue; }
        while (n && !n->next) n = n->parent;
        if (n) n = n->next;
    }
}

static void read_document(size_t bytes) {
    char *xml = malloc(bytes + 1);
    if (fread(xml, 1, bytes, stdin) != bytes) exit(1);
    getchar();
    if (document) xmlFreeDoc(document);
    document = xmlReadMemory(xml, (int)bytes, NULL, NULL, XML_PARSE_HUGE | XML_PARSE_NONET);
    free(xml);
    if (!document) {
        fprintf(stderr, "libxml2: document not parsed\n");
        exit(1);
    }
    number_nodes();
}

static int ascending(const void *a, const void *b) {
    uintptr_t x = *(const uintptr_t *)a, y = *(const uintptr_t *)b;
    return (x > y) - (x < y);
}

static void print_set(xmlNodeSetPtr set) {
    size_t n = set ? (size_t)set->nodeNr : 0;
    uintptr_t *out = malloc((n + 1) * sizeof *out);
    for (size_t i = 0; i < n; i++) out[i] = (uintptr_t)set->nodeTab[i]->_private;
    qsort(out, n, sizeof *out, ascending);
    printf("%zu", n);
    for (size_t i = 0; i < n; i++) printf(" %zu", (size_t)out[i]);
    printf("\n");
    free(out);
}

static xmlXPathObjectPtr ask(size_t start, const char *text, xmlXPathContextPtr *context) {
    *context = xmlXPathNewContext(document);
    (*context)->node = nodes[start];
    return xmlXPathEvalExpression(BAD_CAST text, *context);
}

static void answer_eval(size_t start, const char *text) {
    xmlXPathContextPtr context;
    xmlXPathObjectPtr value = ask(start, text, &context);
    if (value && value->type == XPATH_NODESET) print_set(value->nodesetval);
    else printf("error\n");
    xmlXPathFreeObject(value);
    xmlXPathFreeContext(context);
}

static void answer_number(const char *text) {
    xmlXPathContextPtr context;
    xmlXPathObjectPtr value = ask(0, text, &context);
    uint64_t bits;
    memcpy(&bits, &value->floatval, 8);
    printf("%016llx\n", (unsigned long long)bits);
    xmlXPathFreeObject(value);
    xmlXPathFreeContext(context);
}

int main(void) {
    char word[16];
    char *text = NULL;
    size_t room = 0;
    while (scanf("%15s", word) == 1) {
        size_t n = 0;
        if (strcmp(word, "number") != 0 && scanf("%zu", &n) != 1) return 1;
        getchar();
        if (strcmp(word, "doc") == 0) { read_document(n); continue; }
        ssize_t length = getline(&text, &room, stdin);
        if (length < 1) return 1;
        text[length - 1] = 0;
        if (strcmp(word, "eval") == 0) answer_eval(n, text);
        else answer_number(text);
    }
    return 0;
}
