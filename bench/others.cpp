// others.cpp: pugixml and libxml2 as engines of the benchmark.
//
// Each gets its best honest case: the document is parsed once and the query is
// compiled once, so a run is an evaluation alone. pugixml's set is left
// unsorted; libxml2 has its elements numbered in document order beforehand and
// its cache of objects switched on.
#include "engines.h"

#include <algorithm>
#include <cstdio>
#include <cstdlib>
#include <cstring>
#include <string>
#include <unordered_map>

#include <libxml/parser.h>
#include <libxml/xpath.h>
#include <libxml/xpathInternals.h>
#include <pugixml.hpp>

namespace {

void fail(const char *what, const char *query)
{
    std::fprintf(stderr, "bench: %s: %s\n", what, query);
    std::exit(2);
}

// ---- pugixml ----

struct PugiState {
    pugi::xml_document document;
    pugi::xpath_query query;
};

void *pugi_open(const question *q)
{
    auto *state = new PugiState;
    if (!state->document.load_string(q->xml, pugi::parse_default | pugi::parse_ws_pcdata))
        fail("pugixml cannot parse", q->query);
    state->query = pugi::xpath_query(q->query);
    return state;
}

size_t pugi_run(void *opened)
{
    auto *state = static_cast<PugiState *>(opened);
    return state->query.evaluate_node_set(state->document).size();
}

// numbers the nodes of a document in document order, attributes behind their element, without recursion
std::unordered_map<const void *, uint32_t> pugi_places(const pugi::xml_document &document)
{
    std::unordered_map<const void *, uint32_t> places;
    pugi::xml_node node = document;
    while (node) {
        places.emplace(node.internal_object(), static_cast<uint32_t>(places.size()));
        for (pugi::xml_attribute attribute : node.attributes())
            places.emplace(attribute.internal_object(), static_cast<uint32_t>(places.size()));
        if (node.first_child()) {
            node = node.first_child();
            continue;
        }
        while (node && !node.next_sibling())
            node = node.parent();
        node = node.next_sibling();
    }
    return places;
}

// what tells a selected node, which may be an attribute, from all others
const void *pugi_identity(const pugi::xpath_node &found)
{
    if (found.attribute())
        return found.attribute().internal_object();
    return found.node().internal_object();
}

size_t pugi_nodes(void *opened, uint32_t *out)
{
    auto *state = static_cast<PugiState *>(opened);
    auto places = pugi_places(state->document);
    size_t count = 0;
    for (const auto &found : state->query.evaluate_node_set(state->document))
        out[count++] = places.at(pugi_identity(found));
    std::sort(out, out + count);
    return count;
}

// ---- libxml2 ----

struct XmlState {
    xmlDocPtr document;
    xmlXPathContextPtr context;
    xmlXPathCompExprPtr query;
};

void *xml_open(const question *q)
{
    auto *state = new XmlState;
    state->document = xmlReadMemory(q->xml, static_cast<int>(std::strlen(q->xml)), "", nullptr, XML_PARSE_HUGE);
    if (!state->document)
        fail("libxml2 cannot parse", q->query);
    xmlXPathOrderDocElems(state->document);
    state->context = xmlXPathNewContext(state->document);
    xmlXPathContextSetCache(state->context, 1, -1, 0);
    state->query = xmlXPathCtxtCompile(state->context, reinterpret_cast<const xmlChar *>(q->query));
    if (!state->query)
        fail("libxml2 cannot compile", q->query);
    return state;
}

xmlXPathObjectPtr xml_evaluate(XmlState *state)
{
    state->context->node = reinterpret_cast<xmlNodePtr>(state->document);
    xmlXPathObjectPtr found = xmlXPathCompiledEval(state->query, state->context);
    if (!found)
        fail("libxml2 gives no answer", "");
    return found;
}

size_t xml_run(void *opened)
{
    xmlXPathObjectPtr found = xml_evaluate(static_cast<XmlState *>(opened));
    size_t count = found->nodesetval ? static_cast<size_t>(found->nodesetval->nodeNr) : 0;
    xmlXPathFreeObject(found);
    return count;
}

// the place of each node, attributes behind their element, kept in a map of pointers, without recursion
std::unordered_map<const void *, uint32_t> xml_places(xmlDocPtr document)
{
    std::unordered_map<const void *, uint32_t> places;
    xmlNodePtr top = reinterpret_cast<xmlNodePtr>(document), node = top;
    while (node) {
        places.emplace(node, static_cast<uint32_t>(places.size()));
        for (xmlAttrPtr a = node->type == XML_ELEMENT_NODE ? node->properties : nullptr; a; a = a->next)
            places.emplace(a, static_cast<uint32_t>(places.size()));
        if (node->children) {
            node = node->children;
            continue;
        }
        while (node != top && !node->next)
            node = node->parent;
        node = node == top ? nullptr : node->next;
    }
    return places;
}

size_t xml_nodes(void *opened, uint32_t *out)
{
    auto *state = static_cast<XmlState *>(opened);
    auto places = xml_places(state->document);
    xmlXPathObjectPtr found = xml_evaluate(state);
    size_t count = 0;
    for (int i = 0; found->nodesetval && i < found->nodesetval->nodeNr; i++)
        out[count++] = places.at(found->nodesetval->nodeTab[i]);
    xmlXPathFreeObject(found);
    std::sort(out, out + count);
    return count;
}

} // namespace

extern "C" {
extern const engine pugixml = {"pugixml", pugi_open, pugi_run, pugi_nodes};
extern const engine libxml2 = {"libxml2", xml_open, xml_run, xml_nodes};

const char *pugixml_version(void)
{
    static const std::string version =
        std::to_string(PUGIXML_VERSION / 1000) + "." + std::to_string(PUGIXML_VERSION % 1000 / 10);
    return version.c_str();
}

const char *libxml2_version(void)
{
    return LIBXML_DOTTED_VERSION;
}
}
