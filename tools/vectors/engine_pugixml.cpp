// Answers XPath questions with pugixml. Nodes are numbered in document order,
// the document node is 0, and an element's attributes stand behind it. Read from
// standard input:
//   doc <bytes>      then that many bytes of XML text and a newline
//   eval <start> <xpath>
//   number <xpath>
// Each eval prints "<count> <nodes ascending>" or "error"; each number prints
// the 16 hexadecimal digits of the double.
#include <pugixml.hpp>

#include <algorithm>
#include <cstdint>
#include <cstdio>
#include <cstring>
#include <iostream>
#include <memory>
#include <string>
#include <unordered_map>
#include <vector>

static std::unique_ptr<pugi::xml_document> document;
static std::vector<pugi::xpath_node> nodes;
static std::unordered_map<const void*, uint32_t> numbers;

static const void* object_of(const pugi::xpath_node& n) {
    if (n.attribute()) return n.attribute().internal_object();
    return n.node().internal_object();
}

static void remember(const pugi::xpath_node& n) {
    numbers[object_of(n)] = nodes.size();
    nodes.push_back(n);
}

static void number_nodes() {
    nodes.clear();
    numbers.clear();
    pugi::xml_node n = *document;
    while (n) {
        remember(n);
        for (pugi::xml_attribute a : n.attributes()) remember(pugi::xpath_node(a, n));
        if (n.first_child()) { n = n.first_child(); continue; }
        while (n && !n.next_sibling()) n = n.parent();
        if (n) n = n.next_sibling();
    }
}

static void read_document(size_t bytes) {
    std::string xml(bytes, '\0');
    std::cin.read(&xml[0], bytes);
    std::cin.ignore();
    document.reset(new pugi::xml_document);
    unsigned flags = pugi::parse_comments | pugi::parse_pi | pugi::parse_ws_pcdata;
    if (!document->load_buffer(xml.data(), xml.size(), flags)) {
        std::fprintf(stderr, "pugixml: document not parsed\n");
        std::exit(1);
    }
    number_nodes();
}

static void answer_eval(size_t start, const std::string& text) {
    try {
        pugi::xpath_query query(text.c_str());
        pugi::xpath_node_set set = query.evaluate_node_set(nodes[start]);
        std::vector<uint32_t> out;
        for (const pugi::xpath_node& n : set) out.push_back(numbers.at(object_of(n)));
        std::sort(out.begin(), out.end());
        std::printf("%zu", out.size());
        for (uint32_t v : out) std::printf(" %u", v);
        std::printf("\n");
    } catch (const pugi::xpath_exception& e) {
        std::printf("error %s\n", e.what());
    }
}

static void answer_number(const std::string& text) {
    double v = pugi::xpath_query(text.c_str()).evaluate_number(nodes[0]);
    uint64_t bits;
    std::memcpy(&bits, &v, 8);
    std::printf("%016llx\n", (unsigned long long)bits);
}

int main() {
    std::ios::sync_with_stdio(false);
    std::string word;
    while (std::cin >> word) {
        size_t n = 0;
        if (word != "number") std::cin >> n;
        std::cin.ignore();
        if (word == "doc") { read_document(n); continue; }
        std::string text;
        std::getline(std::cin, text);
        if (word == "eval") answer_eval(n, text);
        else answer_number(text);
    }
    return 0;
}
