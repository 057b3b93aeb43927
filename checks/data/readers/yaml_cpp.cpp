// Reads a YAML stream with yaml-cpp, and writes its documents as a JSON list in which all scalars are strings.
#include <cstdio>
#include <iostream>
#include <iterator>
#include <string>
#include <yaml-cpp/yaml.h>

static void write_text(const std::string &text)
{
    std::putchar('"');
    for (unsigned char byte : text) {
        if (byte == '"' || byte == '\\')
            std::printf("\\%c", byte);
        else if (byte < 0x20)
            std::printf("\\u%04x", byte);
        else
            std::putchar(byte);
    }
    std::putchar('"');
}

static void write_node(const YAML::Node &node)
{
    const char *comma = "";
    if (node.IsSequence()) {
        std::putchar('[');
        for (const auto &item : node) {
            std::fputs(comma, stdout);
            write_node(item);
            comma = ",";
        }
        std::putchar(']');
    } else if (node.IsMap()) {
        std::putchar('{');
        for (const auto &pair : node) {
            std::fputs(comma, stdout);
            write_text(pair.first.Scalar());
            std::putchar(':');
            write_node(pair.second);
            comma = ",";
        }
        std::putchar('}');
    } else {
        write_text(node.Scalar());
    }
}

int main()
{
    const std::string input(std::istreambuf_iterator<char>(std::cin), {});
    const char *comma = "";
    std::putchar('[');
    for (const auto &node : YAML::LoadAll(input)) {
        std::fputs(comma, stdout);
        write_node(node);
        comma = ",";
    }
    std::puts("]");
}
