// Reads a file many times by rapidyaml: to a tree, or to a tree that is written again.
//
// Words: `tree` or `copy`, the file, and how often. It prints how many nodes or bytes the last round gave, or
// "refused".
#include <cstdio>
#include <cstdlib>
#include <cstring>
#include <string>

#include <ryml.hpp>
#include <ryml_std.hpp>

static std::string read_file(const char *name) {
    std::FILE *file = std::fopen(name, "rb");
    if (!file || std::fseek(file, 0, SEEK_END)) {
        std::exit(1);
    }
    std::string text(static_cast<size_t>(std::ftell(file)), '\0');
    std::rewind(file);
    if (std::fread(&text[0], 1, text.size(), file) != text.size()) {
        std::exit(1);
    }
    std::fclose(file);
    return text;
}

static long tree(const std::string &text) {
    ryml::Tree tree = ryml::parse_in_arena(ryml::to_csubstr(text));
    return static_cast<long>(tree.size());
}

static long copy(const std::string &text) {
    ryml::Tree tree = ryml::parse_in_arena(ryml::to_csubstr(text));
    return static_cast<long>(ryml::emitrs_yaml<std::string>(tree).size());
}

int main(int count, char **words) {
    if (count != 4) {
        return 2;
    }
    const bool copies = std::strcmp(words[1], "copy") == 0;
    if (!copies && std::strcmp(words[1], "tree") != 0) {
        return 2;
    }
    const std::string text = read_file(words[2]);
    long last = 0;
    for (long round = std::atol(words[3]); round > 0; round--) {
        last = copies ? copy(text) : tree(text);
    }
    std::printf("%ld\n", last);
    return 0;
}
