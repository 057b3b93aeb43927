// Reads a file many times by libyaml: to events, to a document, or to events that are written again.
//
// Words: `events`, `tree` or `copy`, the file, and how often. It prints how many events, nodes or bytes the last round
// gave, or "refused".
#include <yaml.h>

#include "rounds.h"

static long events(struct text text) {
    yaml_parser_t parser;
    yaml_event_t event;
    long count = 0;
    int done = 0;
    yaml_parser_initialize(&parser);
    yaml_parser_set_input_string(&parser, (const unsigned char *)text.bytes, text.length);
    while (!done) {
        if (!yaml_parser_parse(&parser, &event)) {
            count = -1;
            break;
        }
        count++;
        done = event.type == YAML_STREAM_END_EVENT;
        yaml_event_delete(&event);
    }
    yaml_parser_delete(&parser);
    return count;
}

static long tree(struct text text) {
    yaml_parser_t parser;
    yaml_document_t document;
    long count = -1;
    yaml_parser_initialize(&parser);
    yaml_parser_set_input_string(&parser, (const unsigned char *)text.bytes, text.length);
    if (yaml_parser_load(&parser, &document)) {
        count = document.nodes.top - document.nodes.start;
        yaml_document_delete(&document);
    }
    yaml_parser_delete(&parser);
    return count;
}

static int count_bytes(void *written, unsigned char *bytes, size_t length) {
    (void)bytes;
    *(long *)written += (long)length;
    return 1;
}

static long copy(struct text text) {
    yaml_parser_t parser;
    yaml_emitter_t emitter;
    yaml_event_t event;
    long written = 0;
    int done = 0;
    yaml_parser_initialize(&parser);
    yaml_emitter_initialize(&emitter);
    yaml_parser_set_input_string(&parser, (const unsigned char *)text.bytes, text.length);
    yaml_emitter_set_output(&emitter, count_bytes, &written);
    yaml_emitter_set_unicode(&emitter, 1);
    while (!done) {
        if (!yaml_parser_parse(&parser, &event)) {
            written = -1;
            break;
        }
        done = event.type == YAML_STREAM_END_EVENT;
        if (!yaml_emitter_emit(&emitter, &event)) {
            written = -1;
            break;
        }
    }
    yaml_emitter_delete(&emitter);
    yaml_parser_delete(&parser);
    return written;
}

int main(int count, char **words) {
    return run_rounds(count, words, events, tree, copy);
}
