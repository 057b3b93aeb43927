// Reads a file many times by libfyaml: to events, to a document, or to a document that is written again.
//
// Words: `events`, `tree` or `copy`, the file, and how often. It prints how many events or bytes the last round gave, 1
// for a document, or "refused".
#include <libfyaml.h>

#include "rounds.h"

// Equal keys are allowed, since libfyaml looks for them in quadratic time.
static const struct fy_parse_cfg QUIET = {
    .flags = FYPCF_QUIET | FYPCF_DISABLE_DEPTH_LIMIT | FYPCF_ALLOW_DUPLICATE_KEYS,
};

static long events(struct text text) {
    struct fy_parser *parser = fy_parser_create(&QUIET);
    struct fy_event *event;
    long count = 0;
    if (!parser || fy_parser_set_string(parser, text.bytes, text.length)) {
        exit(1);
    }
    while ((event = fy_parser_parse(parser))) {
        count++;
        fy_parser_event_free(parser, event);
    }
    if (fy_parser_get_stream_error(parser)) {
        count = -1;
    }
    fy_parser_destroy(parser);
    return count;
}

static long tree(struct text text) {
    struct fy_document *document = fy_document_build_from_string(&QUIET, text.bytes, text.length);
    if (!document) {
        return -1;
    }
    fy_document_destroy(document);
    return 1;
}

static long copy(struct text text) {
    struct fy_document *document = fy_document_build_from_string(&QUIET, text.bytes, text.length);
    if (!document) {
        return -1;
    }
    char *written = fy_emit_document_to_string(document, FYECF_MODE_BLOCK | FYECF_WIDTH_INF);
    long length = written ? (long)strlen(written) : -1;
    free(written);
    fy_document_destroy(document);
    return length;
}

int main(int count, char **words) {
    return run_rounds(count, words, events, tree, copy);
}
