/* Tries the texts of confstore_text.c: see test_confstore.c. */
#define _GNU_SOURCE
#include "test.h"

#include <stdlib.h>
#include <string.h>

#define CHANGED 100000

struct row {
    const char *text;
    size_t length;
    const char *written;
};

#define ROW(text, written)                                                                                             \
    { text, sizeof text - 1, written }

/* Texts with what they are as values, indented by two, worked out by hand from docs/STYLE.md. */
static const struct row ROWS[] = {
    ROW("", "\"\""),
    ROW("example", "example"),
    ROW("a-b_c/d.e", "a-b_c/d.e"),
    ROW("80", "\"80\""),
    ROW("a b", "\"a b\""),
    ROW("True", "\"True\""),
    ROW("n", "\"n\""),
    ROW("nn", "nn"),
    ROW("\"\\", "\"\\\"\\\\\""),
    ROW("\0\a\b\t\v\f\r\x1b\x01\x7f\xc2\x85", "\"\\0\\a\\b\\t\\v\\f\\r\\e\\x01\\x7F\\x85\""),
    ROW("\xe2\x80\xa8\xef\xbb\xbf\xef\xbf\xbe", "\"\\u2028\\uFEFF\\uFFFE\""),
    ROW("\xc3\xa4\xf0\x9d\x84\x9e", "\"\xc3\xa4\xf0\x9d\x84\x9e\""),
    ROW("a\nb", "|-\n  a\n  b"),
    ROW("a\n", "|\n  a"),
    ROW("a\n\n", "|+\n  a\n"),
    ROW("a\n\n\n", "|+\n  a\n\n"),
    ROW("a\n\nb\n", "|\n  a\n\n  b"),
    ROW("\na", "\"\\na\""),
    ROW(" a\n", "\" a\\n\""),
    ROW("a\tb\n", "\"a\\tb\\n\""),
    ROW("...\n", "|\n  ..."),
    ROW("a\n  \nb", "|-\n  a\n    \n  b"),
    ROW("a\n\n\n\n", "|+\n  a\n\n\n"),
    ROW("a\n\n\n\n\n\n\n", "|+\n  a\n\n\n\n\n\n"),
    ROW("a\n\nb\n\n", "|+\n  a\n\n  b\n"),
    ROW("a\n \n", "|\n  a\n   "),
    ROW("a\n \n\n", "|+\n  a\n   \n"),
    ROW("\n", "\"\\n\""),
    ROW("\n\n\n", "\"\\n\\n\\n\""),
    ROW("a\n\n\r", "\"a\\n\\n\\r\""),
    ROW("a\xc2\x85\n\n", "\"a\\x85\\n\\n\""),
};

static const struct row NO_TEXTS[] = {
    ROW("\xed\xa0\x80", ""),
    ROW("\xff", ""),
    ROW("\xc0\x80", ""),
    ROW("\xe2\x82", ""),
    ROW("\xf4\x90\x80\x80", ""),
    ROW("a\x80", ""),
    ROW("\xf8\x88\x80\x80\x80", ""),
    ROW("\xe0\x80\x80", ""),
};

/* What is no scalar of the one style. */
static const char *const NO_SCALARS[] = {
    "",           "\n",        "80",           "[]\n",   "{}\n",   "\"",  "\"a",    "\"a\"b\"", "\"\\q\"",
    "\"\\x1\"",   "\"\\u12\"", "\"\\uD800\"",  "\"\\\"", "|",      "|\n", "|\n\n",  "|-\na\n",  "|+\n  a\n",
    "|\n  a\n\n", "|x\n  a\n", "|\n  a\n b\n", "- a\n",  "a: b\n", "'a'", "true\n", "\"a\nb\"",
};

/* What is read back of a text as it is written, and of the same bytes without the line feed that ends them. A text that
 * ends in more than one can't be told from another one then. */
static void read_back(const struct row *row, const struct confstore_bytes *written) {
    struct confstore_bytes text = {0};
    expect_status("read", confstore_read_text(written->data, written->length, &text), CONFSTORE_OK);
    expect_bytes("read back", text.data, text.length, row->text, row->length);
    if (row->written[0] != '|' || row->written[1] != '+') {
        text.length = 0;
        expect_status("read", confstore_read_text(written->data, written->length - 1, &text), CONFSTORE_OK);
        expect_bytes("read back without a feed", text.data, text.length, row->text, row->length);
    }
    confstore_bytes_free(&text);
}

void scalars(void) {
    struct confstore_bytes written = {0}, text = {0};
    for (size_t at = 0; at < sizeof ROWS / sizeof *ROWS; at++) {
        const struct row *row = &ROWS[at];
        size_t length = strlen(row->written);
        written.length = 0;
        expect_status("a text", confstore_write_text(&written, row->text, row->length, 2), CONFSTORE_OK);
        expect_bytes("written", written.data, written.length - 1, row->written, length);
        expect_bytes("its end", written.data + length, written.length - length, "\n", 1);
        read_back(row, &written);
    }
    for (size_t at = 0; at < sizeof NO_TEXTS / sizeof *NO_TEXTS; at++) {
        const struct row *row = &NO_TEXTS[at];
        expect_status("no text", confstore_write_text(&written, row->text, row->length, 2), CONFSTORE_NOT_TEXT);
        expect_status("no key", confstore_write_key(&written, row->text, row->length), CONFSTORE_NOT_TEXT);
    }
    for (size_t at = 0; at < sizeof NO_SCALARS / sizeof *NO_SCALARS; at++) {
        char *copy = strdup(NO_SCALARS[at]); /* so that a read past its end is seen */
        size_t before = text.length;
        expect_status(NO_SCALARS[at], confstore_read_text(copy, strlen(copy), &text), CONFSTORE_NOT_SCALAR);
        expect("nothing was written", (long)text.length, (long)before);
        free(copy);
    }
    confstore_bytes_free(&written);
    confstore_bytes_free(&text);
}

/* Changed scalars and answers: what can be read is written again as a text that is read as the same. Each is in memory
 * of its own length, so that a sanitizer sees a read past it. */
void changed(void) {
    static const char SIGNS[] = "ab0 \n\"\\|+->.:xu[]{}\xc3\xa4\x80\xff\t'";
    struct confstore_bytes again = {0}, first = {0}, second = {0};
    unsigned state = 1;
    long read = 0;
    for (int turn = 0; turn < CHANGED; turn++) {
        const char *written = ROWS[(size_t)turn % (sizeof ROWS / sizeof *ROWS)].written;
        size_t length = strlen(written) + 1;
        char *copy = malloc(length);
        memcpy(copy, written, length);
        copy[length - 1] = '\n';
        for (int change = turn % 4; change > 0; change--) {
            state = state * 1103515245u + 12345u;
            copy[(state >> 8) % length] = SIGNS[(state >> 20) % (sizeof SIGNS - 1)];
        }
        struct confstore_answer said;
        confstore_read_answer(copy, length, &said);
        again.length = first.length = second.length = 0;
        if (confstore_read_text(copy, length, &first) == CONFSTORE_OK) {
            read++;
            if (confstore_write_text(&again, first.data, first.length, 4) != CONFSTORE_OK ||
                confstore_read_text(again.data, again.length, &second) != CONFSTORE_OK ||
                first.length != second.length || (first.length && memcmp(first.data, second.data, first.length)))
                expect_bytes("a changed scalar", copy, length, "", 0);
        }
        free(copy);
    }
    expect("some are read", read > CHANGED / 4, 1);
    confstore_bytes_free(&again);
    confstore_bytes_free(&first);
    confstore_bytes_free(&second);
}

/* Each row's text is set and got: what the program writes of it is what was written here. */
void values(struct confstore *store) {
    struct confstore_bytes command = {0}, answer = {0}, text = {0}, written = {0};
    for (size_t at = 0; at < sizeof ROWS / sizeof *ROWS; at++) {
        make_set(&command, "", ROWS[at].text, ROWS[at].length);
        expect("set", ask(store, command.data, command.length, &answer).kind, CONFSTORE_SAID_OK);
        struct confstore_answer said = ask_text(store, LOOK, &answer);
        expect("get", said.kind, CONFSTORE_SAID_VALUE);
        written.length = text.length = 0;
        confstore_write_text(&written, ROWS[at].text, ROWS[at].length, 2);
        expect_bytes("as the program", said.value, said.length, written.data, written.length);
        expect_status("a value", confstore_read_text(said.value, said.length, &text), CONFSTORE_OK);
        expect_bytes("got", text.data, text.length, ROWS[at].text, ROWS[at].length);
    }
    confstore_bytes_free(&command);
    confstore_bytes_free(&answer);
    confstore_bytes_free(&text);
    confstore_bytes_free(&written);
}

/* Texts of few signs, with each number of line feeds at the end: what is written is read back, and is what the program
 * writes. */
static size_t make_text(unsigned number, char *text) {
    static const char SIGNS[] = "a \n\"|-";
    size_t length = 0;
    const unsigned count = sizeof SIGNS - 1;
    for (unsigned rest = number / 8; rest > 0; rest /= count) text[length++] = SIGNS[rest % count];
    for (unsigned feeds = number % 8; feeds > 0; feeds--) text[length++] = '\n';
    return length;
}

void line_feeds(struct confstore *store) {
    struct confstore_bytes command = {0}, answer = {0}, text = {0}, written = {0};
    for (unsigned number = 0; number < 8 * 6 * 6 * 6; number++) {
        char wanted[32];
        size_t length = make_text(number, wanted);
        written.length = text.length = 0;
        expect_status("write", confstore_write_text(&written, wanted, length, 2), CONFSTORE_OK);
        expect_status("read", confstore_read_text(written.data, written.length, &text), CONFSTORE_OK);
        expect_bytes("the same", text.data, text.length, wanted, length);
        if (number % 5 > 0) continue; /* the program takes its time */
        make_set(&command, "", wanted, length);
        expect("set", ask(store, command.data, command.length, &answer).kind, CONFSTORE_SAID_OK);
        struct confstore_answer said = ask_text(store, LOOK, &answer);
        expect_bytes("as the program", said.value, said.length, written.data, written.length);
    }
    confstore_bytes_free(&command);
    confstore_bytes_free(&answer);
    confstore_bytes_free(&text);
    confstore_bytes_free(&written);
}
