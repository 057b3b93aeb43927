/* Tries abouts: how they are written and read, and what a session and a watch make of them. See test_confstore.c. */
#define _GNU_SOURCE
#include "test.h"

#include <stdio.h>
#include <stdlib.h>
#include <string.h>
#include <unistd.h>

#define PATIENCE 60000
#define CHANGED 50000

/* The longest text that `why` may have alone, with `why: `, two quotes and a line feed. */
#define LONGEST_WHY 4088

#define PAIR(key, text)                                                                                                \
    { key, text, sizeof text - 1 }

/* Pairs with what they are in a command, worked out by hand from docs/SESSION.md and docs/STYLE.md. */
static const struct {
    struct confstore_pair pair;
    const char *written;
} ROWS[] = {
    {PAIR("by", "ann"), "  by: ann\n"},
    {PAIR("by", ""), "  by: \"\"\n"},
    {PAIR("when", "2026-03-01T10:00:00Z"), "  when: \"2026-03-01T10:00:00Z\"\n"},
    {PAIR("why", "a: {b: [\"c\\\"]}"), "  why: \"a: {b: [\\\"c\\\\\\\"]}\"\n"},
    {PAIR("why", "two\n\nlines"), "  why: |-\n    two\n\n    lines\n"},
    {PAIR("why", "about:\n  by: bob\n...\n"), "  why: |\n    about:\n      by: bob\n    ...\n"},
    {PAIR("why", "set: c\n\n\n"), "  why: |+\n    set: c\n\n\n"},
    {PAIR("no", "\xc3\xa4\t\xe2\x80\xa8"), "  \"no\": \"\xc3\xa4\\t\\u2028\"\n"},
    {PAIR("about", "about"), "  about: about\n"},
    {PAIR("a b: \"c\"\n\\", "|"), "  \"a b: \\\"c\\\"\\n\\\\\": \"|\"\n"},
    {PAIR("\xc3\xa4", "- a"), "  \"\xc3\xa4\": \"- a\"\n"},
};

#define ROW_COUNT (sizeof ROWS / sizeof *ROWS)

/* What stands before an about: each form of a record, with values that look like one. */
static const struct {
    const char *record;
    size_t edits;
    const char *last; /* the value of the last edit */
} FORMS[] = {
    {"---\nat: \"3\"\nset: c\npath: \"/n\"\nvalue: \"81\"\n", 1, "\"81\"\n"},
    {"at: \"3\"\ndelete: about\npath: |-\n  /a\n  about:\n", 1, ""},
    {"---\nat: \"3\"\nset: c\npath: \"\"\nvalue:\n  about:\n    by: bob\n", 1, "  about:\n    by: bob\n"},
    {"---\nat: \"3\"\nset: c\npath: \"\"\nvalue: |+\n  about:\n    by: bob\n\n", 1, "|+\n  about:\n    by: bob\n\n"},
    {"---\nat: \"3\"\nimport: about\ntree:\n  about:\n    - by: bob\n", 1, "  about:\n    - by: bob\n"},
    {"---\nat: \"3\"\nbatch:\n  - delete: d\n    path: \"\"\n", 1, ""},
    {"---\nat: \"3\"\nbatch:\n  - import: d\n    tree: []\n  - set: c\n    path: \"\"\n    value:\n      about:\n"
     "        by: bob\n",
     2, "      about:\n        by: bob\n"},
};

#define FORM_COUNT (sizeof FORMS / sizeof *FORMS)

/* Writing. */

static void written_by_rows(struct confstore_bytes *command) {
    for (size_t at = 0; at < ROW_COUNT; at++) {
        const struct confstore_pair both[] = {ROWS[at].pair, PAIR("last", "one")};
        char wanted[512];
        confstore_begin(command);
        expect_status("one", confstore_write_about(command, both, 1), CONFSTORE_OK);
        int length = snprintf(wanted, sizeof wanted, "---\nabout:\n%s", ROWS[at].written);
        expect_bytes("one", command->data, command->length, wanted, (size_t)length);
        confstore_begin_batch(command);
        expect_status("two", confstore_write_about(command, both, 2), CONFSTORE_OK);
        length = snprintf(wanted, sizeof wanted, "---\nbatch:\nabout:\n%s  last: one\n", ROWS[at].written);
        expect_bytes("two", command->data, command->length, wanted, (size_t)length);
    }
}

/* An about that is written, or not: then the bytes are as they were. */
void abouts_written(void) {
    static const struct confstore_pair NO_TEXT[] = {PAIR("by", "ann"), PAIR("why", "\xff")};
    static const struct confstore_pair NO_KEY[] = {PAIR("by", "ann"), PAIR("\xed\xa0\x80", "why")};
    struct confstore_bytes command = {0};
    written_by_rows(&command);
    confstore_begin(&command);
    expect_status("none", confstore_write_about(&command, NULL, 0), CONFSTORE_OK);
    expect_status("no text", confstore_write_about(&command, NO_TEXT, 2), CONFSTORE_NOT_TEXT);
    expect_status("no key", confstore_write_about(&command, NO_KEY, 2), CONFSTORE_NOT_TEXT);
    expect_bytes("what is left", command.data, command.length, "---\n", 4);
    struct confstore_pair all[ROW_COUNT];
    for (size_t at = 0; at < ROW_COUNT; at++) all[at] = ROWS[at].pair;
    bool is_refused = true;
    for (long number = 0; is_refused && number < 100; number++) {
        confstore_bytes_free(&command);
        refuse_after(number);
        enum confstore_status status = confstore_write_about(&command, all, ROW_COUNT);
        is_refused = was_refused();
        refuse_after(-1);
        expect_status("without memory", status, is_refused ? CONFSTORE_NO_MEMORY : CONFSTORE_OK);
        expect("its length", is_refused && command.length > 0, 0);
    }
    expect("not all are refused", is_refused, 0);
    confstore_bytes_free(&command);
}

/* Reading. */

static void expect_part(const char *name, struct confstore_part part, const char *text, size_t length) {
    struct confstore_bytes found = {0};
    expect_status(name, confstore_read_text(part.data, part.length, &found), CONFSTORE_OK);
    expect_bytes(name, found.data, found.length, text, length);
    confstore_bytes_free(&found);
}

/* The pairs of a record from a place on are these, and then there are no more. */
static void expect_pairs_from(struct confstore_part record, size_t place, const struct confstore_pair *pairs,
                              size_t count) {
    struct confstore_about_pair pair;
    for (size_t at = 0; at < count; at++) {
        enum confstore_status status = confstore_read_about(record.data, record.length, &place, &pair);
        expect_status("a pair", status, CONFSTORE_OK);
        if (status != CONFSTORE_OK) return;
        expect_part("its key", pair.key, pairs[at].key, strlen(pairs[at].key));
        expect_part("its text", pair.text, pairs[at].text, pairs[at].length);
    }
    for (int turn = 0; turn < 2; turn++)
        expect_status("no more pairs", confstore_read_about(record.data, record.length, &place, &pair),
                      CONFSTORE_NOTHING_DUE);
}

/* A record has so many edits, of which the last one has this value, and these pairs, alone and after the edits. */
static void expect_record(struct confstore_part record, size_t edits, const char *last,
                          const struct confstore_pair *pairs, size_t count) {
    struct confstore_edit edit = {0};
    size_t place = 0;
    for (size_t at = 0; at < edits; at++)
        expect_status("an edit", confstore_read_edit(record.data, record.length, &place, &edit), CONFSTORE_OK);
    expect_bytes("the last value", edit.value.data, edit.value.length, last, strlen(last));
    for (int turn = 0; turn < 2; turn++)
        expect_status("no more edits", confstore_read_edit(record.data, record.length, &place, &edit),
                      CONFSTORE_NOTHING_DUE);
    expect_pairs_from(record, place, pairs, count);
    expect_pairs_from(record, 0, pairs, count);
}

/* Each form of a record without an about, with one of each pair, and with one of all of them. */
void abouts_read(void) {
    struct confstore_bytes record = {0};
    struct confstore_pair all[ROW_COUNT];
    for (size_t at = 0; at < ROW_COUNT; at++) all[at] = ROWS[at].pair;
    for (size_t form = 0; form < FORM_COUNT; form++) {
        for (size_t at = 0; at < ROW_COUNT + 2; at++) {
            const struct confstore_pair *first = at < ROW_COUNT ? &all[at] : all;
            size_t count = at < ROW_COUNT ? 1 : at == ROW_COUNT ? ROW_COUNT : 0;
            record.length = 0;
            confstore_bytes_add(&record, FORMS[form].record, strlen(FORMS[form].record));
            confstore_write_about(&record, first, count);
            confstore_end(&record);
            char *copy = malloc(record.length); /* so that a read past its end is seen */
            memcpy(copy, record.data, record.length);
            expect_record((struct confstore_part){copy, record.length}, FORMS[form].edits, FORMS[form].last, first,
                          count);
            free(copy);
        }
    }
    confstore_bytes_free(&record);
}

#define SET "---\nat: \"3\"\nset: c\npath: \"\"\nvalue: x\n"
#define BATCH "---\nat: \"3\"\nbatch:\n  - delete: c\n    path: \"\"\n"

/* What no program writes, of which the first edit is whole. */
static const char *const HOSTILE[] = {
    SET "about:\n...\n",
    SET "about: {}\n...\n",
    SET "about: ann\n...\n",
    SET "about: []\n...\n",
    SET "about:\n  - by\n...\n",
    SET "about:\n  by:\n...\n",
    SET "about:\n  by: \n...\n",
    SET "about:\n  by:\n    - ann\n...\n",
    SET "about:\n  by:\n    ann: x\n...\n",
    SET "about:\n  by: {}\n...\n",
    SET "about:\n  by: []\n...\n",
    SET "about:\n  by: 80\n...\n",
    SET "about:\n  by: 'ann'\n...\n",
    SET "about:\n  by: ann bob\n...\n",
    SET "about:\n  by: true\n...\n",
    SET "about:\n  by: \"ann\n...\n",
    SET "about:\n  by: \"ann\" \n...\n",
    SET "about:\n  by: \"ann\\\"\n...\n",
    SET "about:\n  by: \"ann\\\n...\n",
    SET "about:\n  by: ann\n    bob\n...\n",
    SET "about:\n  by: \"ann\n    bob\"\n...\n",
    SET "about:\n  by ann\n...\n",
    SET "about:\n  by:ann\n...\n",
    SET "about:\n  by: ann...\n",
    SET "about:\n  by: \"ann\"...\n",
    SET "about:\n  by: |...\n",
    SET "about:\n  by: ann\n\n...\n",
    SET "about:\n\n  by: ann\n...\n",
    SET "about:\n by: ann\n...\n",
    SET "about:\n    by: ann\n...\n",
    SET "about:\n  : ann\n...\n",
    SET "about:\n  80: ann\n...\n",
    SET "about:\n  no: ann\n...\n",
    SET "about:\n  a b: ann\n...\n",
    SET "about:\n  \"by: ann\n...\n",
    SET "about:\n  \"by\\\": ann\n...\n",
    SET "about:\n  \"by\" : ann\n...\n",
    SET "about:\n  \"b\ny\": ann\n...\n",
    SET "about:\n  \"by\\...\n",
    SET "about:\n  ? by\n  : ann\n...\n",
    SET "about:\n  by: ann\nabout:\n  by: bob\n...\n",
    SET "about:\n  by: ann\nset: c\npath: \"\"\nvalue: x\n...\n",
    SET "about:\n  by: ann\n---\n...\n",
    SET "about:\n  by: ann\n# why\n...\n",
    SET "\"about\":\n  by: ann\n...\n",
    SET "about :\n  by: ann\n...\n",
    SET "About:\n  by: ann\n...\n",
    SET "abouts:\n  by: ann\n...\n",
    SET "about:  \n  by: ann\n...\n",
    SET "about:\r\n  by: ann\r\n...\n",
    BATCH "about:\n  by: ann\n  - delete: d\n    path: \"\"\n...\n",
    BATCH "about:\n    by: ann\n...\n",
    BATCH "  about:\n    by: ann\n...\n",
    BATCH "  - about:\n      by: ann\n...\n",
};

/* What no program writes, of which no edit can be read. */
static const char *const HOSTILE_AT_ONCE[] = {
    "---\nabout:\n  by: ann\n...\n",
    "---\nat: \"3\"\nabout:\n  by: ann\n...\n",
    "---\nabout:\n  by: ann\nat: \"3\"\nset: c\npath: \"\"\nvalue: x\n...\n",
    "---\nat: \"3\"\nabout:\n  by: ann\nset: c\npath: \"\"\nvalue: x\n...\n",
    "---\nat: \"3\"\nset: c\nabout:\n  by: ann\npath: \"\"\nvalue: x\n...\n",
    "---\nat: \"3\"\nset: c\npath: \"\"\nabout:\n  by: ann\nvalue: x\n...\n",
    "---\nat: \"3\"\nbatch:\nabout:\n  by: ann\n...\n",
    "---\nat: \"3\"\nbatch: []\nabout:\n  by: ann\n...\n",
    "---\nat: \"3\"\nbatch:\n  - about:\n      by: ann\n...\n",
    SET "about:\n  by: ann\n",
    SET "about:\n  by: ann\n..",
    "",
    "...",
};

/* A record that no program writes is told behind so many edits, and where its about is read alone. */
static void expect_hostile(const char *record, long edits) {
    struct confstore_edit edit;
    struct confstore_about_pair pair;
    size_t place = 0, length = strlen(record);
    char *copy = malloc(length + 1), *exact = copy + 1; /* so that a read past its end is seen */
    memcpy(exact, record, length);
    for (long at = 0; at < edits; at++)
        expect_status(record, confstore_read_edit(exact, length, &place, &edit), CONFSTORE_OK);
    expect_status(record, confstore_read_edit(exact, length, &place, &edit), CONFSTORE_NOT_IN_STYLE);
    place = 0;
    expect_status(record, confstore_read_about(exact, length, &place, &pair), CONFSTORE_NOT_IN_STYLE);
    expect("the place", (long)place, 0);
    free(copy);
}

void hostile_abouts(void) {
    for (size_t at = 0; at < sizeof HOSTILE / sizeof *HOSTILE; at++) expect_hostile(HOSTILE[at], 1);
    for (size_t at = 0; at < sizeof HOSTILE_AT_ONCE / sizeof *HOSTILE_AT_ONCE; at++)
        expect_hostile(HOSTILE_AT_ONCE[at], 0);
}

/* Reads all of a record from a place on. How many edits and pairs there were, or -1 if they don't end. */
static long read_all(const char *record, size_t length, size_t place) {
    struct confstore_edit edit;
    struct confstore_about_pair pair;
    size_t after = place;
    long count = 0;
    while (count < 99 && confstore_read_edit(record, length, &after, &edit) == CONFSTORE_OK) count++;
    while (count < 99 && confstore_read_about(record, length, &after, &pair) == CONFSTORE_OK) count++;
    while (count < 99 && confstore_read_about(record, length, &place, &pair) == CONFSTORE_OK) count++;
    return count < 99 ? count : -1;
}

/* Records with changed bytes, each in memory of its own length, and from any place: no read goes past it, and all
 * end. */
void changed_abouts(void) {
    static const char RECORD[] = BATCH "  - set: c\n    path: \"/l\"\n    value: |+\n      x\n\nabout:\n  by: ann\n"
                                       "  \"a \\\" b\": |+\n    c\n\n  why: \"d \\\\\"\n...\n";
    static const char SIGNS[] = "ab \n\n  -:\"|.\\";
    unsigned state = 1;
    long read = 0;
    for (size_t place = 0; place < sizeof RECORD + 8; place++)
        expect("from any place", read_all(RECORD, sizeof RECORD - 1, place) >= 0, 1);
    for (int turn = 0; turn < CHANGED; turn++) {
        size_t length = sizeof RECORD - 1;
        char *copy = malloc(length);
        memcpy(copy, RECORD, length);
        for (int change = turn % 4; change > 0; change--) {
            state = state * 1103515245u + 12345u;
            copy[(state >> 8) % length] = SIGNS[(state >> 20) % (sizeof SIGNS - 1)];
        }
        long count = read_all(copy, length, 0);
        if (count < 0) expect_bytes("a changed record does not end", copy, length, "", 0);
        read += count;
        read_all(copy, length, (state >> 4) % (length + 8));
        free(copy);
    }
    expect("some are read", read > 2 * CHANGED, 1);
}

/* Watching. */

#define RECORD_2 "---\nat: \"2\"\nset: c\npath: \"/n\"\nvalue: \"1\"\n...\n"
#define RECORD_3                                                                                                       \
    "---\nat: \"3\"\nset: c\npath: \"/n\"\nvalue: \"2\"\nabout:\n  by: ann\n  why: |\n    a\n    ...\n...\n"
#define RECORD_4 "---\nat: \"4\"\nbatch:\n  - delete: c\n    path: \"\"\nabout:\n  by: bob\n...\n"

static void expect_told(struct confstore_watch *watch, uint64_t number, const char *record) {
    struct confstore_change change = {0};
    expect_status("a change", confstore_watch_next(watch, 0, &change), CONFSTORE_OK);
    expect("its number", (long)change.first, (long)number);
    expect_bytes("its record", change.record, change.length, record, strlen(record));
}

/* The first about renews the file, which gets a base of the third format: each change is told once all the same, and
 * none is cut. And that file from its start. */
void renewed_files(void) {
    static const char OLD[] = "---\nstore: confstore-2\nat: \"1\"\nconfigs:\n  c:\n    \"n\": \"0\"\n...\n" RECORD_2;
    static const char NEW[] = "---\nstore: confstore-3\nat: \"2\"\nconfigs:\n  c:\n    \"n\": \"1\"\n...\n" RECORD_3
                              RECORD_4;
    struct confstore_watch *watch, *later;
    struct confstore_change change;
    folder_of("renewed");
    write_file(path_of("renewed/store.yaml"), OLD, 0600);
    expect_status("watch", confstore_watch_open(path_of("renewed"), 2, &watch), CONFSTORE_OK);
    write_file(path_of("renewed/next.yaml"), NEW, 0600);
    if (rename(path_of("renewed/next.yaml"), path_of("renewed/store.yaml")) != 0) perror("rename");
    expect_told(watch, 2, RECORD_2);
    expect_told(watch, 3, RECORD_3);
    expect_told(watch, 4, RECORD_4);
    expect_status("no more", confstore_watch_next(watch, 0, &change), CONFSTORE_TIMED_OUT);
    confstore_watch_close(watch);
    expect_status("from its start", confstore_watch_open(path_of("renewed"), 1, &later), CONFSTORE_OK);
    expect_status("a cut", confstore_watch_next(later, 0, &change), CONFSTORE_OK);
    expect("its kind", (long)change.event, CONFSTORE_EVENT_CUT);
    expect("its last number", (long)change.last, 2);
    expect_told(later, 3, RECORD_3);
    expect_told(later, 4, RECORD_4);
    confstore_watch_close(later);
}

/* Over a store. */

/* Whether the program of a store knows abouts: it refuses the name in this command, which has one. */
static bool has_abouts(struct confstore *store) {
    struct confstore_bytes answer = {0};
    struct confstore_answer said = ask_text(store, "delete: \"-\"\npath: /\nabout: {by: ann}\n...\n", &answer);
    bool has = said.length == 7 && !memcmp(said.value, "BadName", 7);
    confstore_bytes_free(&answer);
    return has;
}

/* The answer to a set of `/n` of the configuration `c`, maybe under a condition, or in a batch, with an about. */
static struct confstore_answer set_about(struct confstore *store, const struct confstore_condition *condition,
                                         bool is_batch, const struct confstore_pair *pairs, size_t count,
                                         struct confstore_bytes *answer) {
    struct confstore_bytes command = {0};
    size_t conditions = condition ? 1 : 0;
    if (is_batch) {
        confstore_begin_batch_when(&command, condition, conditions);
        confstore_begin_edit(&command, "set", "c", 1);
        confstore_write_edit_pair(&command, "path", "/n", 2);
        confstore_write_edit_pair(&command, "value", "3", 1);
    } else {
        confstore_begin_when(&command, condition, conditions);
        confstore_write_pair(&command, "set", "c", 1);
        confstore_write_pair(&command, "path", "/n", 2);
        confstore_write_pair(&command, "value", "2", 1);
    }
    expect_status("an about", confstore_write_about(&command, pairs, count), CONFSTORE_OK);
    confstore_end(&command);
    struct confstore_answer said = ask(store, command.data, command.length, answer);
    confstore_bytes_free(&command);
    return said;
}

/* Looks whether the next change is a set of `c` with this value and these pairs. */
static void expect_set(struct confstore_watch *watch, const char *value, const struct confstore_pair *pairs,
                       size_t count) {
    struct confstore_change change = {0};
    expect_status("a change", confstore_watch_next(watch, 0, &change), CONFSTORE_OK);
    expect("it is one", (long)change.event, CONFSTORE_EVENT_CHANGE);
    if (change.record)
        expect_record((struct confstore_part){change.record, change.length}, 1, value, pairs, count);
}

/* Each pair comes back as it was sent, behind an edit, a batch and a condition. */
static void abouts_come_back(struct confstore *store, struct confstore_watch *watch) {
    static const struct confstore_condition THERE = {CONFSTORE_IF_ABSENT, {"c", 1}, {"/m", 2}, {NULL, 0}, 0};
    static const struct confstore_condition NOT_THERE = {CONFSTORE_IF_ABSENT, {"c", 1}, {"/n", 2}, {NULL, 0}, 0};
    struct confstore_bytes answer = {0};
    struct confstore_pair all[ROW_COUNT];
    size_t count = 0;
    for (size_t at = 0; at < ROW_COUNT; at++) {
        bool is_batch = at % 2 > 0;
        const struct confstore_condition *condition = at % 3 > 0 ? &THERE : NULL;
        struct confstore_answer said = set_about(store, condition, is_batch, &ROWS[at].pair, 1, &answer);
        expect("it is accepted", said.kind, CONFSTORE_SAID_OK);
        expect_set(watch, is_batch ? "\"3\"\n" : "\"2\"\n", &ROWS[at].pair, 1);
        bool is_new = true;
        for (size_t other = 0; other < count; other++) is_new = is_new && strcmp(all[other].key, ROWS[at].pair.key);
        if (is_new) all[count++] = ROWS[at].pair;
    }
    expect("all", set_about(store, &THERE, true, all, count, &answer).kind, CONFSTORE_SAID_OK);
    expect_set(watch, "\"3\"\n", all, count);
    expect("none", set_about(store, NULL, false, NULL, 0, &answer).kind, CONFSTORE_SAID_OK);
    expect_set(watch, "\"2\"\n", NULL, 0);
    expect("unmet", set_about(store, &NOT_THERE, true, all, count, &answer).kind, CONFSTORE_SAID_UNMET);
    confstore_bytes_free(&answer);
}

/* What is at a limit is accepted, and what is past it refused. */
static void abouts_at_limits(struct confstore *store, struct confstore_watch *watch) {
    static const char *const KEYS[] = {"a", "b", "c", "d", "e", "f", "g", "h", "i",
                                       "j", "k", "l", "m", "o", "p", "q", "r"};
    struct confstore_bytes answer = {0};
    struct confstore_pair many[17];
    char text[LONGEST_WHY + 2], key[66];
    memset(text, ' ', sizeof text);
    memset(key, 'k', sizeof key);
    for (size_t at = 0; at < 17; at++) many[at] = (struct confstore_pair){KEYS[at], "", 0};
    for (size_t past = 0; past < 2; past++) {
        key[64 + past] = 0;
        const struct confstore_pair long_key = {key, "", 0}, long_text = {"why", text, LONGEST_WHY + past};
        const struct {
            const struct confstore_pair *pairs;
            size_t count;
        } ABOUTS[] = {{many, 16 + past}, {&long_key, 1}, {&long_text, 1}};
        for (size_t at = 0; at < sizeof ABOUTS / sizeof *ABOUTS; at++) {
            struct confstore_answer said =
                set_about(store, NULL, false, ABOUTS[at].pairs, ABOUTS[at].count, &answer);
            expect("at a limit", said.kind, past ? CONFSTORE_SAID_REFUSED : CONFSTORE_SAID_OK);
            if (past) expect_bytes("past it", said.value, said.length, "AboutLarge", 10);
            else expect_set(watch, "\"2\"\n", ABOUTS[at].pairs, ABOUTS[at].count);
        }
        key[64 + past] = 'k';
    }
    confstore_bytes_free(&answer);
}

/* The calls that are one command each have the about that was set last. */
static void abouts_of_calls(struct confstore *store, struct confstore_watch *watch) {
    static const struct confstore_pair ANN[] = {PAIR("by", "ann"), PAIR("why", "a\n\nb\n\n")};
    static const struct confstore_pair NO_TEXT[] = {PAIR("by", "bob"), PAIR("why", "\xff")};
    struct confstore_answer said;
    for (int turn = 0; turn < 3; turn++) {
        const struct confstore_pair *pairs = turn == 1 ? NULL : ANN;
        size_t count = turn == 1 ? 0 : turn == 0 ? 2 : 1;
        expect_status("set an about", confstore_set_about(store, pairs, count), CONFSTORE_OK);
        expect_status("no text", confstore_set_about(store, NO_TEXT, 2), CONFSTORE_NOT_TEXT);
        expect_status("import", confstore_import(store, "c", "n: 4", 4, &said), CONFSTORE_OK);
        expect_set(watch, "  \"n\": \"4\"\n", pairs, count);
        expect_status("set", confstore_set(store, "c", "/n", "5", 1, &said), CONFSTORE_OK);
        expect_set(watch, "\"5\"\n", pairs, count);
        expect_status("get", confstore_get(store, "c", "/n", &said), CONFSTORE_OK);
        expect("a value", said.kind, CONFSTORE_SAID_VALUE);
        expect_status("delete", confstore_delete(store, "c", "/n", &said), CONFSTORE_OK);
        expect_set(watch, "", pairs, count);
    }
}

/* A program that knows no abouts refuses each; and the calls go on once none is set any more. */
static void abouts_that_are_refused(struct confstore *store) {
    static const struct confstore_pair ANN = PAIR("by", "ann");
    struct confstore_answer said;
    expect_status("set an about", confstore_set_about(store, &ANN, 1), CONFSTORE_OK);
    expect_status("a set with one", confstore_set(store, "c", "/n", "1", 1, &said), CONFSTORE_OK);
    expect_bytes("it is refused", said.value, said.length, "BadCommand", 10);
    expect_status("a get has none", confstore_get(store, "c", "/n", &said), CONFSTORE_OK);
    expect("a value", said.kind, CONFSTORE_SAID_VALUE);
    expect_status("set none", confstore_set_about(store, NULL, 0), CONFSTORE_OK);
    expect_status("a set without one", confstore_set(store, "c", "/n", "1", 1, &said), CONFSTORE_OK);
    expect("it is accepted", said.kind, CONFSTORE_SAID_OK);
}

/* Each allocation of an about that is set is refused in turn: the one before stays. */
static void abouts_without_memory(struct confstore *store, struct confstore_watch *watch) {
    static const struct confstore_pair ANN = PAIR("by", "ann"), BOB[] = {PAIR("by", "bob"), PAIR("why", "a\nb\n")};
    struct confstore_answer said;
    bool is_refused = true;
    for (long number = 0; is_refused && number < 20; number++) {
        expect_status("set an about", confstore_set_about(store, &ANN, 1), CONFSTORE_OK);
        refuse_after(number);
        enum confstore_status status = confstore_set_about(store, BOB, 2);
        is_refused = was_refused();
        refuse_after(-1);
        expect_status("without memory", status, is_refused ? CONFSTORE_NO_MEMORY : CONFSTORE_OK);
        expect_status("set", confstore_set(store, "c", "", "6", 1, &said), CONFSTORE_OK);
        if (watch) expect_set(watch, "\"6\"\n", is_refused ? &ANN : BOB, is_refused ? 1 : 2);
    }
    expect("not all are refused", is_refused, 0);
    confstore_set_about(store, NULL, 0);
}

/* What a program in shell is sent by a call with an about: all of it is there. */
static void an_about_as_it_is_sent(void) {
    static const char BODY[] = "#!/bin/sh\nread a; read b; printf -- '---\\nnames: []\\n...\\n'\nhead -n 9 >'%s'\n"
                               "printf -- '---\\nok: \"1\"\\n...\\n'\n";
    static const char SENT[] = "---\nset: c\npath: \"/n\"\nvalue: \"1\"\nabout:\n  by: ann\n  why: |\n    a\n...\n";
    static const struct confstore_pair PAIRS[] = {PAIR("by", "ann"), PAIR("why", "a\n")};
    struct confstore *store;
    struct confstore_answer said;
    char script[8192], sent[512];
    snprintf(script, sizeof script, BODY, path_of("sent"));
    const char *path = path_of("script");
    write_file(path, script, 0700);
    expect_status("open", confstore_open(path, path_of(""), PATIENCE, &store), CONFSTORE_OK);
    expect_status("an about", confstore_set_about(store, PAIRS, 2), CONFSTORE_OK);
    expect_status("set", confstore_set(store, "c", "/n", "1", 1, &said), CONFSTORE_OK);
    expect("its count", (long)said.count, 1);
    expect_status("close", confstore_close(store, NULL), CONFSTORE_OK);
    FILE *file = fopen(path_of("sent"), "r");
    size_t length = file ? fread(sent, 1, sizeof sent, file) : 0;
    if (file) fclose(file);
    expect_bytes("what was sent", sent, length, SENT, sizeof SENT - 1);
}

/* A call on a session that is over says how it ended. */
static void an_about_of_an_ended_session(void) {
    static const struct confstore_pair ANN = PAIR("by", "ann");
    struct confstore *store;
    struct confstore_answer said;
    const char *path = path_of("script");
    write_file(path, "#!/bin/sh\nread a; read b; printf -- '---\\nnames: []\\n...\\n'\n", 0700);
    expect_status("open", confstore_open(path, path_of(""), PATIENCE, &store), CONFSTORE_OK);
    expect_status("set", confstore_set(store, "c", "", "x", 1, &said), CONFSTORE_ENDED);
    expect_status("set an about", confstore_set_about(store, &ANN, 1), CONFSTORE_ENDED);
    expect_status("close", confstore_close(store, NULL), CONFSTORE_ENDED);
}

void abouts(const char *program) {
    struct confstore *store;
    struct confstore_watch *watch;
    struct confstore_answer said;
    an_about_as_it_is_sent();
    an_about_of_an_ended_session();
    expect_status("open", confstore_open(program, folder_of("abouts"), PATIENCE, &store), CONFSTORE_OK);
    expect_status("import", confstore_import(store, "c", "n: 0", 4, &said), CONFSTORE_OK);
    expect_status("watch", confstore_watch_open(path_of("abouts"), 0, &watch), CONFSTORE_OK);
    if (has_abouts(store)) {
        abouts_come_back(store, watch);
        abouts_at_limits(store, watch);
        abouts_of_calls(store, watch);
        abouts_without_memory(store, watch);
    } else {
        printf("left out: this program has no abouts (BadCommand)\n");
        abouts_that_are_refused(store);
        abouts_without_memory(store, NULL);
    }
    confstore_watch_close(watch);
    expect_status("close", confstore_close(store, NULL), CONFSTORE_OK);
}
