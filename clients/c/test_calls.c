/* Tries the calls that are one command each: see test_confstore.c. */
#include "test.h"

#include <stdio.h>
#include <stdlib.h>
#include <string.h>

#define PATIENCE 60000

static void expect_refused(const char *name, enum confstore_status status, const struct confstore_answer *said,
                           const char *word) {
    expect_status(name, status, CONFSTORE_OK);
    expect(name, said->kind, CONFSTORE_SAID_REFUSED);
    expect_bytes(name, said->value, said->length, word, strlen(word));
}

static void expect_count(const char *name, enum confstore_status status, const struct confstore_answer *said,
                         uint64_t count) {
    expect_status(name, status, CONFSTORE_OK);
    expect(name, said->kind, CONFSTORE_SAID_OK);
    expect(name, (long)said->count, (long)count);
}

/* What is at a path is a text: by this call, and by a command that is written out. */
static void expect_text(struct confstore *store, const char *path, const char *text, size_t length) {
    struct confstore_bytes found = {0}, answer = {0};
    struct confstore_answer said;
    char command[200];
    expect_status("get", confstore_get(store, "one", path, &said), CONFSTORE_OK);
    expect("get", said.kind, CONFSTORE_SAID_VALUE);
    expect_status("its text", confstore_read_text(said.value, said.length, &found), CONFSTORE_OK);
    expect_bytes("its text", found.data, found.length, text, length);
    snprintf(command, sizeof command, "get: one\npath: \"%s\"\n...\n", path);
    struct confstore_answer written = ask_text(store, command, &answer);
    expect_bytes("the same value", said.value, said.length, written.value, written.length);
    confstore_bytes_free(&found);
    confstore_bytes_free(&answer);
}

/* Each call changes what it says, and counts once. */
static void changes(struct confstore *store, uint64_t count) {
    static const char TEXT[] = "8: \xc3\xa4 #\n\0 1\n\n";
    struct confstore_answer said;
    const char *const text = "{port: 80, hosts: [a]}";
    expect_count("import", confstore_import(store, "one", text, strlen(text), &said), &said, count + 1);
    expect_count("set", confstore_set(store, "one", "/port", TEXT, sizeof TEXT - 1, &said), &said, count + 2);
    expect_text(store, "/port", TEXT, sizeof TEXT - 1);
    expect_count("append", confstore_set(store, "one", "/hosts/-", "b", 1, &said), &said, count + 3);
    expect_text(store, "/hosts/1", "b", 1);
    expect_count("no text", confstore_set(store, "one", "/hosts/0", "", 0, &said), &said, count + 4);
    expect_text(store, "/hosts/0", "", 0);
    expect_count("delete", confstore_delete(store, "one", "/port", &said), &said, count + 5);
    expect_refused("what is gone", confstore_get(store, "one", "/port", &said), &said, "NoSuchPlace");
    expect_status("a list", confstore_get(store, "one", "/hosts", &said), CONFSTORE_OK);
    expect_bytes("a list", said.value, said.length, "  - \"\"\n  - b\n", 13);
    expect_count("delete all", confstore_delete(store, "one", "", &said), &said, count + 6);
    expect_refused("no name", confstore_set(store, "one", "/port", "80", 2, &said), &said, "NoConfig");
    expect_refused("no name to delete", confstore_delete(store, "one", "", &said), &said, "NoConfig");
    expect_refused("no YAML", confstore_import(store, "one", "[", 1, &said), &said, "Syntax");
    expect_refused("no path", confstore_set(store, "c", "port", "80", 2, &said), &said, "BadPath");
}

/* What can't be sent changes nothing, and the session goes on. */
static void unsent(struct confstore *store) {
    struct confstore_answer said;
    size_t length = CONFSTORE_LONGEST_COMMAND;
    char *large = malloc(length);
    memset(large, 'x', length);
    expect_status("no UTF-8", confstore_set(store, "c", "", "\xff", 1, &said), CONFSTORE_NOT_TEXT);
    expect_status("a name without UTF-8", confstore_delete(store, "\xed\xa0\x80", "", &said), CONFSTORE_NOT_TEXT);
    expect_status("too long", confstore_import(store, "c", large, length, &said), CONFSTORE_TOO_LONG_TO_SEND);
    expect("nothing is said", said.kind == CONFSTORE_SAID_OK && said.count == 0 && !said.value, 1);
    free(large);
}

/* No call takes the answer to another command for its own. */
static void due(struct confstore *store) {
    static const char NAMES[] = "names:\n...\n";
    struct confstore_bytes answer = {0};
    struct confstore_answer said;
    expect_status("send", confstore_send(store, NAMES, sizeof NAMES - 1), CONFSTORE_OK);
    for (int turn = 0; turn < 2; turn++)
        expect_status("an answer is due", confstore_set(store, "c", "", "lost", 4, &said), CONFSTORE_TIMED_OUT);
    expect_status("take it", confstore_take(store, &answer), CONFSTORE_OK);
    expect_status("read it", confstore_read_answer(answer.data, answer.length, &said), CONFSTORE_OK);
    expect("it is the other's", said.kind, CONFSTORE_SAID_NAMES);
    expect_status("nothing was sent", confstore_take(store, &answer), CONFSTORE_NOTHING_DUE);
    confstore_bytes_free(&answer);
}

void single_calls(struct confstore *store) {
    struct confstore_answer said;
    expect_status("the count", confstore_import(store, "one", "x", 1, &said), CONFSTORE_OK);
    uint64_t count = said.count;
    changes(store, count);
    unsent(store);
    due(store);
    expect_count("refusals don't count", confstore_import(store, "one", "x", 1, &said), &said, count + 7);
    expect_count("the last one", confstore_delete(store, "one", "", &said), &said, count + 8);
}

/* Where an allocation is refused to a change, it was not sent: the next one is counted as if it had not been. */
void single_calls_without_memory(const char *program) {
    struct confstore *store;
    struct confstore_answer said;
    uint64_t count = 0;
    bool is_refused = true;
    for (long number = 0; is_refused && number < 20; number++) {
        const char *folder = number ? path_of("calls") : folder_of("calls");
        expect_status("open", confstore_open(program, folder, PATIENCE, &store), CONFSTORE_OK);
        refuse_after(number);
        enum confstore_status status = confstore_import(store, "one", "x", 1, &said);
        is_refused = was_refused();
        refuse_after(-1);
        expect_status("without memory", status, is_refused ? CONFSTORE_NO_MEMORY : CONFSTORE_OK);
        if (!is_refused) expect("it is counted", (long)said.count, (long)++count);
        status = confstore_set(store, "one", "", "y", 1, &said);
        if (count) expect_count("the next one", status, &said, ++count);
        else expect_refused("nothing was sent", status, &said, "NoConfig");
        expect_status("close", confstore_close(store, NULL), CONFSTORE_OK);
    }
    expect("not all are refused", is_refused, 0);
}

/* What a program in shell that answers the first command, and then does this, has a set return; the next set, too. */
static void with_program(const char *body, int timeout, enum confstore_status wanted, enum confstore_status then) {
    struct confstore *store;
    struct confstore_answer said;
    char script[1024];
    const char *path = path_of("script");
    snprintf(script, sizeof script, "#!/bin/sh\nread a; read b; printf -- '---\\nnames: []\\n...\\n'\n%s\n", body);
    write_file(path, script, 0700);
    expect_status(body, confstore_open(path, path_of(""), timeout, &store), CONFSTORE_OK);
    expect_status(body, confstore_set(store, "c", "", "x", 1, &said), wanted);
    expect_status(body, confstore_set(store, "c", "", "x", 1, &said), then);
    expect_status(body, confstore_get(store, "c", "", &said), then);
    expect_status(body, confstore_close(store, NULL), wanted);
}

void single_calls_of_wrong_programs(void) {
    static const struct {
        const char *body;
        int timeout;
        enum confstore_status wanted;
    } BODIES[] = {
        {"read a; printf -- '---\\nok:'", PATIENCE, CONFSTORE_ANSWER_CUT},
        {"kill -9 $$", PATIENCE, CONFSTORE_ENDED},
        {"read a; echo 'confstore: Device' >&2; exit 3", PATIENCE, CONFSTORE_DEVICE},
        {"read a; printf '[\\n...\\n'; exec sleep 100", PATIENCE, CONFSTORE_BAD_ANSWER},
        {"read a; printf -- '---\\nok: x\\n...\\n'; exec sleep 100", PATIENCE, CONFSTORE_BAD_ANSWER},
        {"read a; printf -- '---\\nnames: []\\n...\\n'; exec sleep 100", PATIENCE, CONFSTORE_BAD_ANSWER},
        {"read a; printf -- '---\\nvalue: x\\n...\\n'; exec sleep 100", PATIENCE, CONFSTORE_BAD_ANSWER},
        {"read a; printf -- '---\\nrefused: Unmet\\n...\\n'; exec sleep 100", PATIENCE, CONFSTORE_BAD_ANSWER},
        {"exec sleep 100", 2000, CONFSTORE_TIMED_OUT},
    };
    for (size_t at = 0; at < sizeof BODIES / sizeof *BODIES; at++)
        with_program(BODIES[at].body, BODIES[at].timeout, BODIES[at].wanted, BODIES[at].wanted);
}
