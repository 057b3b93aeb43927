/* Tries the conditions of commands: how they are written, and what a session makes of them. See test_confstore.c. */
#define _GNU_SOURCE
#include "test.h"

#include <inttypes.h>
#include <pthread.h>
#include <stdio.h>
#include <stdlib.h>
#include <string.h>

#define PATIENCE 60000
#define CLIENTS 8
#define TURNS 100

#define PART(text)                                                                                                     \
    { text, sizeof text - 1 }

/* Conditions with what they are in a command, worked out by hand from docs/SESSION.md and docs/STYLE.md. */
static const struct {
    struct confstore_condition condition;
    const char *written;
} ROWS[] = {
    {{CONFSTORE_IF_TEXT, PART("web"), PART("/port"), PART("80"), 0},
     "  - test: web\n    path: \"/port\"\n    value: \"80\"\n"},
    {{CONFSTORE_IF_TEXT, PART("web"), PART("/text"), PART("a\nb\n"), 0},
     "  - test: web\n    path: \"/text\"\n    value: |\n      a\n      b\n"},
    {{CONFSTORE_IF_VALUE, PART("web"), PART("/port"), PART("\"80\"\n"), 0},
     "  - test: web\n    path: \"/port\"\n    value: \"80\"\n"},
    {{CONFSTORE_IF_VALUE, PART("web"), PART(""), PART("[]\n"), 0}, "  - test: web\n    path: \"\"\n    value: []\n"},
    {{CONFSTORE_IF_VALUE, PART("web"), PART(""), PART("  - a\n  - b:\n      - c\n"), 0},
     "  - test: web\n    path: \"\"\n    value:\n      - a\n      - b:\n          - c\n"},
    {{CONFSTORE_IF_VALUE, PART("web"), PART(""), PART("  k: |+\n    a\n\n    b\n\n"), 0},
     "  - test: web\n    path: \"\"\n    value:\n      k: |+\n        a\n\n        b\n\n"},
    {{CONFSTORE_IF_VALUE, PART("web"), PART("/t"), PART("|-\n  a\n    \n  b\n"), 0},
     "  - test: web\n    path: \"/t\"\n    value: |-\n      a\n        \n      b\n"},
    {{CONFSTORE_IF_ABSENT, PART("web"), PART(""), PART(""), 0}, "  - absent: web\n    path: \"\"\n"},
    {{CONFSTORE_IF_ABSENT, PART("web"), PART("/tls"), PART(""), 0}, "  - absent: web\n    path: \"/tls\"\n"},
    {{CONFSTORE_IF_COUNT, PART(""), PART(""), PART(""), 0}, "  - count: \"0\"\n"},
    {{CONFSTORE_IF_COUNT, PART(""), PART(""), PART(""), UINT64_MAX}, "  - count: \"18446744073709551615\"\n"},
};

/* What is no value of an answer. */
static const struct confstore_part NO_VALUES[] = {
    PART(""), PART("80"), PART("\n"), PART("a\n...\n"), PART("  - a\nb: c\n"), PART(" - a\n"), PART("|\n  a\n x\n"),
};

void conditions_written(void) {
    struct confstore_bytes command = {0};
    char wanted[512];
    for (size_t at = 0; at < sizeof ROWS / sizeof *ROWS; at++) {
        const struct confstore_condition both[] = {ROWS[at].condition, ROWS[0].condition};
        expect_status("one", confstore_begin_when(&command, both, 1), CONFSTORE_OK);
        int length = snprintf(wanted, sizeof wanted, "---\nif:\n%s", ROWS[at].written);
        expect_bytes("one", command.data, command.length, wanted, (size_t)length);
        expect_status("two", confstore_begin_batch_when(&command, both, 2), CONFSTORE_OK);
        length = snprintf(wanted, sizeof wanted, "---\nif:\n%s%sbatch:\n", ROWS[at].written, ROWS[0].written);
        expect_bytes("two", command.data, command.length, wanted, (size_t)length);
    }
    expect_status("none", confstore_begin_batch_when(&command, NULL, 0), CONFSTORE_OK);
    expect_bytes("none", command.data, command.length, "---\nbatch:\n", 11);
    for (size_t at = 0; at < sizeof NO_VALUES / sizeof *NO_VALUES; at++) {
        const struct confstore_condition bad[] = {
            ROWS[0].condition, {CONFSTORE_IF_VALUE, PART("web"), PART(""), NO_VALUES[at], 0}};
        expect_status("no value", confstore_begin_when(&command, bad, 2), CONFSTORE_NOT_IN_STYLE);
        expect_bytes("what it leaves", command.data, command.length, "---\nbatch:\n", 11);
    }
    const struct confstore_condition no_text = {CONFSTORE_IF_TEXT, PART("a"), PART(""), PART("\xff"), 0};
    expect_status("no text", confstore_begin_when(&command, &no_text, 1), CONFSTORE_NOT_TEXT);
    confstore_bytes_free(&command);
    const struct confstore_condition three[] = {ROWS[5].condition, ROWS[8].condition, ROWS[10].condition};
    bool is_refused = true;
    for (long number = 0; is_refused && number < 100; number++) {
        refuse_after(number);
        enum confstore_status status = confstore_begin_batch_when(&command, three, 3);
        is_refused = was_refused();
        refuse_after(-1);
        expect_status("without memory", status, is_refused ? CONFSTORE_NO_MEMORY : CONFSTORE_OK);
        expect("its length", is_refused && command.length > 0, 0);
        confstore_bytes_free(&command);
    }
    expect("not all are refused", is_refused, 0);
}

/* The answer to a set of /n of the configuration `when` under conditions. */
static struct confstore_answer set_when(struct confstore *store, const struct confstore_condition *conditions,
                                        size_t count, const char *text, struct confstore_bytes *answer) {
    struct confstore_bytes command = {0};
    expect_status("begin", confstore_begin_when(&command, conditions, count), CONFSTORE_OK);
    confstore_write_pair(&command, "set", "when", 4);
    confstore_write_pair(&command, "path", "/n", 2);
    confstore_write_pair(&command, "value", text, strlen(text));
    confstore_end(&command);
    struct confstore_answer said = ask(store, command.data, command.length, answer);
    confstore_bytes_free(&command);
    return said;
}

/* Whether the program of a store knows conditions: it refuses the name in this one. */
static bool has_conditions(struct confstore *store) {
    struct confstore_bytes answer = {0};
    struct confstore_answer said =
        ask_text(store, "if:\n  - absent: \"-\"\ndelete: a\npath: /\n...\n", &answer);
    bool has = said.length == 7 && !memcmp(said.value, "BadName", 7);
    confstore_bytes_free(&answer);
    return has;
}

#define GET_N "get: when\npath: /n\n...\n"
#define GET_ALL "get: when\npath: \"\"\n...\n"

/* A batch under a condition: all of it or nothing. */
static void batches_when(struct confstore *store, struct confstore_bytes *answer) {
    struct confstore_condition condition = {CONFSTORE_IF_TEXT, PART("when"), PART("/n"), PART("2"), 0};
    for (int turn = 0; turn < 2; turn++) {
        struct confstore_bytes command = {0};
        confstore_begin_batch_when(&command, &condition, 1);
        confstore_begin_edit(&command, "set", "when", 4);
        confstore_write_edit_pair(&command, "path", "/n", 2);
        confstore_write_edit_pair(&command, "value", "3", 1);
        confstore_begin_edit(&command, "set", "when", 4);
        confstore_write_edit_pair(&command, "path", "/l/-", 4);
        confstore_write_edit_pair(&command, "value", "b", 1);
        confstore_end(&command);
        struct confstore_answer said = ask(store, command.data, command.length, answer);
        expect("a batch under a condition", said.kind, turn ? CONFSTORE_SAID_UNMET : CONFSTORE_SAID_OK);
        confstore_bytes_free(&command);
    }
    struct confstore_answer said = ask_text(store, GET_ALL, answer);
    static const char WANTED[] = "  \"n\": \"3\"\n  l:\n    - a\n    - b\n";
    expect_bytes("what it has made", said.value, said.length, WANTED, sizeof WANTED - 1);
}

void conditions(struct confstore *store) {
    if (!has_conditions(store)) {
        printf("left out: this program has no conditions\n");
        return;
    }
    struct confstore_bytes answer = {0}, old = {0};
    ask_text(store, "import: when\ntext: \"{n: 1, l: [a]}\"\n...\n", &answer);
    struct confstore_condition text = {CONFSTORE_IF_TEXT, PART("when"), PART("/n"), PART("1"), 0};
    struct confstore_condition absent = {CONFSTORE_IF_ABSENT, PART("when"), PART("/m"), PART(""), 0};
    struct confstore_condition count = {CONFSTORE_IF_COUNT, PART(""), PART(""), PART(""), 0};
    struct confstore_answer said = set_when(store, &text, 1, "2", &answer);
    expect("a text that is there", said.kind, CONFSTORE_SAID_OK);
    count.count = said.count;
    said = set_when(store, &text, 1, "9", &answer);
    expect("a text that is not there", said.kind, CONFSTORE_SAID_UNMET);
    expect_bytes("the word", said.value, said.length, "Unmet", 5);
    const struct confstore_condition all[] = {absent, count};
    said = set_when(store, all, 2, "2", &answer);
    expect("nothing there, and the count", said.kind, CONFSTORE_SAID_OK);
    expect("the next count", (long)said.count, (long)count.count + 1);
    expect("another count", set_when(store, all, 2, "9", &answer).kind, CONFSTORE_SAID_UNMET);
    said = ask_text(store, GET_ALL, &old);
    struct confstore_condition whole = {CONFSTORE_IF_VALUE, PART("when"), PART(""), {said.value, said.length}, 0};
    expect("a whole configuration", set_when(store, &whole, 1, "2", &answer).kind, CONFSTORE_SAID_OK);
    absent.path = (struct confstore_part)PART("/n");
    expect("something there", set_when(store, &absent, 1, "9", &answer).kind, CONFSTORE_SAID_UNMET);
    batches_when(store, &answer);
    expect("what was a whole configuration", set_when(store, &whole, 1, "9", &answer).kind, CONFSTORE_SAID_UNMET);
    confstore_bytes_free(&answer);
    confstore_bytes_free(&old);
}

/* A client that adds one to a number so many times: where another one came between, it tries again. */
static void *add(void *path) {
    struct confstore *store;
    struct confstore_bytes old = {0}, answer = {0};
    if (confstore_connect(path, PATIENCE, &store) != CONFSTORE_OK) return "connect";
    const char *wrong = NULL;
    for (int turn = 0; !wrong && turn < TURNS;) {
        struct confstore_answer is, said;
        char text[32];
        if (confstore_ask(store, GET_N, sizeof GET_N - 1, &old) || confstore_read_answer(old.data, old.length, &is)) {
            wrong = "get";
            break;
        }
        snprintf(text, sizeof text, "%ld", strtol(is.value + 1, NULL, 10) + 1);
        struct confstore_condition still = {CONFSTORE_IF_VALUE, PART("when"), PART("/n"), {is.value, is.length}, 0};
        struct confstore_bytes command = {0};
        if (confstore_begin_when(&command, &still, 1) || confstore_write_pair(&command, "set", "when", 4) ||
            confstore_write_pair(&command, "path", "/n", 2) ||
            confstore_write_pair(&command, "value", text, strlen(text)) || confstore_end(&command) ||
            confstore_ask(store, command.data, command.length, &answer) ||
            confstore_read_answer(answer.data, answer.length, &said))
            wrong = "set";
        else if (said.kind == CONFSTORE_SAID_OK) turn++;
        else if (said.kind != CONFSTORE_SAID_UNMET) wrong = "refused";
        confstore_bytes_free(&command);
    }
    confstore_bytes_free(&old);
    confstore_bytes_free(&answer);
    return confstore_close(store, NULL) == CONFSTORE_OK ? (void *)wrong : "close";
}

/* Clients of a server, side by side. */
void adders(const char *served) {
    struct confstore *store;
    struct confstore_bytes answer = {0};
    char path[4096];
    snprintf(path, sizeof path, "%s", served);
    expect_status("connect", confstore_connect(path, PATIENCE, &store), CONFSTORE_OK);
    if (store && has_conditions(store)) {
        pthread_t threads[CLIENTS];
        ask_text(store, "import: when\ntext: \"n: 0\"\n...\n", &answer);
        for (int client = 0; client < CLIENTS; client++) pthread_create(&threads[client], NULL, add, path);
        for (int client = 0; client < CLIENTS; client++) {
            void *wrong = "none";
            pthread_join(threads[client], &wrong);
            expect_bytes("a client", wrong, wrong ? strlen(wrong) : 0, "", 0);
        }
        struct confstore_answer said = ask_text(store, GET_N, &answer);
        expect("what they have made", strtol(said.value + 1, NULL, 10), CLIENTS * TURNS);
        said = ask_text(store, "delete: when\npath: \"\"\n...\n", &answer);
        expect("the store is as it was", said.kind, CONFSTORE_SAID_OK);
    }
    expect_status("disconnect", confstore_close(store, NULL), CONFSTORE_OK);
    confstore_bytes_free(&answer);
}
