/* Tries watches, batches and the edits of records: see test_confstore.c. */
#define _GNU_SOURCE
#include "test.h"

#include <fcntl.h>
#include <stdio.h>
#include <stdlib.h>
#include <string.h>
#include <sys/resource.h>
#include <sys/wait.h>
#include <time.h>
#include <unistd.h>

#define PATIENCE 60000
#define SLICED 300
#define CHANGED 50000

static const char *program;

/* A folder with a store of one configuration, `c`, which is a mapping. */
static const char *store_in(const char *name) {
    static const char IMPORT[] = "import: c\ntext: \"n: 0\"\n...\n";
    struct confstore *store;
    struct confstore_bytes answer = {0};
    const char *folder = folder_of(name);
    expect_status("open", confstore_open(program, folder, PATIENCE, &store), CONFSTORE_OK);
    expect("import", ask_text(store, IMPORT, &answer).kind, CONFSTORE_SAID_OK);
    expect_status("close", confstore_close(store, NULL), CONFSTORE_OK);
    confstore_bytes_free(&answer);
    return folder;
}

/* Sends commands to a session of the store, one after the other. */
static void send_all(const char *folder, const char *const *commands, size_t count) {
    struct confstore *store;
    struct confstore_bytes answer = {0};
    expect_status("open", confstore_open(program, folder, PATIENCE, &store), CONFSTORE_OK);
    for (size_t at = 0; store && at < count; at++)
        expect("a command", ask_text(store, commands[at], &answer).kind, CONFSTORE_SAID_OK);
    expect_status("close", confstore_close(store, NULL), CONFSTORE_OK);
    confstore_bytes_free(&answer);
}

/* Sets `n` of the configuration to each number from one on, up to another. */
static void set_numbers(const char *folder, unsigned from, unsigned to) {
    struct confstore *store;
    struct confstore_bytes command = {0}, answer = {0};
    expect_status("open", confstore_open(program, folder, PATIENCE, &store), CONFSTORE_OK);
    for (unsigned number = from; store && number <= to; number++) {
        char text[16];
        snprintf(text, sizeof text, "%u", number);
        make_set(&command, "/n", text, strlen(text));
        expect("set", ask(store, command.data, command.length, &answer).kind, CONFSTORE_SAID_OK);
    }
    expect_status("close", confstore_close(store, NULL), CONFSTORE_OK);
    confstore_bytes_free(&command);
    confstore_bytes_free(&answer);
}

static void checkpoint(const char *folder) {
    static const char *const COMMANDS[] = {"checkpoint:\n...\n"};
    send_all(folder, COMMANDS, 1);
}

static struct confstore_watch *watching(const char *folder, uint64_t start) {
    struct confstore_watch *watch;
    expect_status("watch", confstore_watch_open(folder, start, &watch), CONFSTORE_OK);
    return watch;
}

/* Looks whether the next event is of a kind, with these numbers. */
static void expect_event(struct confstore_watch *watch, enum confstore_event event, uint64_t first, uint64_t last) {
    struct confstore_change change = {0};
    expect_status("an event", confstore_watch_next(watch, 0, &change), CONFSTORE_OK);
    expect("its kind", (long)change.event, (long)event);
    expect("its first number", (long)change.first, (long)first);
    expect("its last number", (long)change.last, (long)last);
    expect("its record", change.record != NULL, event == CONFSTORE_EVENT_CHANGE);
}

static void expect_nothing(struct confstore_watch *watch) {
    struct confstore_change change;
    expect_status("no event", confstore_watch_next(watch, 0, &change), CONFSTORE_TIMED_OUT);
}

/* Looks whether the next event is the change with this number, whose record ends in these lines. */
static void expect_change(struct confstore_watch *watch, uint64_t number, const char *lines) {
    struct confstore_change change = {0};
    char wanted[256];
    snprintf(wanted, sizeof wanted, "---\nat: \"%u\"\n%s...\n", (unsigned)number, lines);
    expect_status("a change", confstore_watch_next(watch, 0, &change), CONFSTORE_OK);
    expect("its number", (long)change.first, (long)number);
    expect_bytes("its record", change.record, change.length, wanted, strlen(wanted));
}

/* The same, of a set of `n` to a number. */
static void expect_number(struct confstore_watch *watch, uint64_t number, unsigned value) {
    char lines[64];
    snprintf(lines, sizeof lines, "set: c\npath: \"/n\"\nvalue: \"%u\"\n", value);
    expect_change(watch, number, lines);
}

/* Which changes are told. */

static void from_a_number_on(void) {
    const char *folder = store_in("from");
    struct confstore_watch *later = watching(folder, 0), *all = watching(folder, 1), *third = watching(folder, 3);
    expect_nothing(later);
    set_numbers(folder, 1, 2);
    expect_number(later, 2, 1);
    expect_number(later, 3, 2);
    expect_nothing(later);
    expect_change(all, 1, "import: c\ntree:\n  \"n\": \"0\"\n");
    expect_number(all, 2, 1);
    expect_number(third, 3, 2);
    expect_nothing(third);
    confstore_watch_close(later);
    confstore_watch_close(all);
    confstore_watch_close(third);
    confstore_watch_close(NULL);
}

/* What is written just before a checkpoint is told, and what no look could see is cut. */
static void over_checkpoints(void) {
    const char *folder = store_in("checkpoints");
    struct confstore_watch *watch = watching(folder, 0);
    set_numbers(folder, 1, 2);
    checkpoint(folder);
    set_numbers(folder, 3, 3);
    expect_number(watch, 2, 1);
    expect_number(watch, 3, 2);
    expect_number(watch, 4, 3);
    expect_nothing(watch);
    set_numbers(folder, 4, 4); /* in the file that is open */
    checkpoint(folder);
    set_numbers(folder, 5, 6); /* in a file that no look finds */
    checkpoint(folder);
    set_numbers(folder, 7, 7);
    expect_number(watch, 5, 4);
    expect_event(watch, CONFSTORE_EVENT_CUT, 6, 7);
    expect_number(watch, 8, 7);
    expect_nothing(watch);
    confstore_watch_close(watch);
    watch = watching(folder, 3);
    expect_event(watch, CONFSTORE_EVENT_CUT, 3, 7);
    expect_number(watch, 8, 7);
    confstore_watch_close(watch);
}

/* A base and a record that are longer than what is read at once. */
static void long_documents(void) {
    struct confstore *store;
    struct confstore_bytes command = {0}, answer = {0};
    struct confstore_change change = {0};
    const char *folder = store_in("long");
    size_t length = 3000000;
    char *text = malloc(length);
    memset(text, 'x', length);
    make_set(&command, "", text, length);
    free(text);
    expect_status("open", confstore_open(program, folder, PATIENCE, &store), CONFSTORE_OK);
    for (int turn = 0; turn < 2; turn++) {
        expect("set", ask(store, command.data, command.length, &answer).kind, CONFSTORE_SAID_OK);
        if (turn == 0) expect("checkpoint", ask_text(store, "checkpoint:\n...\n", &answer).kind, CONFSTORE_SAID_OK);
    }
    expect_status("close", confstore_close(store, NULL), CONFSTORE_OK);
    struct confstore_watch *watch = watching(folder, 2);
    expect_event(watch, CONFSTORE_EVENT_CUT, 2, 2);
    expect_status("a long record", confstore_watch_next(watch, 0, &change), CONFSTORE_OK);
    expect("its number", (long)change.first, 3);
    expect("it is long", change.length > length, 1);
    checkpoint(folder);
    expect_nothing(watch);
    confstore_watch_close(watch);
    confstore_bytes_free(&command);
    confstore_bytes_free(&answer);
}

/* A file of the store that is kept aside, and takes its place again. */
static void keep(const char *folder, const char *from, const char *to) {
    char words[8192];
    snprintf(words, sizeof words, "cd '%s' && cp '%s' new && mv new '%s'", folder, from, to);
    if (system(words) != 0) perror(words);
}

static void a_backup(void) {
    const char *folder = store_in("backup");
    struct confstore_watch *watch = watching(folder, 2);
    set_numbers(folder, 1, 1);
    keep(folder, "store.yaml", "kept");
    set_numbers(folder, 2, 3);
    expect_number(watch, 2, 1);
    expect_number(watch, 3, 2);
    expect_number(watch, 4, 3);
    keep(folder, "kept", "store.yaml");
    expect_event(watch, CONFSTORE_EVENT_REPLACED, 2, 2);
    expect_nothing(watch);
    set_numbers(folder, 9, 9);
    expect_number(watch, 3, 9);
    keep(folder, "kept", "store.yaml");
    set_numbers(folder, 8, 8); /* as many, and others */
    expect_event(watch, CONFSTORE_EVENT_REPLACED, 2, 2);
    expect_number(watch, 3, 8);
    expect_nothing(watch);
    confstore_watch_close(watch);
}

/* Appends bytes to the file of a store. */
static void append(const char *folder, const char *bytes) {
    char path[8192];
    snprintf(path, sizeof path, "%s/store.yaml", folder);
    int file = open(path, O_WRONLY | O_APPEND | O_CLOEXEC);
    if (file < 0 || write(file, bytes, strlen(bytes)) < 0) perror(path);
    close(file);
}

/* Half a record is no change, and a part of none after it. */
static void a_torn_record(void) {
    const char *folder = store_in("torn");
    struct confstore_watch *watch = watching(folder, 0);
    append(folder, "---\nat: \"2\"\nset: c\npath: \"/n\"\n");
    expect_nothing(watch);
    set_numbers(folder, 7, 7);
    expect_number(watch, 2, 7);
    append(folder, "---\nat: \"3\"\n");
    expect_nothing(watch);
    append(folder, "delete: c\npath: \"\"\n..");
    expect_nothing(watch);
    append(folder, ".\n");
    expect_change(watch, 3, "delete: c\npath: \"\"\n");
    confstore_watch_close(watch);
}

/* What was written by hand is counted, and told where it has the form of the program. */
static void by_hand(void) {
    static const char BASE[] = "store: confstore-2\nat: 4\nconfigs: {c: {n: 0}}\n...\n";
    struct confstore_change change;
    const char *folder = folder_of("hand");
    write_file(path_of("hand/store.yaml"), BASE, 0600);
    append(folder, "{at: 5, set: c, path: /n, value: 1}\n...\n");
    append(folder, "at: 6\nset: c\npath: /n\nvalue: 2\n...\n");
    struct confstore_watch *first = watching(folder, 5), *second = watching(folder, 6), *later = watching(folder, 0);
    expect_status("another form", confstore_watch_next(first, 0, &change), CONFSTORE_NOT_IN_STYLE);
    expect_status("and again", confstore_watch_next(first, 0, &change), CONFSTORE_NOT_IN_STYLE);
    expect_event(second, CONFSTORE_EVENT_CHANGE, 6, 6);
    set_numbers(folder, 3, 3);
    expect_number(second, 7, 3);
    expect_number(later, 7, 3);
    confstore_watch_close(first);
    confstore_watch_close(second);
    confstore_watch_close(later);
}

/* What becomes of a watch. */

static void ends_of_watches(void) {
    struct confstore_watch *watch;
    struct confstore_change change;
    expect_status("no folder", confstore_watch_open(path_of("none"), 1, &watch), CONFSTORE_NO_FOLDER);
    expect_status("a file", confstore_watch_open(path_of("plain"), 1, &watch), CONFSTORE_NO_FOLDER);
    expect_status("no store", confstore_watch_open(folder_of("empty"), 1, &watch), CONFSTORE_NOT_A_STORE);
    expect("no watch", watch == NULL, 1);
    folder_of("odd");
    folder_of("odd/store.yaml");
    expect_status("a folder", confstore_watch_open(path_of("odd"), 1, &watch), CONFSTORE_DEVICE);
    const char *folder = store_in("gone");
    watch = watching(folder, 0);
    set_numbers(folder, 1, 1);
    append(folder, "---\nat: \"9\"\nset: c\npath: \"/n\"\nvalue: x\n...\n");
    expect_number(watch, 2, 1);
    expect_status("another number", confstore_watch_next(watch, 0, &change), CONFSTORE_DAMAGED);
    expect_status("and again", confstore_watch_next(watch, PATIENCE, &change), CONFSTORE_DAMAGED);
    confstore_watch_close(watch);
    watch = watching(store_in("removed"), 0);
    if (unlink(path_of("removed/store.yaml")) != 0) perror("unlink");
    expect_status("removed", confstore_watch_next(watch, PATIENCE, &change), CONFSTORE_NOT_A_STORE);
    confstore_watch_close(watch);
    write_file(path_of("empty/store.yaml"), "x\n...\n", 0600);
    expect_status("no base", confstore_watch_open(path_of("empty"), 0, &watch), CONFSTORE_NOT_IN_STYLE);
    write_file(path_of("empty/store.yaml"), "", 0600);
    expect_status("nothing", confstore_watch_open(path_of("empty"), 0, &watch), CONFSTORE_NOT_A_STORE);
}

static long milliseconds_since(const struct timespec *start) {
    struct timespec end;
    clock_gettime(CLOCK_MONOTONIC, &end);
    return (long)(end.tv_sec - start->tv_sec) * 1000 + (end.tv_nsec - start->tv_nsec) / 1000000;
}

/* A change that is made while it is waited for, by another process. */
static void await_change(const char *folder, struct confstore_watch *watch, uint64_t number) {
    struct confstore_change change = {0};
    struct timespec start;
    clock_gettime(CLOCK_MONOTONIC, &start);
    expect_status("nothing comes", confstore_watch_next(watch, 300, &change), CONFSTORE_TIMED_OUT);
    expect("it waited", milliseconds_since(&start) >= 300, 1);
    fflush(stdout);
    pid_t child = fork();
    if (child == 0) {
        usleep(300000);
        set_numbers(folder, 1, 1);
        _exit(0);
    }
    expect_status("a change comes", confstore_watch_next(watch, PATIENCE, &change), CONFSTORE_OK);
    expect("its number", (long)change.first, (long)number);
    expect("in time", milliseconds_since(&start) < PATIENCE / 2, 1);
    waitpid(child, NULL, 0);
}

/* With inotify, and without it, where no more files may be open than the folder and the store's. */
static void waiting(void) {
    const char *folder = store_in("waiting");
    struct confstore_watch *watch = watching(folder, 0);
    await_change(folder, watch, 2);
    confstore_watch_close(watch);
    struct rlimit limit, few;
    getrlimit(RLIMIT_NOFILE, &limit);
    int least = open("/dev/null", O_RDONLY | O_CLOEXEC);
    close(least);
    few = (struct rlimit){(rlim_t)least + 2, limit.rlim_max};
    setrlimit(RLIMIT_NOFILE, &few);
    enum confstore_status status = confstore_watch_open(folder, 0, &watch);
    int next = open("/dev/null", O_RDONLY | O_CLOEXEC);
    setrlimit(RLIMIT_NOFILE, &limit);
    expect_status("without inotify", status, CONFSTORE_OK);
    expect("there was no room for it", next, -1);
    if (watch) await_change(folder, watch, 3);
    confstore_watch_close(watch);
}

/* A watch beside a session that makes checkpoints in slices as often as it can. */
static void beside_slices(void) {
    struct confstore *store;
    struct confstore_bytes command = {0}, answer = {0};
    const char *folder = store_in("slices"), *slicing = path_of("slicing");
    char text[8192];
    snprintf(text, sizeof text, "#!/bin/sh\nshift 2\nexec '%s' run --group --checkpoint-after 1 \"$@\"\n", program);
    write_file(slicing, text, 0700);
    struct confstore_watch *watch = watching(folder, 2);
    expect_status("open", confstore_open(slicing, folder, PATIENCE, &store), CONFSTORE_OK);
    for (unsigned number = 1; store && number <= SLICED; number++) {
        snprintf(text, sizeof text, "%u", number);
        make_set(&command, "/n", text, strlen(text));
        expect("set", ask(store, command.data, command.length, &answer).kind, CONFSTORE_SAID_OK);
        expect_number(watch, number + 1, number);
    }
    expect_status("close", confstore_close(store, NULL), CONFSTORE_OK);
    confstore_watch_close(watch);
    confstore_bytes_free(&command);
    confstore_bytes_free(&answer);
}

/* A watch beside another process, which makes changes and checkpoints in its own time: each number comes once, as that
 * of a change or within a cut. */
static void beside_another_process(void) {
    const char *folder = store_in("beside");
    struct confstore_watch *watch = watching(folder, 2);
    fflush(stdout);
    pid_t child = fork();
    if (child == 0) {
        for (unsigned turn = 0; turn < 5; turn++) {
            set_numbers(folder, 1, 200);
            checkpoint(folder);
        }
        _exit(0);
    }
    uint64_t next = 2;
    long told = 0;
    enum confstore_status status = CONFSTORE_OK;
    while (status == CONFSTORE_OK && next < 1002) {
        struct confstore_change change = {0};
        status = confstore_watch_next(watch, PATIENCE, &change);
        expect_status("an event", status, CONFSTORE_OK);
        expect("the next number", (long)change.first, (long)next);
        told += change.event == CONFSTORE_EVENT_CHANGE;
        next = change.last + 1;
    }
    waitpid(child, NULL, 0);
    expect("the last number", (long)next, 1002);
    expect("some were told", told > 0, 1);
    expect_nothing(watch);
    confstore_watch_close(watch);
}

/* Each allocation of a watch is refused in turn: the call says so, and a later one goes on. */
static void without_memory_for_a_watch(void) {
    const char *folder = store_in("watched_without_memory");
    set_numbers(folder, 1, 1);
    bool is_refused = true;
    for (long number = 0; is_refused && number < 100; number++) {
        struct confstore_watch *watch;
        struct confstore_change change = {0};
        refuse_after(number);
        enum confstore_status status = confstore_watch_open(folder, 2, &watch);
        if (status == CONFSTORE_OK) status = confstore_watch_next(watch, 0, &change);
        is_refused = was_refused();
        refuse_after(-1);
        expect_status("without memory", status, is_refused ? CONFSTORE_NO_MEMORY : CONFSTORE_OK);
        if (watch && is_refused) expect_number(watch, 2, 1);
        confstore_watch_close(watch);
        expect("some were refused", number > 0 || is_refused, 1);
    }
    expect("not all were refused", is_refused, 0);
}

/* Batches and edits. */

/* A part of an edit, read as a text, or as it stands. */
static void expect_part(const char *name, struct confstore_part part, bool is_scalar, const char *wanted) {
    struct confstore_bytes text = {0};
    if (is_scalar) expect_status(name, confstore_read_text(part.data, part.length, &text), CONFSTORE_OK);
    else confstore_bytes_add(&text, part.data, part.length);
    expect_bytes(name, text.data, text.length, wanted, strlen(wanted));
    confstore_bytes_free(&text);
}

struct wanted_edit {
    enum confstore_edit_kind kind;
    const char *name, *path, *value;
};

static void expect_edits(const char *record, size_t length, const struct wanted_edit *wanted, size_t count) {
    struct confstore_edit edit;
    size_t place = 0;
    for (size_t at = 0; at < count; at++) {
        expect_status("an edit", confstore_read_edit(record, length, &place, &edit), CONFSTORE_OK);
        expect("its kind", (long)edit.kind, (long)wanted[at].kind);
        expect_part("its name", edit.name, true, wanted[at].name);
        expect_part("its path", edit.path, true, wanted[at].path);
        expect_part("its value", edit.value, false, wanted[at].value);
    }
    for (int turn = 0; turn < 2; turn++)
        expect_status("no more edits", confstore_read_edit(record, length, &place, &edit), CONFSTORE_NOTHING_DUE);
}

/* Makes the bytes a batch of each kind of edit, with texts that are lines and words. */
static void make_batch(struct confstore_bytes *command) {
    static const char LINES[] = "two\n\nlines\n\n";
    expect_status("begin", confstore_begin_batch(command), CONFSTORE_OK);
    expect_status("an edit", confstore_begin_edit(command, "import", "d", 1), CONFSTORE_OK);
    confstore_write_edit_pair(command, "text", "a: {b: [x]}\nl: []\n", 18);
    confstore_begin_edit(command, "set", "c", 1);
    confstore_write_edit_pair(command, "path", "/l\n", 3);
    expect_status("a pair", confstore_write_edit_pair(command, "value", LINES, sizeof LINES - 1), CONFSTORE_OK);
    expect_status("no text", confstore_begin_edit(command, "set", "\xff", 1), CONFSTORE_NOT_TEXT);
    confstore_begin_edit(command, "delete", "d", 1);
    confstore_write_edit_pair(command, "path", "/l", 2);
    expect_status("end", confstore_end(command), CONFSTORE_OK);
}

/* Its second edit is of a configuration that is not there. */
static void make_refused_batch(struct confstore_bytes *command) {
    confstore_begin_batch(command);
    confstore_begin_edit(command, "delete", "d", 1);
    confstore_write_edit_pair(command, "path", "", 0);
    confstore_begin_edit(command, "delete", "none", 4);
    confstore_write_edit_pair(command, "path", "", 0);
    confstore_end(command);
}

/* A batch is made whole or not at all, and a watch tells it as one change. */
static void batches(void) {
    static const char COMMAND[] = "---\nbatch:\n  - import: d\n    text: |\n      a: {b: [x]}\n      l: []\n"
                                  "  - set: c\n    path: |\n      /l\n    value: |+\n      two\n\n      lines\n\n"
                                  "  - delete: d\n    path: \"/l\"\n...\n";
    static const struct wanted_edit EDITS[] = {
        {CONFSTORE_EDIT_IMPORT, "d", "", "      a:\n        b:\n          - x\n      l: []\n"},
        {CONFSTORE_EDIT_SET, "c", "/l\n", "|+\n      two\n\n      lines\n\n"},
        {CONFSTORE_EDIT_DELETE, "d", "/l", ""},
    };
    struct confstore *store;
    struct confstore_bytes command = {0}, answer = {0};
    struct confstore_change change = {0};
    const char *folder = store_in("batches");
    struct confstore_watch *watch = watching(folder, 2);
    make_batch(&command);
    expect_bytes("a batch", command.data, command.length, COMMAND, sizeof COMMAND - 1);
    expect_status("open", confstore_open(program, folder, PATIENCE, &store), CONFSTORE_OK);
    struct confstore_answer said = ask(store, command.data, command.length, &answer);
    expect("its count", (long)said.count, 2);
    said = ask(store, command.data, command.length, &answer);
    expect("again", (long)said.count, 3);
    make_refused_batch(&command);
    said = ask(store, command.data, command.length, &answer);
    expect_bytes("refused", said.value, said.length, "NoConfig", 8);
    said = ask_text(store, "get: d\npath: \"\"\n...\n", &answer);
    expect_bytes("nothing was made of it", said.value, said.length, "  a:\n    b:\n      - x\n", 22);
    expect_status("close", confstore_close(store, NULL), CONFSTORE_OK);
    for (uint64_t number = 2; number < 4; number++) {
        expect_status("a change", confstore_watch_next(watch, 0, &change), CONFSTORE_OK);
        expect("its number", (long)change.first, (long)number);
        expect_edits(change.record, change.length, EDITS, sizeof EDITS / sizeof *EDITS);
    }
    expect_nothing(watch);
    confstore_watch_close(watch);
    confstore_bytes_free(&command);
    confstore_bytes_free(&answer);
}

/* Each form of a single edit, and what is no record of the program. */
static void edits(void) {
    static const struct {
        const char *record;
        struct wanted_edit edit;
    } RECORDS[] = {
        {"---\nat: \"2\"\nset: c\npath: \"\"\nvalue: z\n...\n", {CONFSTORE_EDIT_SET, "c", "", "z\n"}},
        {"at: \"2\"\nset: c\npath: |-\n  /a\n  b\nvalue: {}\n...\n", {CONFSTORE_EDIT_SET, "c", "/a\nb", "{}\n"}},
        {"---\nat: \"2\"\nset: c\npath: \"/a\"\nvalue:\n  - x\n  - |\n    ...\n\n    y\n...\n",
         {CONFSTORE_EDIT_SET, "c", "/a", "  - x\n  - |\n    ...\n\n    y\n"}},
        {"---\nat: \"2\"\nimport: \"y\"\ntree:\n  set: c\n  path: x\n...\n",
         {CONFSTORE_EDIT_IMPORT, "y", "", "  set: c\n  path: x\n"}},
        {"---\nat: \"2\"\ndelete: c\npath: \"/a b\"\n...\n", {CONFSTORE_EDIT_DELETE, "c", "/a b", ""}},
    };
    static const char *const NONE[] = {
        "", "...\n", "---\n...\n", "---\nat: \"2\"\n...\n", "---\nset: c\npath: \"\"\nvalue: z\n...\n",
        "---\nat: \"2\"\nset: c\nvalue: z\n...\n", "---\nat: \"2\"\nset: c\npath: \"\"\n...\n",
        "---\nat: \"2\"\nmove: c\npath: \"\"\n...\n", "---\nat: \"2\"\nbatch:\n  set: c\n...\n",
        "---\nat: \"2\"\nbatch: []\n...\n", "{at: 2, set: c, path: /n, value: 1}\n...\n",
        "---\nat: \"2\"\nset: c\npath: \"\"\nvalue: z\n",
    };
    struct confstore_edit edit;
    for (size_t at = 0; at < sizeof RECORDS / sizeof *RECORDS; at++)
        expect_edits(RECORDS[at].record, strlen(RECORDS[at].record), &RECORDS[at].edit, 1);
    for (size_t at = 0; at < sizeof NONE / sizeof *NONE; at++) {
        char *copy = strdup(NONE[at]); /* so that a read past its end is seen */
        size_t place = 0;
        expect_status(NONE[at], confstore_read_edit(copy, strlen(copy), &place, &edit), CONFSTORE_NOT_IN_STYLE);
        expect("the place", (long)place, 0);
        free(copy);
    }
}

/* Records with changed bytes, each in memory of its own length: no read goes past it, and their edits end. */
static void changed_records(void) {
    static const char RECORD[] = "---\nat: \"2\"\nbatch:\n  - import: d\n    tree:\n      a: []\n  - set: c\n"
                                 "    path: \"/l\"\n    value: |+\n      x\n\n  - delete: d\n    path: \"\"\n...\n";
    static const char SIGNS[] = "ab \n\n  -:\"|.";
    unsigned state = 1;
    long read = 0;
    for (int turn = 0; turn < CHANGED; turn++) {
        size_t length = sizeof RECORD - 1, place = 0;
        char *copy = malloc(length);
        memcpy(copy, RECORD, length);
        for (int change = turn % 4; change > 0; change--) {
            state = state * 1103515245u + 12345u;
            copy[(state >> 8) % length] = SIGNS[(state >> 20) % (sizeof SIGNS - 1)];
        }
        struct confstore_edit edit;
        int edits_read = 0;
        while (edits_read < 9 && confstore_read_edit(copy, length, &place, &edit) == CONFSTORE_OK) edits_read++;
        expect("the edits come to an end", edits_read < 9, 1);
        read += edits_read;
        free(copy);
    }
    expect("some are read", read > CHANGED, 1);
}

void watches(const char *of) {
    program = of;
    from_a_number_on();
    over_checkpoints();
    long_documents();
    a_backup();
    a_torn_record();
    by_hand();
    ends_of_watches();
    waiting();
    beside_slices();
    beside_another_process();
    without_memory_for_a_watch();
    batches();
    edits();
    changed_records();
}
