/* Tries confstore.c on real stores, and on programs that answer wrongly.
 *
 *     test_confstore PROGRAM FOLDER [SOCKET]
 *
 * FOLDER is an empty folder, SOCKET that of a server of another store, if there is one. The last line is
 * 'N passed, M failed', and the status is 0 if M is 0. checks/clients.sh builds it of all files here, with
 * -Wl,--wrap=realloc and -Wl,--wrap=calloc, under the sanitizers, and runs it; try.sh runs it with the shared
 * library. */
#define _GNU_SOURCE
#include "test.h"

#include <fcntl.h>
#include <signal.h>
#include <stdio.h>
#include <stdlib.h>
#include <string.h>
#include <sys/stat.h>
#include <sys/wait.h>
#include <time.h>
#include <unistd.h>

#define PATIENCE 60000
#define COMMANDS 1000

/* How many allocations of the library succeed before one is refused; negative: all. The linker puts these calls in the
 * place of the C library's (--wrap). With -DINTERPOSE they are this program's own realloc and calloc instead, which a
 * shared library finds before the C library's. */
#ifdef INTERPOSE
#define __wrap_realloc realloc
#define __wrap_calloc calloc
#define __real_realloc __libc_realloc
#define __real_calloc __libc_calloc
#endif

static long allowed = -1;
static bool one_was_refused;

void *__real_realloc(void *, size_t);
void *__real_calloc(size_t, size_t);
void *__wrap_realloc(void *, size_t);
void *__wrap_calloc(size_t, size_t);

void refuse_after(long count) {
    allowed = count;
    one_was_refused = false;
}

bool was_refused(void) { return one_was_refused; }

static bool refuses(void) {
    if (allowed < 0 || allowed-- > 0) return false;
    allowed = -1;
    one_was_refused = true;
    return true;
}

void *__wrap_realloc(void *old, size_t size) { return refuses() ? NULL : __real_realloc(old, size); }

void *__wrap_calloc(size_t count, size_t size) { return refuses() ? NULL : __real_calloc(count, size); }

static int passed, failed;
static const char *program, *top;

void expect(const char *name, long found, long wanted) {
    if (found == wanted) {
        passed++;
        return;
    }
    failed++;
    printf("WRONG %s: %ld instead of %ld\n", name, found, wanted);
}

void expect_status(const char *name, enum confstore_status found, enum confstore_status wanted) {
    if (found != wanted) printf("%s: %s\n", name, confstore_status_name(found));
    expect(name, (long)found, (long)wanted);
}

void expect_bytes(const char *name, const char *found, size_t length, const char *wanted, size_t wanted_length) {
    int is_same = length == wanted_length && (length == 0 || !memcmp(found, wanted, length));
    if (!is_same) printf("%s: %.*s\n", name, (int)length, found ? found : "");
    expect(name, is_same, 1);
}

/* A path in the folder. Two are kept at a time. */
const char *path_of(const char *name) {
    static char paths[2][4096];
    static int turn;
    turn = !turn;
    snprintf(paths[turn], sizeof paths[turn], "%s/%s", top, name);
    return paths[turn];
}

const char *folder_of(const char *name) {
    const char *path = path_of(name);
    if (mkdir(path, 0777) != 0) perror(path);
    return path;
}

void write_file(const char *path, const char *content, int mode) {
    int file = open(path, O_WRONLY | O_CREAT | O_TRUNC | O_CLOEXEC, mode);
    if (file < 0 || write(file, content, strlen(content)) < 0) perror(path);
    close(file);
}

/* Commands. */

/* Makes `command` a set of the configuration `c` at a path. */
void make_set(struct confstore_bytes *command, const char *path, const char *text, size_t length) {
    confstore_begin(command);
    confstore_write_pair(command, "set", "c", 1);
    confstore_write_pair(command, "path", path, strlen(path));
    expect_status("a pair", confstore_write_pair(command, "value", text, length), CONFSTORE_OK);
    confstore_end(command);
}

/* The answer to a command. */
struct confstore_answer ask(struct confstore *store, const char *command, size_t length,
                            struct confstore_bytes *answer) {
    struct confstore_answer said = {0};
    expect_status("ask", confstore_ask(store, command, length, answer), CONFSTORE_OK);
    expect_status("an answer", confstore_read_answer(answer->data, answer->length, &said), CONFSTORE_OK);
    return said;
}

struct confstore_answer ask_text(struct confstore *store, const char *command, struct confstore_bytes *answer) {
    return ask(store, command, strlen(command), answer);
}

static const char IMPORT[] = "import: c\ntext: \"{list: []}\"\n...\n";

static void refusals(struct confstore *store) {
    struct confstore_bytes answer = {0};
    struct confstore_answer said = ask_text(store, "get: none\npath: \"\"\n...\n", &answer);
    expect("a refusal", said.kind, CONFSTORE_SAID_REFUSED);
    expect_bytes("the word", said.value, said.length, "NoConfig", 8);
    said = ask_text(store, "...\n", &answer);
    expect_bytes("no command", said.value, said.length, "BadCommand", 10);
    expect_status("nothing due", confstore_take(store, &answer), CONFSTORE_NOTHING_DUE);
    static const char *const NONE[] = {"", "names:\n", "names:\n...", "names:\n...\nnames:\n...\n", "...\n...\n"};
    for (size_t at = 0; at < sizeof NONE / sizeof *NONE; at++)
        expect_status("no document", confstore_send(store, NONE[at], strlen(NONE[at])), CONFSTORE_NOT_DOCUMENT);
    char *large = malloc(CONFSTORE_LONGEST_COMMAND + 1);
    memset(large, '#', CONFSTORE_LONGEST_COMMAND);
    memcpy(large + CONFSTORE_LONGEST_COMMAND - 5, "\n...\n", 6);
    said = ask(store, large, CONFSTORE_LONGEST_COMMAND, &answer);
    expect("the longest command", said.kind, CONFSTORE_SAID_REFUSED);
    expect_status("a longer one", confstore_send(store, large, CONFSTORE_LONGEST_COMMAND + 1),
                  CONFSTORE_TOO_LONG_TO_SEND);
    free(large);
    said = ask_text(store, "names:\n...\n", &answer);
    expect("names", said.kind, CONFSTORE_SAID_NAMES);
    expect_bytes("the names", said.value, said.length, "  - c\n", 6);
    confstore_bytes_free(&answer);
}

/* Many commands are sent before an answer is taken, each with so many letters that the answers fill the pipe. */
static void many_at_once(struct confstore *store) {
    struct confstore_bytes command = {0}, answer = {0};
    char letters[2000];
    memset(letters, ' ', sizeof letters);
    make_set(&command, "", letters, sizeof letters);
    uint64_t before = ask(store, command.data, command.length, &answer).count;
    for (int turn = 0; turn < COMMANDS; turn++) {
        expect_status("send a set", confstore_send(store, command.data, command.length), CONFSTORE_OK);
        expect_status("send a get", confstore_send(store, LOOK, strlen(LOOK)), CONFSTORE_OK);
    }
    for (int turn = 1; turn <= COMMANDS; turn++) {
        struct confstore_answer said = {0};
        expect_status("take", confstore_take(store, &answer), CONFSTORE_OK);
        confstore_read_answer(answer.data, answer.length, &said);
        expect("the count", (long)said.count, (long)before + turn);
        expect_status("take the value", confstore_take(store, &answer), CONFSTORE_OK);
        expect("its length", (long)answer.length, 4 + 7 + 2002 + 1 + 4);
    }
    confstore_bytes_free(&command);
    confstore_bytes_free(&answer);
}

/* Answers are taken while further commands are sent, so that some are always due. */
static void a_window(struct confstore *store) {
    struct confstore_bytes answer = {0};
    for (int turn = 0; turn < 16; turn++) confstore_send(store, LOOK, strlen(LOOK));
    for (int turn = 0; turn < COMMANDS; turn++) {
        expect_status("take in the window", confstore_take(store, &answer), CONFSTORE_OK);
        expect_status("send in the window", confstore_send(store, LOOK, strlen(LOOK)), CONFSTORE_OK);
    }
    for (int turn = 0; turn < 16; turn++) expect_status("the last", confstore_take(store, &answer), CONFSTORE_OK);
    expect_status("no more", confstore_take(store, &answer), CONFSTORE_NOTHING_DUE);
    confstore_bytes_free(&answer);
}

static void all_of(struct confstore *store) {
    struct confstore_bytes answer = {0};
    expect("import", ask_text(store, IMPORT, &answer).kind, CONFSTORE_SAID_OK);
    confstore_bytes_free(&answer);
    values(store);
    line_feeds(store);
    single_calls(store);
    refusals(store);
    conditions(store);
    many_at_once(store);
    a_window(store);
}

/* Each allocation of a run is refused in turn: the call says so, and nothing is left behind. */
static void without_memory(void) {
    const char *folder = folder_of("memory");
    bool is_refused = true;
    for (long number = 0; is_refused && number < 100; number++) {
        struct confstore *store;
        struct confstore_bytes command = {0}, answer = {0}, text = {0};
        struct confstore_answer said = {0};
        refuse_after(number);
        enum confstore_status status = confstore_open(program, folder, PATIENCE, &store);
        if (status == CONFSTORE_OK) status = confstore_ask(store, IMPORT, strlen(IMPORT), &answer);
        if (status == CONFSTORE_OK) status = confstore_begin(&command);
        if (status == CONFSTORE_OK) status = confstore_write_pair(&command, "get", "c", 1);
        if (status == CONFSTORE_OK) status = confstore_write_pair(&command, "path", "", 0);
        if (status == CONFSTORE_OK) status = confstore_end(&command);
        if (status == CONFSTORE_OK) status = confstore_ask(store, command.data, command.length, &answer);
        if (status == CONFSTORE_OK) status = confstore_read_answer(answer.data, answer.length, &said);
        if (status == CONFSTORE_OK) status = confstore_read_text("a\n", 2, &text);
        is_refused = was_refused();
        refuse_after(-1);
        expect_status("without memory", status, is_refused ? CONFSTORE_NO_MEMORY : CONFSTORE_OK);
        enum confstore_status closed = confstore_close(store, NULL);
        expect_status("closed without memory", closed, CONFSTORE_OK);
        confstore_bytes_free(&command);
        confstore_bytes_free(&answer);
        confstore_bytes_free(&text);
        expect("some are refused", is_refused || number > 3, 1);
    }
    expect("not all are refused", is_refused, 0);
}

/* Faults. */

static void opening(void) {
    struct confstore *store, *second;
    int status = -1;
    expect_status("no program", confstore_open(path_of("none"), top, PATIENCE, &store), CONFSTORE_NO_PROGRAM);
    write_file(path_of("plain"), "no program", 0600);
    expect_status("a plain file", confstore_open(path_of("plain"), top, PATIENCE, &store), CONFSTORE_NO_PROGRAM);
    expect_status("no folder", confstore_open(program, path_of("none"), PATIENCE, &store), CONFSTORE_NO_FOLDER);
    expect_status("a file", confstore_open(program, path_of("plain"), PATIENCE, &store), CONFSTORE_NO_FOLDER);
    expect_status("no server", confstore_connect(path_of("none"), PATIENCE, &store), CONFSTORE_NO_SERVER);
    expect("no store", store == NULL, 1);
    const char *folder = folder_of("locked");
    expect_status("open", confstore_open(program, folder, PATIENCE, &store), CONFSTORE_OK);
    expect_status("locked", confstore_open(program, folder, PATIENCE, &second), CONFSTORE_LOCKED);
    expect_status("close", confstore_close(store, &status), CONFSTORE_OK);
    expect("its status", status, 0);
    folder_of("damaged");
    write_file(path_of("damaged/store.yaml"), "---\nstore: confstore-1\nat: \"0\"\nconfigs: {}\n...\nx\n...\n", 0600);
    expect_status("damaged", confstore_open(program, path_of("damaged"), PATIENCE, &store), CONFSTORE_DAMAGED);
    write_file(path_of("damaged/store.yaml"), "x\n...\n", 0600);
    expect_status("no store", confstore_open(program, path_of("damaged"), PATIENCE, &store), CONFSTORE_NOT_A_STORE);
    folder_of("device");
    folder_of("device/store.yaml");
    expect_status("a device", confstore_open(program, path_of("device"), PATIENCE, &store), CONFSTORE_DEVICE);
}

/* A program in shell that answers the first command, and goes on as its body says. */
static enum confstore_status with_body(const char *body, int timeout, enum confstore_status closed) {
    char script[1024];
    struct confstore *store;
    struct confstore_bytes answer = {0};
    const char *path = path_of("script");
    snprintf(script, sizeof script, "#!/bin/sh\nread a; read b; printf -- '---\\nnames: []\\n...\\n'\n%s\n", body);
    write_file(path, script, 0700);
    expect_status(body, confstore_open(path, top, timeout, &store), CONFSTORE_OK);
    enum confstore_status status = confstore_ask(store, "names:\n...\n", 11, &answer);
    if (status == CONFSTORE_OK) {
        struct confstore_answer said;
        status = confstore_read_answer(answer.data, answer.length, &said);
    }
    expect_status(body, confstore_close(store, NULL), closed);
    confstore_bytes_free(&answer);
    return status;
}

static void wrong_programs(void) {
    struct timespec start, end;
    clock_gettime(CLOCK_MONOTONIC, &start);
    static const struct {
        const char *body;
        int timeout;
        enum confstore_status asked, closed;
    } BODIES[] = {
        {"read a; printf -- '---\\nok:'", PATIENCE, CONFSTORE_ANSWER_CUT, CONFSTORE_ANSWER_CUT},
        {"read a; printf -- '---\\nok:'; kill -9 $$", PATIENCE, CONFSTORE_ANSWER_CUT, CONFSTORE_ANSWER_CUT},
        {"kill -9 $$", PATIENCE, CONFSTORE_ENDED, CONFSTORE_ENDED},
        {"exit 0", PATIENCE, CONFSTORE_ENDED, CONFSTORE_ENDED},
        {"read a; read b; printf '[\\n...\\n'", PATIENCE, CONFSTORE_BAD_ANSWER, CONFSTORE_OK},
        {"read a; read b; printf -- '---\\nok: x\\n...\\n'", PATIENCE, CONFSTORE_BAD_ANSWER, CONFSTORE_OK},
        {"read a; read b; printf -- '---\\nvalue:\\n...\\n'", PATIENCE, CONFSTORE_BAD_ANSWER, CONFSTORE_OK},
        {"read a; echo 'confstore: Device' >&2; exit 3", PATIENCE, CONFSTORE_DEVICE, CONFSTORE_DEVICE},
        {"read a; echo 'confstore: Damaged 7' >&2; exit 1", PATIENCE, CONFSTORE_DAMAGED, CONFSTORE_DAMAGED},
        {"read a; printf 'confstore: Device\\nstore.yaml: No space left on device\\n' >&2; exit 3", PATIENCE,
         CONFSTORE_DEVICE, CONFSTORE_DEVICE},
        {"read a; printf 'confstore: Locked\\n\\nconfstore: the last byte' >&2; exit 3", PATIENCE, CONFSTORE_LOCKED,
         CONFSTORE_LOCKED},
        {"read a; yes | head -c 100000 >&2; echo 'confstore: SessionLong' >&2; exit 1", PATIENCE,
         CONFSTORE_SESSION_LONG, CONFSTORE_SESSION_LONG},
        {"exec sleep 100", 3000, CONFSTORE_TIMED_OUT, CONFSTORE_TIMED_OUT},
    };
    for (size_t at = 0; at < sizeof BODIES / sizeof *BODIES; at++)
        expect_status(BODIES[at].body, with_body(BODIES[at].body, BODIES[at].timeout, BODIES[at].closed),
                      BODIES[at].asked);
    write_file(path_of("script"), "#!/bin/sh\nexec sleep 100\n", 0700);
    struct confstore *store;
    expect_status("silence", confstore_open(path_of("script"), top, 200, &store), CONFSTORE_TIMED_OUT);
    clock_gettime(CLOCK_MONOTONIC, &end);
    expect("the seconds are few", end.tv_sec - start.tv_sec < 60, 1);
}

/* A program that reads nothing: what does not go into the socket is told in time. */
static void a_program_that_does_not_read(void) {
    struct confstore *store;
    write_file(path_of("script"), "#!/bin/sh\nread a; read b; printf -- '---\\nnames: []\\n...\\n'\nexec sleep 100\n",
               0700);
    expect_status("open", confstore_open(path_of("script"), top, 3000, &store), CONFSTORE_OK);
    size_t length = 4000000;
    char *large = malloc(length);
    memset(large, '#', length);
    memcpy(large + length - 5, "\n...\n", 5);
    expect_status("a full socket", confstore_send(store, large, length), CONFSTORE_TIMED_OUT);
    expect_status("a command after a cut one", confstore_send(store, "...\n", 4), CONFSTORE_TIMED_OUT);
    expect_status("close after a cut one", confstore_close(store, NULL), CONFSTORE_TIMED_OUT);
    free(large);
}

/* The session is killed while this process has the default disposition of SIGPIPE. */
static void a_killed_session(void) {
    struct confstore *store;
    struct confstore_bytes answer = {0};
    const char *path = path_of("script");
    char script[2048];
    snprintf(script, sizeof script, "#!/bin/sh\necho $$ > '%s'\nexec '%s' \"$@\"\n", path_of("process"), program);
    path = path_of("script");
    write_file(path, script, 0700);
    expect_status("open", confstore_open(path, folder_of("killed"), PATIENCE, &store), CONFSTORE_OK);
    ask_text(store, IMPORT, &answer);
    FILE *file = fopen(path_of("process"), "r");
    long process = 0;
    if (!file || fscanf(file, "%ld", &process) != 1) perror("process");
    fclose(file);
    kill((pid_t)process, SIGKILL);
    usleep(100000);
    enum confstore_status status = CONFSTORE_OK;
    for (int turn = 0; turn < 10 && status == CONFSTORE_OK; turn++)
        status = confstore_ask(store, LOOK, strlen(LOOK), &answer);
    expect_status("a killed session", status, CONFSTORE_ENDED);
    int exit_status = 0;
    expect_status("close it", confstore_close(store, &exit_status), CONFSTORE_ENDED);
    expect("its signal", exit_status, -SIGKILL);
    expect_status("open again", confstore_open(program, path_of("killed"), PATIENCE, &store), CONFSTORE_OK);
    expect("what is there", ask_text(store, LOOK, &answer).kind, CONFSTORE_SAID_VALUE);
    expect_status("close it again", confstore_close(store, NULL), CONFSTORE_OK);
    confstore_bytes_free(&answer);
}

/* A process without standard streams holds a store all the same. */
static void without_streams(void) {
    const char *folder = folder_of("streams");
    fflush(stdout);
    pid_t child = fork();
    if (child == 0) {
        struct confstore *store;
        struct confstore_bytes answer = {0};
        close(0);
        close(1);
        close(2);
        enum confstore_status status = confstore_open(program, folder, PATIENCE, &store);
        if (status == CONFSTORE_OK) status = confstore_ask(store, IMPORT, strlen(IMPORT), &answer);
        if (status == CONFSTORE_OK) status = confstore_close(store, NULL);
        confstore_bytes_free(&answer);
        _exit((int)status);
    }
    int status = -1;
    waitpid(child, &status, 0);
    expect("without streams", WIFEXITED(status) ? WEXITSTATUS(status) : -1, CONFSTORE_OK);
}

/* How many files this process has open. */
static long open_files(void) {
    long count = 0;
    for (int file = 0; file < 1000; file++) count += fcntl(file, F_GETFD) >= 0;
    return count;
}

int main(int count, char **words) {
    if (count < 3) return 2;
    long files = open_files();
    program = words[1];
    top = words[2];
    struct confstore *store;
    int status = -1;
    signal(SIGPIPE, SIG_DFL);
    scalars();
    changed();
    conditions_written();
    abouts_written();
    abouts_read();
    hostile_abouts();
    changed_abouts();
    expect_status("open", confstore_open(program, folder_of("store"), PATIENCE, &store), CONFSTORE_OK);
    if (store) all_of(store);
    expect_status("close", confstore_close(store, &status), CONFSTORE_OK);
    expect("the status", status, 0);
    opening();
    wrong_programs();
    a_program_that_does_not_read();
    a_killed_session();
    without_streams();
    without_memory();
    single_calls_without_memory(program);
    single_calls_of_wrong_programs();
    forks(program, count > 3 ? words[3] : NULL);
    endless_programs();
    longest_answers();
    paths(program);
    closing(program);
    statuses_of_children(program);
    watches(program);
    renewed_files();
    abouts(program);
    if (count > 3) {
        expect_status("connect", confstore_connect(words[3], PATIENCE, &store), CONFSTORE_OK);
        if (store) all_of(store);
        expect_status("disconnect", confstore_close(store, NULL), CONFSTORE_OK);
        adders(words[3]);
    }
    expect("every file is closed", open_files(), files);
    expect("every process is taken", waitpid(-1, NULL, WNOHANG), -1);
    printf("%d passed, %d failed\n", passed, failed);
    return failed ? 1 : 0;
}
