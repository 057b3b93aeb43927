/* Tries what closing says of commands without an answer, and of a program's status: see test_confstore.c. */
#define _GNU_SOURCE
#include "test.h"

#include <pthread.h>
#include <signal.h>
#include <stdatomic.h>
#include <stdio.h>
#include <stdlib.h>
#include <string.h>
#include <sys/socket.h>
#include <sys/un.h>
#include <sys/wait.h>
#include <unistd.h>

#define PATIENCE 60000
#define SENT 3

static const char NAMES[] = "names:\n...\n";
static const char ANSWER[] = "---\nnames: []\n...\n";

/* Sends some commands and takes no answer. */
static void send_some(struct confstore *store) {
    for (int turn = 0; turn < SENT; turn++)
        expect_status("send", confstore_send(store, NAMES, sizeof NAMES - 1), CONFSTORE_OK);
}

/* Closes a store, and looks at all that closing says. */
static void expect_end(const char *name, struct confstore *store, enum confstore_status wanted, size_t unanswered,
                       int wanted_status) {
    size_t found = 77;
    int status = 77;
    expect_status(name, confstore_close_counted(store, &status, &found), wanted);
    expect("commands without an answer", (long)found, (long)unanswered);
    expect("the program's status", status, wanted_status);
}

/* Opens a program in shell that answers the first command, and goes on as its body says. */
static struct confstore *opened(const char *body, int timeout) {
    char script[1024];
    struct confstore *store;
    const char *path = path_of("closing");
    snprintf(script, sizeof script, "#!/bin/sh\nread a; read b; printf -- '---\\nnames: []\\n...\\n'\n%s\n", body);
    write_file(path, script, 0700);
    expect_status(body, confstore_open(path, "/", timeout, &store), CONFSTORE_OK);
    return store;
}

/* Programs that answer some of the commands, and end in some way. What they are sent is read to its end first. */
static void some_answers(void) {
    static const struct {
        const char *body;
        enum confstore_status closed;
        size_t unanswered;
        int status;
    } BODIES[] = {
        {"cat >/dev/null", CONFSTORE_ENDED, 3, 0},
        {"cat >/dev/null; exit 7", CONFSTORE_ENDED, 3, 7},
        {"cat >/dev/null; kill -9 $$", CONFSTORE_ENDED, 3, -SIGKILL},
        {"cat >/dev/null; echo 'confstore: Device' >&2; exit 3", CONFSTORE_DEVICE, 3, 3},
        {"cat >/dev/null; printf 'ok: \"1\"\\n...\\n'", CONFSTORE_ENDED, 2, 0},
        {"cat >/dev/null; printf 'a\\n...\\nb\\n...\\n'; kill -9 $$", CONFSTORE_ENDED, 1, -SIGKILL},
        {"cat >/dev/null; printf 'a\\n...\\nb\\n...\\nc\\n..'", CONFSTORE_ANSWER_CUT, 1, 0},
        {"cat >/dev/null; printf 'a\\n...\\nb\\n...\\nc\\n...\\n'", CONFSTORE_OK, 0, 0},
        {"cat >/dev/null; printf 'a\\n...\\nb\\n...\\nc\\n...\\n'; exit 7", CONFSTORE_ENDED, 0, 7},
        {"cat >/dev/null; for a in 1 2 3; do for b in . . . '\\n'; do printf \"$b\"; sleep 0.02; done; done",
         CONFSTORE_OK, 0, 0},
    };
    for (size_t at = 0; at < sizeof BODIES / sizeof *BODIES; at++) {
        struct confstore *store = opened(BODIES[at].body, PATIENCE);
        if (!store) continue;
        send_some(store);
        expect_end(BODIES[at].body, store, BODIES[at].closed, BODIES[at].unanswered, BODIES[at].status);
    }
}

/* Answers that came before are no answers that lack; and nothing that comes later is one to no command. */
static void taken_or_not(void) {
    struct confstore_bytes answer = {0};
    struct confstore *store =
        opened("read a; read b; printf 'a\\n...\\n'; cat >/dev/null; printf 'b\\n...\\n'", PATIENCE);
    if (!store) return;
    send_some(store);
    expect_status("take", confstore_take(store, &answer), CONFSTORE_OK);
    expect_end("one of three was taken", store, CONFSTORE_ENDED, 1, 0);
    confstore_bytes_free(&answer);
    store = opened("cat >/dev/null; for a in 1 2 3 4; do printf 'a\\n...\\n'; done; sleep 100", PATIENCE);
    if (!store) return;
    send_some(store);
    expect_end("one answer more than commands", store, CONFSTORE_BAD_ANSWER, 0, -SIGKILL);
    store = opened("cat >/dev/null; exec sleep 100", 500);
    if (!store) return;
    send_some(store);
    expect_end("silence", store, CONFSTORE_TIMED_OUT, 3, -SIGKILL);
    expect_end("NULL", NULL, CONFSTORE_OK, 0, 77);
}

/* The program itself: what it was sent before closing is performed and answered. */
static void the_program(const char *program) {
    static const char IMPORT_IT[] = "import: c\ntext: x\n...\n";
    const char *folder = folder_of("closed");
    struct confstore *store;
    struct confstore_bytes answer = {0};
    expect_status("open", confstore_open(program, folder, PATIENCE, &store), CONFSTORE_OK);
    if (!store) return;
    for (int turn = 0; turn < 2000; turn++) confstore_send(store, IMPORT_IT, sizeof IMPORT_IT - 1);
    expect_end("2000 commands at once", store, CONFSTORE_OK, 0, 0);
    expect_status("open again", confstore_open(program, path_of("closed"), PATIENCE, &store), CONFSTORE_OK);
    if (!store) return;
    expect("the last command", (long)ask(store, IMPORT_IT, sizeof IMPORT_IT - 1, &answer).count, 2001);
    expect_end("nothing is due", store, CONFSTORE_OK, 0, 0);
    confstore_bytes_free(&answer);
}

/* A server that takes one client, answers so many of its commands, and ends. Returns its process. */
static pid_t serve(const char *path, int answers) {
    struct sockaddr_un address = {.sun_family = AF_UNIX};
    int listener = socket(AF_UNIX, SOCK_STREAM | SOCK_CLOEXEC, 0);
    strcpy(address.sun_path, path);
    unlink(path);
    if (bind(listener, (const struct sockaddr *)&address, sizeof address) != 0) perror(path);
    if (listen(listener, 1) != 0) perror(path);
    fflush(stdout);
    pid_t server = fork();
    if (server == 0) {
        char commands[4096];
        int client = accept(listener, NULL, NULL);
        size_t heard = 0, length = sizeof NAMES - 1;
        for (int turn = 0; turn <= SENT; turn++) {
            while (heard < length * (size_t)(turn + 1)) heard += (size_t)read(client, commands, length);
            if (turn <= answers && write(client, ANSWER, sizeof ANSWER - 1) < 0) _exit(1);
        }
        _exit(0);
    }
    close(listener);
    return server;
}

/* A server that ends with commands that it did not answer. */
static void a_server_that_ends(void) {
    for (int answers = 0; answers <= SENT; answers++) {
        struct confstore *store;
        pid_t server = serve(path_of("ending"), answers);
        expect_status("connect", confstore_connect(path_of("ending"), PATIENCE, &store), CONFSTORE_OK);
        if (store) send_some(store);
        waitpid(server, NULL, 0);
        expect_end("a server that ends", store, answers < SENT ? CONFSTORE_ENDED : CONFSTORE_OK,
                   (size_t)(SENT - answers), 0);
    }
}

void closing(const char *program) {
    expect_bytes("a name", confstore_status_name(CONFSTORE_NOT_IN_STYLE), 22, "CONFSTORE_NOT_IN_STYLE", 22);
    expect_bytes("the last name", confstore_status_name(CONFSTORE_NO_STATUS), 19, "CONFSTORE_NO_STATUS", 19);
    some_answers();
    taken_or_not();
    the_program(program);
    a_server_that_ends();
}

/* What is said where the system tells no status of children. */
static void without_statuses(const char *program) {
    static const struct {
        const char *body;
        enum confstore_status closed;
        size_t unanswered;
    } BODIES[] = {
        {"cat >/dev/null", CONFSTORE_ENDED, 3},
        {"cat >/dev/null; exit 3", CONFSTORE_ENDED, 3},
        {"cat >/dev/null; echo 'confstore: Damaged 7' >&2; exit 1", CONFSTORE_DAMAGED, 3},
        {"cat >/dev/null; printf 'a\\n...\\nb\\n...\\n'; kill -9 $$", CONFSTORE_ENDED, 1},
        {"cat >/dev/null; printf 'a\\n...\\nb\\n...\\nc\\n...\\n'; exit 7", CONFSTORE_NO_STATUS, 0},
        {"cat >/dev/null; printf 'a\\n...\\nb\\n...\\nc\\n...\\n'", CONFSTORE_NO_STATUS, 0},
    };
    struct confstore *store;
    for (size_t at = 0; at < sizeof BODIES / sizeof *BODIES; at++) {
        store = opened(BODIES[at].body, PATIENCE);
        if (!store) continue;
        send_some(store);
        expect_end(BODIES[at].body, store, BODIES[at].closed, BODIES[at].unanswered, CONFSTORE_STATUS_UNKNOWN);
    }
    expect_status("damaged", confstore_open(program, path_of("damaged"), PATIENCE, &store), CONFSTORE_NOT_A_STORE);
    if (!is_under_valgrind())
        expect_status("no program", confstore_open(path_of("none"), "/", PATIENCE, &store), CONFSTORE_NO_PROGRAM);
}

/* A thread that takes the statuses of all children until it is to stop. */
static void *take_all(void *argument) {
    const atomic_int *is_over = argument;
    while (!*is_over)
        if (waitpid(-1, NULL, WNOHANG) < 0) usleep(100);
    return NULL;
}

/* Each way in which a process is not told the statuses of its children. */
void statuses_of_children(const char *program) {
    static const struct sigaction WAYS[] = {
        {.sa_handler = SIG_IGN},
        {.sa_handler = SIG_DFL, .sa_flags = SA_NOCLDWAIT},
    };
    struct sigaction before, now;
    sigaction(SIGCHLD, NULL, &before);
    for (size_t way = 0; way < sizeof WAYS / sizeof *WAYS; way++) {
        sigaction(SIGCHLD, &WAYS[way], NULL);
        without_statuses(program);
        sigaction(SIGCHLD, NULL, &now);
        expect("the disposition stays", now.sa_handler == WAYS[way].sa_handler, 1);
    }
    sigaction(SIGCHLD, &before, NULL);
    atomic_int is_over = 0;
    pthread_t thread;
    if (pthread_create(&thread, NULL, take_all, &is_over) != 0) perror("thread");
    struct confstore *store = opened("cat >/dev/null; printf 'a\\n...\\nb\\n...\\nc\\n...\\n'; exit 7", PATIENCE);
    if (store) {
        size_t unanswered = 77;
        int status = 77;
        send_some(store);
        enum confstore_status closed = confstore_close_counted(store, &status, &unanswered);
        bool is_told = status == 7 && closed == CONFSTORE_ENDED;
        bool is_unknown = status == CONFSTORE_STATUS_UNKNOWN && closed == CONFSTORE_NO_STATUS;
        expect("beside a thread that takes all", is_told || is_unknown, 1);
        expect("with all answers", (long)unanswered, 0);
    }
    is_over = 1;
    pthread_join(thread, NULL);
}
