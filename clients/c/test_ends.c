/* Tries forked processes, programs that say too much, and paths that can't be used: see test_confstore.c. */
#define _GNU_SOURCE
#include "test.h"

#include <pthread.h>
#include <signal.h>
#include <stdatomic.h>
#include <stdio.h>
#include <stdlib.h>
#include <string.h>
#include <sys/stat.h>
#include <sys/syscall.h>
#include <sys/wait.h>
#include <time.h>
#include <unistd.h>

#define PATIENCE 60000

static const char NAMES[] = "names:\n...\n";

/* Opens a store, of a program or of a server. */
static struct confstore *opened(const char *program, const char *place) {
    struct confstore *store;
    enum confstore_status status = program ? confstore_open(program, place, PATIENCE, &store)
                                           : confstore_connect(place, PATIENCE, &store);
    expect_status("open", status, CONFSTORE_OK);
    return store;
}

/* What a forked process is told by each call: bits of those that were wrong. */
static int in_child(struct confstore *store) {
    struct confstore_bytes answer = {0};
    struct confstore_answer said;
    int wrong = 0, status = -1;
    wrong |= (confstore_ask(store, NAMES, sizeof NAMES - 1, &answer) != CONFSTORE_FORKED) << 0;
    wrong |= (confstore_send(store, NAMES, sizeof NAMES - 1) != CONFSTORE_FORKED) << 1;
    wrong |= (confstore_take(store, &answer) != CONFSTORE_FORKED) << 2;
    wrong |= (confstore_set(store, "c", "", "x", 1, &said) != CONFSTORE_FORKED) << 3;
    wrong |= (confstore_get(store, "c", "", &said) != CONFSTORE_FORKED) << 4;
    wrong |= (confstore_set_about(store, NULL, 0) != CONFSTORE_FORKED) << 5;
    wrong |= (confstore_close(store, &status) != CONFSTORE_FORKED) << 6;
    confstore_bytes_free(&answer);
    return wrong;
}

/* A forked process lets go of the session, and its parent goes on. */
static void a_child_that_closes(struct confstore *store) {
    struct confstore_bytes answer = {0};
    expect_status("send", confstore_send(store, NAMES, sizeof NAMES - 1), CONFSTORE_OK);
    fflush(stdout);
    pid_t child = fork();
    if (child == 0) _exit(in_child(store));
    int status = -1;
    waitpid(child, &status, 0);
    expect("in a child", status, 0);
    expect_status("take", confstore_take(store, &answer), CONFSTORE_OK);
    expect_status("ask", confstore_ask(store, NAMES, sizeof NAMES - 1, &answer), CONFSTORE_OK);
    expect_status("close", confstore_close(store, &status), CONFSTORE_OK);
    expect("its status", status, 0);
    confstore_bytes_free(&answer);
}

/* A process that is forked past the library's back has copies of the ends; closing ends the session all the same. */
static void a_child_that_knows_nothing(struct confstore *store) {
    int status = -1;
    fflush(stdout);
    pid_t child = (pid_t)syscall(SYS_fork);
    if (child == 0) {
        pause();
        _exit(0);
    }
    expect_status("close beside a child", confstore_close(store, &status), CONFSTORE_OK);
    expect("its status", status, 0);
    kill(child, SIGKILL);
    waitpid(child, NULL, 0);
}

/* A process that dies with a forked one alive: the session ends, and the folder is free. */
static void a_parent_that_dies(const char *program, const char *folder) {
    int ends[2];
    pid_t last = -1;
    if (pipe(ends) != 0) perror("pipe");
    fflush(stdout);
    pid_t parent = fork();
    if (parent == 0) {
        struct confstore *store;
        if (confstore_open(program, folder, PATIENCE, &store) != CONFSTORE_OK) _exit(1);
        last = fork();
        if (last == 0) {
            pause();
            _exit(0);
        }
        if (write(ends[1], &last, sizeof last) != sizeof last) _exit(1);
        kill(getpid(), SIGKILL);
    }
    close(ends[1]);
    expect("the child of a child", read(ends[0], &last, sizeof last) == sizeof last, 1);
    close(ends[0]);
    waitpid(parent, NULL, 0);
    struct confstore *store = NULL;
    enum confstore_status status = CONFSTORE_LOCKED;
    for (int turn = 0; turn < 500 && status == CONFSTORE_LOCKED; turn++) {
        usleep(10000);
        status = confstore_open(program, folder, PATIENCE, &store);
    }
    expect_status("open after a parent died", status, CONFSTORE_OK);
    expect_status("close it", confstore_close(store, NULL), CONFSTORE_OK);
    if (last > 0) kill(last, SIGKILL);
}

/* A thread that opens stores until it is to stop, and counts them. */
struct opener {
    const char *program, *folder;
    atomic_int is_over, count;
};

static void *open_stores(void *argument) {
    struct opener *opener = argument;
    while (!opener->is_over) {
        struct confstore *store;
        opener->count += confstore_open(opener->program, opener->folder, PATIENCE, &store) == CONFSTORE_OK;
        confstore_close(store, NULL);
    }
    return NULL;
}

/* No forked process has a socket, wherever the opening of a store by another thread was. */
static void forks_beside_opening(const char *program, const char *folder) {
    struct opener opener = {.program = program, .folder = folder};
    pthread_t thread;
    int held = 0;
    if (pthread_create(&thread, NULL, open_stores, &opener) != 0) perror("thread");
    fflush(stdout);
    for (int turn = 0; turn < 100; turn++) {
        usleep((useconds_t)(turn % 10) * 1000);
        pid_t child = fork();
        if (child == 0) {
            struct stat found;
            int sockets = 0;
            for (int file = 0; file < 100; file++) sockets += fstat(file, &found) == 0 && S_ISSOCK(found.st_mode);
            _exit(sockets);
        }
        int status = -1;
        waitpid(child, &status, 0);
        held += status != 0;
    }
    opener.is_over = 1;
    pthread_join(thread, NULL);
    expect("forks that hold a session", held, 0);
    expect("stores were opened meanwhile", opener.count > 3, 1);
}

void forks(const char *program, const char *served) {
    const char *folder = folder_of("forks");
    forks_beside_opening(program, folder);
    a_child_that_closes(opened(program, folder));
    if (served) a_child_that_closes(opened(NULL, served));
#ifdef SYS_fork
    a_child_that_knows_nothing(opened(program, folder));
#endif
    a_parent_that_dies(program, folder);
}

/* A program in shell that answers the first command, and goes on as its body says: what the second one is told, and
 * what later ones are, and closing. */
static void endless(const char *body, int timeout, enum confstore_status asked, enum confstore_status closed) {
    char script[1024];
    struct confstore *store;
    struct confstore_bytes answer = {0};
    struct timespec start, end;
    const char *path = path_of("endless");
    snprintf(script, sizeof script, "#!/bin/sh\nread a; read b; printf -- '---\\nnames: []\\n...\\n'\n%s\n", body);
    write_file(path, script, 0700);
    expect_status("open", confstore_open(path, "/", timeout, &store), CONFSTORE_OK);
    if (!store) return;
    clock_gettime(CLOCK_MONOTONIC, &start);
    expect_status(body, confstore_ask(store, NAMES, sizeof NAMES - 1, &answer), asked);
    if (closed != CONFSTORE_TIMED_OUT)
        expect_status("later", confstore_ask(store, NAMES, sizeof NAMES - 1, &answer), closed);
    expect_status("close it", confstore_close(store, NULL), closed);
    clock_gettime(CLOCK_MONOTONIC, &end);
    expect("in time", end.tv_sec - start.tv_sec < 15 || timeout == PATIENCE, 1);
    confstore_bytes_free(&answer);
}

/* What is said without an end is not kept without a bound, and does not keep a call from its time. Each goes on for
 * half a minute, unless it is ended. */
void endless_programs(void) {
    static const struct {
        const char *body;
        int timeout;
        enum confstore_status asked, closed;
    } BODIES[] = {
        {"read a; timeout 30 tr '\\0' x </dev/zero", PATIENCE, CONFSTORE_ANSWER_LONG, CONFSTORE_ANSWER_LONG},
        {"read a; timeout 30 yes 'a: b'", PATIENCE, CONFSTORE_ANSWER_LONG, CONFSTORE_ANSWER_LONG},
        {"read a; timeout 30 yes '...'", PATIENCE, CONFSTORE_OK, CONFSTORE_BAD_ANSWER},
        {"read a; timeout 30 yes warning >&2", 3000, CONFSTORE_TIMED_OUT, CONFSTORE_TIMED_OUT},
        {"read a; timeout 30 tr '\\0' x </dev/zero >&2", 3000, CONFSTORE_TIMED_OUT, CONFSTORE_TIMED_OUT},
    };
    for (size_t at = 0; at < sizeof BODIES / sizeof *BODIES; at++)
        endless(BODIES[at].body, BODIES[at].timeout, BODIES[at].asked, BODIES[at].closed);
}

/* An answer of the longest length is taken, and one that is a byte longer ends the session. */
void longest_answers(void) {
    char script[1024];
    for (int more = 0; more < 2; more++) {
        struct confstore *store;
        struct confstore_bytes answer = {0};
        const char *path = path_of("longest");
        snprintf(script, sizeof script,
                 "#!/bin/sh\nread a; read b; printf -- '---\\nnames: []\\n...\\n'\nread a; read b\n"
                 "head -c %zu /dev/zero | tr '\\0' x; printf '\\n...\\n'; read a\n",
                 CONFSTORE_LONGEST_ANSWER - 5 + (size_t)more);
        write_file(path, script, 0700);
        expect_status("open", confstore_open(path, "/", PATIENCE, &store), CONFSTORE_OK);
        if (!store) return;
        enum confstore_status status = confstore_ask(store, NAMES, sizeof NAMES - 1, &answer);
        expect_status("a long answer", status, more ? CONFSTORE_ANSWER_LONG : CONFSTORE_OK);
        expect("its length", (long)answer.length, more ? 0 : (long)CONFSTORE_LONGEST_ANSWER);
        confstore_close(store, NULL);
        confstore_bytes_free(&answer);
    }
}

int is_under_valgrind(void) {
    const char *loaded = getenv("LD_PRELOAD");
    return loaded && strstr(loaded, "vgpreload");
}

/* Each path that can't be used is told as what it is. */
void paths(const char *program) {
    struct confstore *store;
    char name[6000];
    memset(name, 'x', sizeof name - 1);
    name[0] = '/';
    name[sizeof name - 1] = 0;
    expect_status("a long folder", confstore_open(program, name, PATIENCE, &store), CONFSTORE_BAD_PATH);
    expect_status("a long socket", confstore_connect(name, PATIENCE, &store), CONFSTORE_NO_SERVER);
    const char *loop = path_of("loop");
    if (symlink("loop", loop) != 0) perror(loop);
    expect_status("a loop", confstore_open(program, loop, PATIENCE, &store), CONFSTORE_BAD_PATH);
    if (!is_under_valgrind()) {
        expect_status("a looping program", confstore_open(loop, "/", PATIENCE, &store), CONFSTORE_BAD_PATH);
        expect_status("a long program", confstore_open(name, "/", PATIENCE, &store), CONFSTORE_BAD_PATH);
    }
    const char *file = path_of("not_a_folder");
    write_file(file, "", 0600);
    expect_status("a folder that is a file", confstore_open(program, file, PATIENCE, &store), CONFSTORE_NO_FOLDER);
    expect_status("a program below a file", confstore_open(path_of("not_a_folder/program"), "/", PATIENCE, &store),
                  CONFSTORE_NO_PROGRAM);
    size_t length = (size_t)200000;
    char *value = malloc(length); /* longer than one word of a program may be */
    memset(value, 'x', length - 1);
    value[length - 1] = 0;
    setenv("TOO_LONG", value, 1);
    if (!is_under_valgrind())
        expect_status("a long environment", confstore_open(program, "/", PATIENCE, &store), CONFSTORE_NOT_STARTED);
    unsetenv("TOO_LONG");
    free(value);
    expect("no store", store == NULL, 1);
}
