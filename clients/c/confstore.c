/* Sessions: see confstore.h. SPDX-License-Identifier: Apache-2.0 */
#include "confstore_inner.h"

#include <errno.h>
#include <fcntl.h>
#include <poll.h>
#include <pthread.h>
#include <signal.h>
#include <spawn.h>
#include <stdlib.h>
#include <sys/socket.h>
#include <sys/stat.h>
#include <sys/un.h>
#include <sys/wait.h>
#include <unistd.h>

extern char **environ;

/* How many bytes are read at once, and how many of standard error are kept. */
#define PART 65536
#define ERRORS_KEPT 8192

/* How many milliseconds a program may take to be gone after it closed its output. */
#define GOING 5000

/* The statuses of a process that could not become the program, where posix_spawn can't tell, or a shell is between. */
#define NOT_RUN 126
#define NOT_FOUND 127

struct confstore {
    pid_t owner;                 /* the process that opened it */
    pid_t process;               /* -1: none, or it is gone */
    int to, from, errors;        /* -1: closed */
    int timeout;                 /* milliseconds */
    int exit_status;             /* of the process, once it is gone, or CONFSTORE_STATUS_UNKNOWN */
    size_t due;                  /* how many commands have no answer that was taken */
    bool is_cut;                 /* a command was sent in part */
    enum confstore_status ended; /* CONFSTORE_OK while the session goes on */
    struct confstore_bytes got;  /* what came */
    size_t taken;                /* where the first answer that was not taken begins */
    size_t whole;                /* where the last answer that is whole ends */
    size_t answers;              /* how many are whole and were not taken */
    struct confstore_bytes command, answer; /* of the last call that was a command from its first byte to its answer */
    struct confstore_bytes about;           /* as it stands in each change by such a call */
    size_t error_length;
    char error_text[ERRORS_KEPT]; /* the end of standard error */
    struct confstore *before, *after; /* in the list of those that are open */
};

/* The stores that are open in this process. A forked process closes its copies of their ends, so that it does not hold
 * the sessions. The lock is held while ends are made or closed, so that no fork comes between them and what is here. */
static struct confstore *stores;
static pthread_mutex_t stores_lock = PTHREAD_MUTEX_INITIALIZER;
static pthread_once_t forks = PTHREAD_ONCE_INIT;
static int forks_fault; /* no memory to look at forks */

static const char *const STATUS_NAMES[] = {
    "CONFSTORE_OK",           "CONFSTORE_NO_MEMORY",        "CONFSTORE_NO_PROGRAM",   "CONFSTORE_NO_FOLDER",
    "CONFSTORE_BAD_PATH",     "CONFSTORE_NOT_STARTED",      "CONFSTORE_NO_SERVER",    "CONFSTORE_NO_PIPE",
    "CONFSTORE_NOT_TEXT",     "CONFSTORE_NOT_SCALAR",       "CONFSTORE_NOT_DOCUMENT", "CONFSTORE_TOO_LONG_TO_SEND",
    "CONFSTORE_NOTHING_DUE",  "CONFSTORE_TIMED_OUT",        "CONFSTORE_FORKED",       "CONFSTORE_BAD_ANSWER",
    "CONFSTORE_ANSWER_CUT",   "CONFSTORE_ANSWER_LONG",      "CONFSTORE_ENDED",        "CONFSTORE_DEVICE",
    "CONFSTORE_LOCKED",       "CONFSTORE_NOT_A_STORE",      "CONFSTORE_DAMAGED",      "CONFSTORE_OUT_OF_MEMORY",
    "CONFSTORE_COMMAND_LONG", "CONFSTORE_SESSION_LONG",     "CONFSTORE_INPUT_FAILED", "CONFSTORE_OUTPUT_FAILED",
    "CONFSTORE_NOT_IN_STYLE", "CONFSTORE_NO_STATUS",
};

const char *confstore_status_name(enum confstore_status status) {
    size_t number = (size_t)status;
    return number < sizeof STATUS_NAMES / sizeof *STATUS_NAMES ? STATUS_NAMES[number] : "none";
}

/* The same end under a number that is no standard stream's, since those are given to the program. */
static int above_streams(int end) {
    if (end < 0 || end > 2) return end;
    int other = fcntl(end, F_DUPFD_CLOEXEC, 3);
    close(end);
    return other;
}

/* Forks. */

static void note_store(struct confstore *store) {
    store->after = stores;
    if (stores) stores->before = store;
    stores = store;
}

static void forget_store(struct confstore *store) {
    pthread_mutex_lock(&stores_lock);
    if (store->before) store->before->after = store->after;
    else stores = store->after;
    if (store->after) store->after->before = store->before;
    pthread_mutex_unlock(&stores_lock);
}

/* Closes an end of a store. A fork copies the files of a process before its memory, so none may come between. */
static void close_store_end(int *end) {
    pthread_mutex_lock(&stores_lock);
    close_end(end);
    pthread_mutex_unlock(&stores_lock);
}

/* Closes what a forked process has of a session of the process that it was forked from. */
static void let_go(struct confstore *store) {
    close_end(&store->to);
    close_end(&store->from);
    close_end(&store->errors);
    if (store->process > 0) store->exit_status = CONFSTORE_STATUS_UNKNOWN;
    store->process = -1;
    store->ended = CONFSTORE_FORKED;
}

static void before_fork(void) { pthread_mutex_lock(&stores_lock); }

static void after_fork(void) { pthread_mutex_unlock(&stores_lock); }

static void after_fork_in_child(void) {
    for (struct confstore *store = stores; store; store = store->after) let_go(store);
    pthread_mutex_unlock(&stores_lock);
}

static void look_at_forks(void) { forks_fault = pthread_atfork(before_fork, after_fork, after_fork_in_child); }

/* Whether the store was opened by another process than this one; also one that was forked past what is above. */
static bool is_forked(struct confstore *store) {
    if (store->owner == getpid()) return false;
    if (store->ended != CONFSTORE_FORKED) let_go(store);
    return true;
}

/* The other side. */

static bool take_errors(struct confstore *store);

/* Notes that the process is gone, if it is. Its status isn't known where this process ignores SIGCHLD, so that the
 * system keeps none, or where others in it take the statuses of all. With `how` 0 this waits for it. */
static void take_status(struct confstore *store, int how) {
    int status = 0;
    pid_t gone = waitpid(store->process, &status, how);
    if (gone == 0 || (gone < 0 && errno == EINTR)) return;
    if (gone < 0) store->exit_status = CONFSTORE_STATUS_UNKNOWN;
    else store->exit_status = WIFSIGNALED(status) ? -WTERMSIG(status) : WEXITSTATUS(status);
    store->process = -1;
}

/* Kills the process, if it is still there. If not, another one may have its number. */
static void kill_process(struct confstore *store) {
    if (store->process > 0) take_status(store, WNOHANG);
    if (store->process > 0) kill(store->process, SIGKILL);
}

/* Waits for the process to be gone, at most so long, and takes what it writes to standard error; then kills it. */
static void await_process(struct confstore *store, int milliseconds) {
    int64_t deadline = now() + milliseconds;
    int how = WNOHANG;
    while (store->process > 0) {
        take_status(store, how);
        if (now() >= deadline) {
            kill_process(store);
            how = 0;
        } else if (store->process > 0) {
            struct pollfd errors = {store->errors, POLLIN, 0};
            if (poll(&errors, 1, 1) > 0) take_errors(store);
        }
    }
}

/* Takes a part of what is on standard error, and keeps its end. Whether there may be more now. */
static bool take_errors(struct confstore *store) {
    char part[ERRORS_KEPT];
    ssize_t count = read(store->errors, part, sizeof part);
    if (count < 0 && (errno == EINTR || errno == EAGAIN)) return errno == EINTR;
    if (count <= 0) {
        close_store_end(&store->errors);
        return false;
    }
    size_t new = (size_t)count, kept = store->error_length;
    if (kept > sizeof store->error_text - new) kept = sizeof store->error_text - new;
    memmove(store->error_text, store->error_text + store->error_length - kept, kept);
    memcpy(store->error_text + kept, part, new);
    store->error_length = kept + new;
    return true;
}

/* What a line of standard error names, if it names why a session ended. */
static enum confstore_status named_by(const char *line, size_t length) {
    static const struct {
        const char *name;
        enum confstore_status status;
    } NAMES[] = {
        {"Device", CONFSTORE_DEVICE},
        {"Locked", CONFSTORE_LOCKED},
        {"NotAStore", CONFSTORE_NOT_A_STORE},
        {"Damaged", CONFSTORE_DAMAGED},
        {"OutOfMemory", CONFSTORE_OUT_OF_MEMORY},
        {"TooLong", CONFSTORE_COMMAND_LONG},
        {"SessionLong", CONFSTORE_SESSION_LONG},
        {"Input", CONFSTORE_INPUT_FAILED},
        {"Output", CONFSTORE_OUTPUT_FAILED},
    };
    static const char START[] = "confstore: ";
    const size_t begin = sizeof START - 1;
    if (length < begin || memcmp(line, START, begin)) return CONFSTORE_ENDED;
    line += begin;
    length -= begin;
    for (size_t number = 0; number < sizeof NAMES / sizeof *NAMES; number++) {
        size_t named = strlen(NAMES[number].name);
        if (length < named || memcmp(line, NAMES[number].name, named)) continue;
        if (length == named || strchr(" :", line[named])) return NAMES[number].status;
    }
    return CONFSTORE_ENDED;
}

/* What the last line of standard error names that names an end. A line with the cause may come after it. */
static enum confstore_status named_end(const struct confstore *store) {
    enum confstore_status named = CONFSTORE_ENDED;
    size_t end = store->error_length;
    while (end > 0 && named == CONFSTORE_ENDED) {
        size_t start = end;
        while (start > 0 && store->error_text[start - 1] != '\n') start--;
        named = named_by(store->error_text + start, end - start);
        end = start > 0 ? start - 1 : 0;
    }
    return named;
}

/* Notes that the session is over, and why. */
static enum confstore_status finish(struct confstore *store) {
    await_process(store, GOING);
    for (size_t part = 0; part < PART / ERRORS_KEPT && store->errors >= 0 && take_errors(store);) part++;
    enum confstore_status named = named_end(store);
    bool is_cut = store->got.length > store->whole;
    store->ended = named == CONFSTORE_ENDED && is_cut ? CONFSTORE_ANSWER_CUT : named;
    close_store_end(&store->to);
    close_store_end(&store->from);
    close_store_end(&store->errors);
    return store->ended;
}

/* Ends a session that says what none says, and notes why. */
static enum confstore_status distrust(struct confstore *store, enum confstore_status why) {
    kill_process(store);
    finish(store);
    return store->ended = why;
}

/* Looks which answers are whole, since so many bytes more are there. Each is to a command, and none is too long. */
static enum confstore_status look_at_answers(struct confstore *store, size_t more) {
    size_t old = store->got.length - more, end;
    size_t at = old > store->whole + 3 ? old - 3 : store->whole;
    while ((end = document_end(&store->got, store->whole, at)) > 0) {
        if (end - store->whole > CONFSTORE_LONGEST_ANSWER) return distrust(store, CONFSTORE_ANSWER_LONG);
        if (store->answers == store->due) return distrust(store, CONFSTORE_BAD_ANSWER);
        store->answers++;
        at = store->whole = end;
    }
    bool is_long = store->got.length - store->whole >= CONFSTORE_LONGEST_ANSWER;
    return is_long ? distrust(store, CONFSTORE_ANSWER_LONG) : CONFSTORE_OK;
}

/* Takes what came. CONFSTORE_OK while the session goes on. */
static enum confstore_status take_answers(struct confstore *store) {
    if (confstore_bytes_reserve(&store->got, PART) != CONFSTORE_OK) return CONFSTORE_NO_MEMORY;
    ssize_t count = read(store->from, store->got.data + store->got.length, PART);
    if (count > 0) {
        store->got.length += (size_t)count;
        return look_at_answers(store, (size_t)count);
    }
    if (count < 0 && (errno == EINTR || errno == EAGAIN)) return CONFSTORE_OK;
    return finish(store);
}

/* Sends what the session takes now. */
static void send_part(struct confstore *store, const char **command, size_t *left) {
    ssize_t count = send(store->to, *command, *left, MSG_NOSIGNAL);
    if (count > 0) {
        *command += count;
        *left -= (size_t)count;
    } else if (count < 0 && errno != EINTR && errno != EAGAIN) {
        *left = 0; /* the session ends, which is seen where its answers come from */
    }
}

/* Waits until something can be sent or taken, and does so. */
static enum confstore_status turn(struct confstore *store, int64_t deadline, const char **command, size_t *left) {
    struct pollfd ends[3] = {
        {store->from, POLLIN, 0}, {store->errors, POLLIN, 0}, {*left ? store->to : -1, POLLOUT, 0}};
    int64_t time = deadline - now();
    int count = poll(ends, 3, time > 0 ? (int)time : 0);
    if (count < 0 && errno != EINTR) return CONFSTORE_NO_MEMORY;
    if (count > 0 && ends[1].revents) take_errors(store);
    if (count > 0 && ends[2].revents) send_part(store, command, left);
    enum confstore_status status = count > 0 && ends[0].revents ? take_answers(store) : CONFSTORE_OK;
    return status == CONFSTORE_OK && time <= 0 ? CONFSTORE_TIMED_OUT : status;
}

/* Whether the bytes have exactly one closing line, at their end. */
static bool is_document(const char *command, size_t length) {
    if (length < 4) return false;
    for (size_t at = 0; at < length;) {
        const char *feed = memchr(command + at, '\n', length - at);
        size_t end = feed ? (size_t)(feed - command) : length;
        bool is_closing = end == at + 3 && !memcmp(command + at, "...", 3);
        if (end == length) return false;
        if (is_closing) return end + 1 == length;
        at = end + 1;
    }
    return false;
}

enum confstore_status confstore_send(struct confstore *store, const char *command, size_t length) {
    if (is_forked(store)) return CONFSTORE_FORKED;
    if (store->ended != CONFSTORE_OK) return store->ended;
    if (store->is_cut) return CONFSTORE_TIMED_OUT;
    if (length > CONFSTORE_LONGEST_COMMAND) return CONFSTORE_TOO_LONG_TO_SEND;
    if (!is_document(command, length)) return CONFSTORE_NOT_DOCUMENT;
    int64_t deadline = now() + store->timeout;
    const char *rest = command;
    size_t left = length;
    store->due++;
    send_part(store, &rest, &left);
    while (left > 0) {
        enum confstore_status status = turn(store, deadline, &rest, &left);
        if (status != CONFSTORE_OK) {
            if (left == length) store->due--; /* nothing of it was sent */
            else store->is_cut = store->ended == CONFSTORE_OK;
            return status;
        }
    }
    return CONFSTORE_OK;
}

/* Drops the answers that were taken, once they are half of what is kept, so that each byte is moved once at most. */
static void drop_taken(struct confstore *store) {
    size_t left = store->got.length - store->taken;
    if (left > store->taken) return;
    memmove(store->got.data, store->got.data + store->taken, left);
    store->got.length = left;
    store->whole -= store->taken;
    store->taken = 0;
}

enum confstore_status confstore_take(struct confstore *store, struct confstore_bytes *answer) {
    int64_t deadline = now() + store->timeout;
    const char *none = NULL;
    size_t left = 0;
    if (is_forked(store)) return CONFSTORE_FORKED;
    if (store->due == 0) return store->ended != CONFSTORE_OK ? store->ended : CONFSTORE_NOTHING_DUE;
    while (store->answers == 0) {
        if (store->ended != CONFSTORE_OK) return store->ended;
        enum confstore_status status = turn(store, deadline, &none, &left);
        if (status != CONFSTORE_OK && store->ended == CONFSTORE_OK && store->answers == 0) return status;
    }
    size_t end = document_end(&store->got, store->taken, store->taken);
    answer->length = 0;
    if (confstore_bytes_add(answer, store->got.data + store->taken, end - store->taken) != CONFSTORE_OK)
        return CONFSTORE_NO_MEMORY;
    store->taken = end;
    store->answers--;
    store->due--;
    drop_taken(store);
    return CONFSTORE_OK;
}

enum confstore_status confstore_ask(struct confstore *store, const char *command, size_t length,
                                    struct confstore_bytes *answer) {
    enum confstore_status status = confstore_send(store, command, length);
    return status == CONFSTORE_OK ? confstore_take(store, answer) : status;
}

/* One call for one command. */

/* How many bytes the answer to a change has at most. */
#define SHORT_ANSWER 4096

/* Writes a command, which may have the about of the store, and has room for its answer if that is short, so that there
 * is memory for all that a change takes before it is sent. */
static enum confstore_status write_command(struct confstore *store, const struct confstore_pair *pairs, size_t count,
                                           bool may_have_about) {
    enum confstore_status status = confstore_begin(&store->command);
    for (size_t at = 0; at < count && status == CONFSTORE_OK; at++)
        status = confstore_write_pair(&store->command, pairs[at].key, pairs[at].text, pairs[at].length);
    if (status == CONFSTORE_OK && may_have_about)
        status = confstore_bytes_add(&store->command, store->about.data, store->about.length);
    if (status == CONFSTORE_OK) status = confstore_end(&store->command);
    store->answer.length = 0;
    if (status == CONFSTORE_OK) status = confstore_bytes_reserve(&store->answer, SHORT_ANSWER);
    return status == CONFSTORE_OK ? confstore_bytes_reserve(&store->got, PART + SHORT_ANSWER) : status;
}

/* Has a command performed, to which the answer is of this kind, or a refusal. */
static enum confstore_status perform(struct confstore *store, const struct confstore_pair *pairs, size_t count,
                                     enum confstore_said kind, struct confstore_answer *said) {
    *said = (struct confstore_answer){0};
    if (is_forked(store)) return CONFSTORE_FORKED;
    if (store->ended != CONFSTORE_OK) return store->ended;
    if (store->due > 0) return CONFSTORE_TIMED_OUT;
    enum confstore_status status = write_command(store, pairs, count, kind == CONFSTORE_SAID_OK);
    if (status == CONFSTORE_OK)
        status = confstore_ask(store, store->command.data, store->command.length, &store->answer);
    if (status != CONFSTORE_OK) return status;
    struct confstore_answer found;
    status = confstore_read_answer(store->answer.data, store->answer.length, &found);
    if (status != CONFSTORE_OK || (found.kind != kind && found.kind != CONFSTORE_SAID_REFUSED))
        return distrust(store, CONFSTORE_BAD_ANSWER);
    *said = found;
    return CONFSTORE_OK;
}

enum confstore_status confstore_set(struct confstore *store, const char *name, const char *path, const char *text,
                                    size_t length, struct confstore_answer *said) {
    const struct confstore_pair pairs[] = {
        {"set", name, strlen(name)}, {"path", path, strlen(path)}, {"value", text, length}};
    return perform(store, pairs, 3, CONFSTORE_SAID_OK, said);
}

enum confstore_status confstore_import(struct confstore *store, const char *name, const char *text, size_t length,
                                       struct confstore_answer *said) {
    const struct confstore_pair pairs[] = {{"import", name, strlen(name)}, {"text", text, length}};
    return perform(store, pairs, 2, CONFSTORE_SAID_OK, said);
}

enum confstore_status confstore_delete(struct confstore *store, const char *name, const char *path,
                                       struct confstore_answer *said) {
    const struct confstore_pair pairs[] = {{"delete", name, strlen(name)}, {"path", path, strlen(path)}};
    return perform(store, pairs, 2, CONFSTORE_SAID_OK, said);
}

enum confstore_status confstore_get(struct confstore *store, const char *name, const char *path,
                                    struct confstore_answer *said) {
    const struct confstore_pair pairs[] = {{"get", name, strlen(name)}, {"path", path, strlen(path)}};
    return perform(store, pairs, 2, CONFSTORE_SAID_VALUE, said);
}

enum confstore_status confstore_set_about(struct confstore *store, const struct confstore_pair *pairs, size_t count) {
    if (is_forked(store)) return CONFSTORE_FORKED;
    if (store->ended != CONFSTORE_OK) return store->ended;
    struct confstore_bytes about = {0};
    enum confstore_status status = confstore_write_about(&about, pairs, count);
    struct confstore_bytes *old = status == CONFSTORE_OK ? &store->about : &about;
    confstore_bytes_free(old);
    if (status == CONFSTORE_OK) store->about = about;
    return status;
}

/* A store of these ends. The lock of the stores is held. */
static struct confstore *new_store(pid_t process, int to, int from, int errors, int timeout) {
    struct confstore *store = calloc(1, sizeof *store);
    if (!store) return NULL;
    store->owner = getpid();
    store->process = process;
    store->to = to;
    store->from = from;
    store->errors = errors;
    store->timeout = timeout > 0 ? timeout : 0;
    note_store(store);
    return store;
}

/* Has the session answer once, so that one that can't begin says so. */
static enum confstore_status begin(struct confstore *store, struct confstore **out) {
    static const char COMMAND[] = "names:\n...\n";
    struct confstore_bytes answer = {0};
    struct confstore_answer said;
    enum confstore_status status = confstore_ask(store, COMMAND, sizeof COMMAND - 1, &answer);
    if (status == CONFSTORE_OK) status = confstore_read_answer(answer.data, answer.length, &said);
    if (status == CONFSTORE_OK && said.kind != CONFSTORE_SAID_NAMES) status = CONFSTORE_BAD_ANSWER;
    confstore_bytes_free(&answer);
    if (status == CONFSTORE_OK) {
        *out = store;
        return CONFSTORE_OK;
    }
    bool says_nothing = store->ended == CONFSTORE_ENDED || store->ended == CONFSTORE_ANSWER_CUT;
    if (says_nothing && (store->exit_status == NOT_RUN || store->exit_status == NOT_FOUND))
        status = CONFSTORE_NO_PROGRAM;
    kill_process(store);
    store->timeout = 0;
    confstore_close(store, NULL);
    return status;
}

/* Starts a program with the three ends as its standard streams. */
static int spawn(const char *program, const char *folder, int input, int output, int errors, pid_t *process) {
    char *words[] = {(char *)program, "run", "--group", "--", (char *)folder, NULL};
    posix_spawn_file_actions_t actions;
    posix_spawnattr_t ways;
    sigset_t none;
    int fault = posix_spawn_file_actions_init(&actions);
    if (fault) return fault;
    fault = posix_spawnattr_init(&ways);
    if (fault) {
        posix_spawn_file_actions_destroy(&actions);
        return fault;
    }
    sigemptyset(&none);
    fault = posix_spawn_file_actions_adddup2(&actions, input, 0);
    if (!fault) fault = posix_spawn_file_actions_adddup2(&actions, output, 1);
    if (!fault) fault = posix_spawn_file_actions_adddup2(&actions, errors, 2);
    if (!fault) fault = posix_spawnattr_setflags(&ways, POSIX_SPAWN_SETSIGMASK | POSIX_SPAWN_SETPGROUP);
    if (!fault) fault = posix_spawnattr_setsigmask(&ways, &none);
    if (!fault) fault = posix_spawnattr_setpgroup(&ways, 0);
    if (!fault) fault = posix_spawnp(process, program, &actions, &ways, words, environ);
    posix_spawnattr_destroy(&ways);
    posix_spawn_file_actions_destroy(&actions);
    return fault;
}

static void set_not_blocking(int end) { fcntl(end, F_SETFL, fcntl(end, F_GETFL) | O_NONBLOCK); }

/* The ends of the three streams: this process's, and the program's. */
struct ends {
    int input[2], output[2], errors[2];
};

static bool make_ends(struct ends *ends) {
    bool is_made = socketpair(AF_UNIX, SOCK_STREAM | SOCK_CLOEXEC, 0, ends->input) == 0;
    is_made = is_made && pipe2(ends->output, O_CLOEXEC) == 0;
    is_made = is_made && pipe2(ends->errors, O_CLOEXEC) == 0;
    for (size_t side = 0; side < 2; side++) {
        ends->input[side] = above_streams(ends->input[side]);
        ends->output[side] = above_streams(ends->output[side]);
        ends->errors[side] = above_streams(ends->errors[side]);
        is_made = is_made && ends->input[side] > 2 && ends->output[side] > 2 && ends->errors[side] > 2;
    }
    return is_made;
}

static void close_ends(struct ends *ends) {
    for (size_t side = 0; side < 2; side++) {
        close_end(&ends->input[side]);
        close_end(&ends->output[side]);
        close_end(&ends->errors[side]);
    }
}

/* What the system's number says of a folder, or of a program that was not started. */
static enum confstore_status path_status(int fault, enum confstore_status nothing, enum confstore_status other) {
    switch (fault) {
    case ENOENT:
    case ENOTDIR: return nothing;
    case ENAMETOOLONG:
    case ELOOP: return CONFSTORE_BAD_PATH;
    case ENOMEM:
    case EAGAIN: return CONFSTORE_NO_MEMORY;
    default: return other;
    }
}

static enum confstore_status program_status(int fault) {
    if (fault == EACCES || fault == ENOEXEC || fault == EISDIR) return CONFSTORE_NO_PROGRAM;
    return path_status(fault, CONFSTORE_NO_PROGRAM, CONFSTORE_NOT_STARTED);
}

static enum confstore_status folder_status(const char *folder) {
    struct stat found;
    if (stat(folder, &found) != 0) return path_status(errno, CONFSTORE_NO_FOLDER, CONFSTORE_BAD_PATH);
    return S_ISDIR(found.st_mode) ? CONFSTORE_OK : CONFSTORE_NO_FOLDER;
}

/* Starts a program. The lock of the stores is held. */
static enum confstore_status start(const char *program, const char *folder, int timeout, struct confstore **store) {
    if (forks_fault) return CONFSTORE_NO_MEMORY;
    struct ends ends = {{-1, -1}, {-1, -1}, {-1, -1}};
    if (!make_ends(&ends)) {
        close_ends(&ends);
        return CONFSTORE_NO_PIPE;
    }
    pid_t process = -1;
    int fault = spawn(program, folder, ends.input[1], ends.output[1], ends.errors[1], &process);
    if (fault) {
        close_ends(&ends);
        return program_status(fault);
    }
    close_end(&ends.input[1]);
    close_end(&ends.output[1]);
    close_end(&ends.errors[1]);
    set_not_blocking(ends.input[0]);
    set_not_blocking(ends.output[0]);
    set_not_blocking(ends.errors[0]);
    *store = new_store(process, ends.input[0], ends.output[0], ends.errors[0], timeout);
    if (*store) return CONFSTORE_OK;
    close_ends(&ends);
    kill(process, SIGKILL);
    waitpid(process, NULL, 0);
    return CONFSTORE_NO_MEMORY;
}

enum confstore_status confstore_open(const char *program, const char *folder, int timeout, struct confstore **out) {
    *out = NULL;
    struct confstore *store = NULL;
    enum confstore_status status = folder_status(folder);
    if (status != CONFSTORE_OK) return status;
    if (!program) program = getenv("CONFSTORE");
    if (!program || !*program) program = "confstore";
    pthread_once(&forks, look_at_forks);
    pthread_mutex_lock(&stores_lock);
    status = start(program, folder, timeout, &store);
    pthread_mutex_unlock(&stores_lock);
    return status == CONFSTORE_OK ? begin(store, out) : status;
}

/* Makes the two ends of a connection, which is not connected yet. The lock of the stores is held. */
static enum confstore_status make_connection(int timeout, struct confstore **store) {
    if (forks_fault) return CONFSTORE_NO_MEMORY;
    int end = socket(AF_UNIX, SOCK_STREAM | SOCK_CLOEXEC, 0);
    int other = end < 0 ? -1 : fcntl(end, F_DUPFD_CLOEXEC, 3);
    *store = other < 0 ? NULL : new_store(-1, end, other, -1, timeout);
    if (*store) return CONFSTORE_OK;
    enum confstore_status status = other < 0 ? CONFSTORE_NO_PIPE : CONFSTORE_NO_MEMORY;
    close_end(&end);
    close_end(&other);
    return status;
}

enum confstore_status confstore_connect(const char *path, int timeout, struct confstore **out) {
    *out = NULL;
    struct confstore *store = NULL;
    struct sockaddr_un address = {.sun_family = AF_UNIX};
    if (strlen(path) >= sizeof address.sun_path) return CONFSTORE_NO_SERVER;
    strcpy(address.sun_path, path);
    pthread_once(&forks, look_at_forks);
    pthread_mutex_lock(&stores_lock);
    enum confstore_status status = make_connection(timeout, &store);
    pthread_mutex_unlock(&stores_lock);
    if (status != CONFSTORE_OK) return status;
    int most = timeout > 0 ? timeout : 1;
    struct timeval time = {most / 1000, most % 1000 * 1000};
    setsockopt(store->to, SOL_SOCKET, SO_SNDTIMEO, &time, sizeof time);
    if (connect(store->to, (const struct sockaddr *)&address, sizeof address) != 0) {
        finish(store);
        confstore_close(store, NULL);
        return CONFSTORE_NO_SERVER;
    }
    set_not_blocking(store->to);
    return begin(store, out);
}

/* Drops the answers that came and that nobody takes. */
static void drop_answers(struct confstore *store) {
    if (store->answers == 0) return;
    store->due -= store->answers;
    store->answers = 0;
    store->taken = store->whole;
    drop_taken(store);
}

/* What a session has ended with that got no more commands. Where it said nothing, it was told to end; so all went well
 * if each command has its answer, and the status is 0. */
static enum confstore_status told_end(const struct confstore *store) {
    if (store->ended != CONFSTORE_ENDED || store->due > store->answers) return store->ended;
    if (store->exit_status == CONFSTORE_STATUS_UNKNOWN) return CONFSTORE_NO_STATUS;
    return store->exit_status == 0 ? CONFSTORE_OK : store->ended;
}

/* Awaits the end of a session that gets no more commands. What it had to say of that it took too long. */
static enum confstore_status await_end(struct confstore *store) {
    int64_t deadline = now() + store->timeout;
    const char *none = NULL;
    size_t left = 0;
    if (store->is_cut) return CONFSTORE_TIMED_OUT;
    shutdown(store->to, SHUT_WR);
    while (store->ended == CONFSTORE_OK) {
        drop_answers(store);
        enum confstore_status status = turn(store, deadline, &none, &left);
        if (store->ended == CONFSTORE_OK && status != CONFSTORE_OK) return status;
    }
    return told_end(store);
}

enum confstore_status confstore_close(struct confstore *store, int *status) {
    return confstore_close_counted(store, status, NULL);
}

enum confstore_status confstore_close_counted(struct confstore *store, int *status, size_t *unanswered) {
    if (unanswered) *unanswered = 0;
    if (!store) return CONFSTORE_OK;
    is_forked(store);
    enum confstore_status ended = store->ended == CONFSTORE_OK ? await_end(store) : store->ended;
    if (store->ended == CONFSTORE_OK) {
        kill_process(store);
        finish(store);
    }
    if (status) *status = store->exit_status;
    if (unanswered) *unanswered = store->due - store->answers;
    forget_store(store);
    confstore_bytes_free(&store->got);
    confstore_bytes_free(&store->command);
    confstore_bytes_free(&store->answer);
    confstore_bytes_free(&store->about);
    free(store);
    return ended;
}
