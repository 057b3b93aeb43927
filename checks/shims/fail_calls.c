// Lets one system call of a program fail. Load it with LD_PRELOAD; the environment says what happens. Writes to
// standard error are neither counted nor changed.
//
//   FAULT_CALL    the number of the call, from 1; without it every call is made as it is
//   FAULT_DONE    what of the call is done: none, half (of the bytes), whole
//   FAULT_ANSWER  what it returns: count (what was done), zero, error; or exit, which ends the process
//   FAULT_ERROR   the error's number
//   FAULT_LATER   if set, every later call fails with that error and does nothing
//   FAULT_HIDE    if set, the file of this name is hidden in place of that: from the call on, each that opens or looks
//                 at it by name says that it is not there; FAULT_TIMES says how often, without it always
//   FAULT_SWAP    if set, the call is made as it is, after the names FAULT_SWAP and FAULT_WITH were exchanged
//   FAULT_MOST    if set, a read or a write moves at most so many bytes
//   FAULT_LOG     a file to which each call adds a line, as `write store.yaml 47`
#define _GNU_SOURCE
#include <dlfcn.h>
#include <errno.h>
#include <fcntl.h>
#include <stdarg.h>
#include <stdio.h>
#include <stdlib.h>
#include <string.h>
#include <sys/stat.h>
#include <sys/syscall.h>
#include <unistd.h>

// The function of the C library. POSIX lets a pointer to an object, as dlsym returns it, stand for a function.
#define REAL(name) (*(__typeof__(&name) *)(void *[]){dlsym(RTLD_NEXT, #name)})
#define STATUS_OF_EXIT 99
#define HANDLES 64
#define OPEN_FILES "/proc/self/fd/"

// What becomes of a call: it is made as it is, it has the fault, or it fails because the fault came before.
enum turn { CLEAR, HIT, LATER };

// The name that each handle was opened under, without its folder.
static char names[HANDLES][64] = {"input", "output"};

static long number(const char *name) {
    const char *given = getenv(name);
    return given ? atol(given) : 0;
}

static int is(const char *name, const char *value) {
    const char *given = getenv(name);
    return given && !strcmp(given, value);
}

static const char *name_of(int handle) {
    return handle >= 0 && handle < HANDLES ? names[handle] : "";
}

// The last part of a path, and `proc` for an open folder's own name under /proc.
static const char *last_part(const char *path) {
    const char *slash = strrchr(path, '/');
    if (!strncmp(path, OPEN_FILES, strlen(OPEN_FILES)) && slash == path + strlen(OPEN_FILES) - 1) {
        return "proc";
    }
    return slash ? slash + 1 : path;
}

static void write_log(const char *call, const char *name, size_t size) {
    const char *path = getenv("FAULT_LOG");
    char line[128];
    if (!path) {
        return;
    }
    int length = snprintf(line, sizeof line, "%s %s %zu\n", call, name, size);
    int log = (int)syscall(SYS_openat, AT_FDCWD, path, O_WRONLY | O_CREAT | O_APPEND, 0600);
    syscall(SYS_write, log, line, (size_t)length);
    syscall(SYS_close, log);
}

// Whether the file of a call is hidden from it.
static int is_hidden(const char *call, const char *name) {
    static long times;
    if (!is("FAULT_HIDE", name) || (strcmp(call, "open") != 0 && strcmp(call, "statx") != 0)) {
        return 0;
    }
    times++;
    return !getenv("FAULT_TIMES") || times <= number("FAULT_TIMES");
}

static enum turn next_turn(const char *call, const char *name, size_t size) {
    static long count;
    long wanted = number("FAULT_CALL");
    write_log(call, name, size);
    count++;
    if (getenv("FAULT_HIDE")) {
        return count >= wanted && is_hidden(call, name) ? LATER : CLEAR;
    }
    if (getenv("FAULT_SWAP") && count == wanted) {
        syscall(SYS_renameat2, AT_FDCWD, getenv("FAULT_SWAP"), AT_FDCWD, getenv("FAULT_WITH"), RENAME_EXCHANGE);
        return CLEAR;
    }
    if (wanted == 0 || count < wanted) {
        return CLEAR;
    }
    if (count == wanted) {
        return HIT;
    }
    return getenv("FAULT_LATER") ? LATER : CLEAR;
}

// Whether the call is made, if it moves no bytes.
static int is_made(enum turn turn) {
    return turn == CLEAR || (turn == HIT && is("FAULT_DONE", "whole"));
}

// How many of the bytes the call moves.
static size_t moved(enum turn turn, size_t size) {
    size_t most = (size_t)number("FAULT_MOST");
    if (most && size > most) {
        size = most;
    }
    if (turn == HIT && is("FAULT_DONE", "half")) {
        return size / 2;
    }
    return is_made(turn) ? size : 0;
}

// What the call returns after it has done its part.
static long answer(enum turn turn, long done) {
    if (turn == CLEAR || (turn == HIT && is("FAULT_ANSWER", "count"))) {
        return done;
    }
    if (turn == HIT && is("FAULT_ANSWER", "zero")) {
        return 0;
    }
    if (turn == HIT && is("FAULT_ANSWER", "exit")) {
        syscall(SYS_exit_group, STATUS_OF_EXIT);
    }
    errno = (int)number("FAULT_ERROR");
    return -1;
}

int open(const char *path, int flags, ...) {
    va_list more;
    va_start(more, flags);
    mode_t mode = flags & O_CREAT ? va_arg(more, mode_t) : 0;
    va_end(more);
    enum turn turn = next_turn(flags & O_EXCL ? "create" : "open", last_part(path), 0);
    int handle = (int)answer(turn, is_made(turn) ? REAL(open)(path, flags, mode) : -1);
    if (handle >= 0 && handle < HANDLES) {
        snprintf(names[handle], sizeof names[handle], "%s", last_part(path));
    }
    return handle;
}

int statx(int handle, const char *path, int flags, unsigned mask, struct statx *out) {
    enum turn turn = *path ? next_turn("statx", last_part(path), 0) : next_turn("fstat", name_of(handle), 0);
    return (int)answer(turn, is_made(turn) ? REAL(statx)(handle, path, flags, mask, out) : -1);
}

int flock(int handle, int operation) {
    enum turn turn = next_turn("flock", name_of(handle), 0);
    return (int)answer(turn, is_made(turn) ? REAL(flock)(handle, operation) : -1);
}

int fsync(int handle) {
    enum turn turn = next_turn("fsync", name_of(handle), 0);
    return (int)answer(turn, is_made(turn) ? REAL(fsync)(handle) : -1);
}

// A file gets another length, which is logged as the size. The C library has the call under two names.
int ftruncate64(int handle, off64_t length) {
    enum turn turn = next_turn("ftruncate", name_of(handle), (size_t)length);
    return (int)answer(turn, is_made(turn) ? REAL(ftruncate64)(handle, length) : -1);
}

int ftruncate(int handle, off_t length) {
    return ftruncate64(handle, length);
}

int fchmod(int handle, mode_t mode) {
    enum turn turn = next_turn("fchmod", name_of(handle), 0);
    return (int)answer(turn, is_made(turn) ? REAL(fchmod)(handle, mode) : -1);
}

int fchown(int handle, uid_t owner, gid_t group) {
    enum turn turn = next_turn("fchown", name_of(handle), 0);
    return (int)answer(turn, is_made(turn) ? REAL(fchown)(handle, owner, group) : -1);
}

int close(int handle) {
    enum turn turn = next_turn("close", name_of(handle), 0);
    return (int)answer(turn, is_made(turn) ? REAL(close)(handle) : -1);
}

int unlink(const char *path) {
    enum turn turn = next_turn("unlink", last_part(path), 0);
    return (int)answer(turn, is_made(turn) ? REAL(unlink)(path) : -1);
}

// The handles of a file have its new name.
static void name_anew(const char *from, const char *to) {
    for (int handle = 0; handle < HANDLES; handle++) {
        if (!strcmp(names[handle], last_part(from))) {
            snprintf(names[handle], sizeof names[handle], "%s", last_part(to));
        }
    }
}

// What a call that gave a file a name returns after it has done its part.
static int answer_named(enum turn turn, int done, const char *from, const char *to) {
    if (done == 0) {
        name_anew(from, to);
    }
    return (int)answer(turn, done);
}

int rename(const char *from, const char *to) {
    enum turn turn = next_turn("rename", last_part(from), 0);
    return answer_named(turn, is_made(turn) ? REAL(rename)(from, to) : -1, from, to);
}

int link(const char *from, const char *to) {
    enum turn turn = next_turn("link", last_part(from), 0);
    return answer_named(turn, is_made(turn) ? REAL(link)(from, to) : -1, from, to);
}

ssize_t read(int handle, void *bytes, size_t size) {
    enum turn turn = next_turn("read", name_of(handle), size);
    size_t part = moved(turn, size);
    return answer(turn, turn == CLEAR || part ? REAL(read)(handle, bytes, part) : 0);
}

ssize_t write(int handle, const void *bytes, size_t size) {
    if (handle == STDERR_FILENO) {
        return REAL(write)(handle, bytes, size);
    }
    enum turn turn = next_turn("write", name_of(handle), size);
    size_t part = moved(turn, size);
    return answer(turn, turn == CLEAR || part ? REAL(write)(handle, bytes, part) : 0);
}

// A read or a write at a place of a file, which is logged as one without a place. The C library has each of them under
// two names.
ssize_t pread64(int handle, void *bytes, size_t size, off64_t place) {
    enum turn turn = next_turn("read", name_of(handle), size);
    size_t part = moved(turn, size);
    return answer(turn, turn == CLEAR || part ? REAL(pread64)(handle, bytes, part, place) : 0);
}

ssize_t pread(int handle, void *bytes, size_t size, off_t place) {
    return pread64(handle, bytes, size, place);
}

ssize_t pwrite64(int handle, const void *bytes, size_t size, off64_t place) {
    enum turn turn = next_turn("write", name_of(handle), size);
    size_t part = moved(turn, size);
    return answer(turn, turn == CLEAR || part ? REAL(pwrite64)(handle, bytes, part, place) : 0);
}

ssize_t pwrite(int handle, const void *bytes, size_t size, off_t place) {
    return pwrite64(handle, bytes, size, place);
}
