/* Watching the changes of a store: see confstore.h. SPDX-License-Identifier: Apache-2.0 */
#include "confstore_inner.h"

#include <errno.h>
#include <fcntl.h>
#include <poll.h>
#include <stdlib.h>
#include <sys/stat.h>
#include <unistd.h>
#ifdef __linux__
#include <sys/inotify.h>
#endif

#define STORE_FILE "store.yaml"

/* How many bytes are read at once, and how much room is kept for what is read later. */
#define PART 65536
#define ROOM_KEPT 1048576

/* How many milliseconds lie between two looks: at most without inotify, at most with it, and after a change. Each wait
 * is twice as long as the one before, until it is as long as it may be. */
#define LOOK 200
#define LOOK_AWAKE 1000
#define LOOK_SOON 10

/* A file of a store is never overwritten and never cut: a session appends to it, and a checkpoint puts another file in
 * its place. So one that is open can be read to its end after it was replaced. */
struct confstore_watch {
    int folder, file;            /* -1: not open */
    int inotify;                 /* -1: there is none */
    int pause, longest_pause;    /* milliseconds */
    enum confstore_status ended; /* CONFSTORE_OK while the watch goes on */
    bool is_replaced;            /* another file has taken the place of this one, to which nothing is appended then */
    bool has_base;               /* the first document of the file was read */
    off_t offset;                /* how much of the file was read */
    struct confstore_bytes got;  /* what was read and is kept */
    size_t taken;                /* where the first document that was not taken begins */
    uint64_t number;             /* of the last document that was taken */
    uint64_t reached;            /* the number at the end of the file when it was there last */
    uint64_t next;               /* the number of the change that is told next */
    uint64_t mark, mark_digest;  /* the number and a digest of the last record that was taken; 0: none */
};

/* Looking. */

/* Opens the file of the store. What is no plain file is refused, and not waited for. */
static enum confstore_status open_file(struct confstore_watch *watch) {
    struct stat found;
    close_end(&watch->file);
    watch->file = openat(watch->folder, STORE_FILE, O_RDONLY | O_CLOEXEC | O_NOFOLLOW | O_NONBLOCK);
    if (watch->file < 0) return errno == ENOENT ? CONFSTORE_NOT_A_STORE : CONFSTORE_DEVICE;
    if (fstat(watch->file, &found) != 0 || !S_ISREG(found.st_mode)) return CONFSTORE_DEVICE;
    watch->is_replaced = watch->has_base = false;
    watch->offset = 0;
    watch->got.length = watch->taken = 0;
    return CONFSTORE_OK;
}

/* Looks whether another file has taken the place of this one, or it is shorter than what was read of it. */
static enum confstore_status look_at_name(struct confstore_watch *watch) {
    struct stat mine, there;
    if (fstatat(watch->folder, STORE_FILE, &there, AT_SYMLINK_NOFOLLOW) != 0)
        return errno == ENOENT ? CONFSTORE_NOT_A_STORE : CONFSTORE_DEVICE;
    if (fstat(watch->file, &mine) != 0) return CONFSTORE_DEVICE;
    bool is_same = mine.st_dev == there.st_dev && mine.st_ino == there.st_ino;
    watch->is_replaced = !is_same || there.st_size < watch->offset;
    return CONFSTORE_OK;
}

/* Drops the documents that were taken, once they are half of what is kept, so that each byte is moved once at most. */
static void drop_taken(struct confstore_watch *watch) {
    size_t left = watch->got.length - watch->taken;
    if (left > watch->taken) return;
    if (left > 0) memmove(watch->got.data, watch->got.data + watch->taken, left);
    watch->got.length = left;
    watch->taken = 0;
    if (left == 0 && watch->got.room > ROOM_KEPT) confstore_bytes_free(&watch->got);
}

/* Reads a part of the file. CONFSTORE_NOTHING_DUE: this is its end. */
static enum confstore_status read_part(struct confstore_watch *watch) {
    drop_taken(watch);
    if (watch->got.length - watch->taken > CONFSTORE_LONGEST_RECORD) return CONFSTORE_NOT_IN_STYLE;
    if (confstore_bytes_reserve(&watch->got, PART) != CONFSTORE_OK) return CONFSTORE_NO_MEMORY;
    ssize_t count = pread(watch->file, watch->got.data + watch->got.length, PART, watch->offset);
    if (count < 0) return errno == EINTR ? CONFSTORE_OK : CONFSTORE_DEVICE;
    if (count == 0) return CONFSTORE_NOTHING_DUE;
    watch->got.length += (size_t)count;
    watch->offset += count;
    return CONFSTORE_OK;
}

/* Finds the next whole document. CONFSTORE_NOTHING_DUE: the file has no more. */
static enum confstore_status find_document(struct confstore_watch *watch, struct confstore_part *document) {
    size_t looked = watch->taken, end;
    while ((end = document_end(&watch->got, watch->taken, looked)) == 0) {
        size_t before = watch->got.length - watch->taken;
        enum confstore_status status = read_part(watch);
        if (status != CONFSTORE_OK) return status;
        looked = watch->taken + (before > 3 ? before - 3 : 0);
    }
    *document = (struct confstore_part){watch->got.data + watch->taken, end - watch->taken};
    return CONFSTORE_OK;
}

/* Documents. */

/* Takes a line of a key and a value that may be in double quotes. */
static bool take_line(struct confstore_part *rest, const char *key, struct confstore_part *value) {
    const char *feed = memchr(rest->data, '\n', rest->length);
    size_t length = strlen(key);
    if (!feed || (size_t)(feed - rest->data) <= length || memcmp(rest->data, key, length)) return false;
    *value = (struct confstore_part){rest->data + length, (size_t)(feed - rest->data) - length};
    bool is_quoted = value->length > 2 && value->data[0] == '"' && feed[-1] == '"';
    if (is_quoted) *value = (struct confstore_part){value->data + 1, value->length - 2};
    rest->length -= (size_t)(feed + 1 - rest->data);
    rest->data = feed + 1;
    return true;
}

static void take_start(struct confstore_part *rest) {
    if (rest->length < 4 || memcmp(rest->data, "---\n", 4)) return;
    rest->data += 4;
    rest->length -= 4;
}

/* The number of a base, which is the first document of a file. */
static bool read_base(struct confstore_part document, uint64_t *number) {
    static const char FORMAT[] = "confstore-";
    struct confstore_part format, at;
    take_start(&document);
    if (!take_line(&document, "store: ", &format) || format.length < sizeof FORMAT) return false;
    if (memcmp(format.data, FORMAT, sizeof FORMAT - 1) || !take_line(&document, "at: ", &at)) return false;
    return read_digits(at.data, at.length, number);
}

/* The number of a record. */
static bool read_record(struct confstore_part document, uint64_t *number) {
    struct confstore_part at;
    take_start(&document);
    return take_line(&document, "at: ", &at) && read_digits(at.data, at.length, number);
}

/* A digest by which records are told apart: FNV-1a. It is no defence against records that are made to share one. */
static uint64_t digest_of(struct confstore_part record) {
    uint64_t digest = 14695981039346656037u;
    for (size_t at = 0; at < record.length; at++) digest = (digest ^ (unsigned char)record.data[at]) * 1099511628211u;
    return digest;
}

/* Telling. Each step takes a document or goes on at the end of a file, and tells at most one event. */

static void tell_replaced(struct confstore_watch *watch, uint64_t last, struct confstore_change *change) {
    *change = (struct confstore_change){CONFSTORE_EVENT_REPLACED, last, last, NULL, 0};
    if (watch->next > last + 1) watch->next = last + 1;
    watch->mark = 0;
}

/* Takes the base of a file. What it stands for and was to be told is cut. */
static enum confstore_status take_base(struct confstore_watch *watch, struct confstore_part base,
                                       struct confstore_change *change, bool *is_told) {
    if (!read_base(base, &watch->number)) return CONFSTORE_NOT_IN_STYLE;
    watch->has_base = true;
    watch->taken += base.length;
    if (watch->number < watch->next) return CONFSTORE_OK;
    *change = (struct confstore_change){CONFSTORE_EVENT_CUT, watch->next, watch->number, NULL, 0};
    watch->next = watch->number + 1;
    *is_told = true;
    return CONFSTORE_OK;
}

/* Takes a record. It is told if it was not, and left for the next step where another one was seen with its number. */
static enum confstore_status take_record(struct confstore_watch *watch, struct confstore_part record,
                                         struct confstore_change *change, bool *is_told) {
    uint64_t number = watch->number + 1, found, digest = digest_of(record);
    bool is_in_style = read_record(record, &found);
    if (is_in_style && found != number) return CONFSTORE_DAMAGED;
    if (watch->mark == number && watch->mark_digest != digest) {
        tell_replaced(watch, number - 1, change);
        *is_told = true;
        return CONFSTORE_OK;
    }
    if (number >= watch->next && !is_in_style) return CONFSTORE_NOT_IN_STYLE;
    watch->number = number;
    watch->taken += record.length;
    if (number >= watch->mark) {
        watch->mark = number;
        watch->mark_digest = digest;
    }
    if (number < watch->next) return CONFSTORE_OK;
    *change = (struct confstore_change){CONFSTORE_EVENT_CHANGE, number, number, record.data, record.length};
    watch->next = number + 1;
    *is_told = true;
    return CONFSTORE_OK;
}

/* Goes on at the end of a file: with what was appended since, or with the file that took its place. The name is looked
 * at before the file is read to its end for the last time. CONFSTORE_NOTHING_DUE: there is no more now. */
static enum confstore_status take_end(struct confstore_watch *watch, struct confstore_change *change, bool *is_told) {
    if (!watch->has_base && !watch->is_replaced) return CONFSTORE_NOT_A_STORE;
    uint64_t reached = watch->reached;
    watch->reached = watch->number;
    if (watch->number < reached) {
        tell_replaced(watch, watch->number, change);
        *is_told = true;
        return CONFSTORE_OK;
    }
    if (watch->is_replaced) return open_file(watch);
    enum confstore_status status = look_at_name(watch);
    return status == CONFSTORE_OK && !watch->is_replaced ? CONFSTORE_NOTHING_DUE : status;
}

static enum confstore_status step(struct confstore_watch *watch, struct confstore_change *change, bool *is_told) {
    struct confstore_part document;
    enum confstore_status status = find_document(watch, &document);
    if (status == CONFSTORE_NOTHING_DUE) return take_end(watch, change, is_told);
    if (status != CONFSTORE_OK) return status;
    return watch->has_base ? take_record(watch, document, change, is_told)
                           : take_base(watch, document, change, is_told);
}

/* The next event that is there now. CONFSTORE_NOTHING_DUE: none is. */
static enum confstore_status look(struct confstore_watch *watch, struct confstore_change *change) {
    bool is_told = false;
    while (!is_told) {
        enum confstore_status status = step(watch, change, &is_told);
        if (status != CONFSTORE_OK) return status;
    }
    return CONFSTORE_OK;
}

/* Waiting. */

/* Has the system say when something in the folder is written. Where it can't, the folder is looked at more often. */
static void begin_waiting(struct confstore_watch *watch, const char *folder) {
    watch->inotify = -1;
#ifdef __linux__
    watch->inotify = inotify_init1(IN_NONBLOCK | IN_CLOEXEC);
    if (watch->inotify >= 0 && inotify_add_watch(watch->inotify, folder, IN_MODIFY | IN_MOVED_TO | IN_CREATE) < 0)
        close_end(&watch->inotify);
#else
    (void)folder;
#endif
    watch->pause = watch->longest_pause = watch->inotify >= 0 ? LOOK_AWAKE : LOOK;
}

/* Waits until something may have been written, for at most so many milliseconds. */
static void wait_for_change(struct confstore_watch *watch, int64_t milliseconds) {
    char events[4096];
    struct pollfd inotify = {watch->inotify, POLLIN, 0};
    int64_t most = milliseconds < watch->pause ? milliseconds : watch->pause;
    if (poll(&inotify, 1, (int)most) > 0)
        while (read(watch->inotify, events, sizeof events) > 0) continue;
    watch->pause = 2 * watch->pause < watch->longest_pause ? 2 * watch->pause : watch->longest_pause;
}

/* Whether a status is what has become of the store, so that the watch is over. */
static bool is_end(enum confstore_status status) {
    return status != CONFSTORE_OK && status != CONFSTORE_NOTHING_DUE && status != CONFSTORE_NO_MEMORY;
}

enum confstore_status confstore_watch_next(struct confstore_watch *watch, int timeout,
                                           struct confstore_change *change) {
    /* A millisecond more, since now() cuts off a part of one. */
    int64_t deadline = now() + (timeout > 0 ? (int64_t)timeout + 1 : 0);
    while (watch->ended == CONFSTORE_OK) {
        enum confstore_status status = look(watch, change);
        if (status == CONFSTORE_OK) watch->pause = LOOK_SOON;
        if (is_end(status)) watch->ended = status;
        if (status != CONFSTORE_NOTHING_DUE) return status;
        int64_t left = deadline - now();
        if (left <= 0) return CONFSTORE_TIMED_OUT;
        wait_for_change(watch, left);
    }
    return watch->ended;
}

/* Opens the folder by itself, so that it may be moved while it is watched. */
static enum confstore_status open_folder(struct confstore_watch *watch, const char *path) {
#ifdef O_PATH
    watch->folder = open(path, O_PATH | O_DIRECTORY | O_CLOEXEC);
#else
    watch->folder = open(path, O_RDONLY | O_DIRECTORY | O_CLOEXEC);
#endif
    if (watch->folder >= 0) return CONFSTORE_OK;
    switch (errno) {
    case ENOENT:
    case ENOTDIR: return CONFSTORE_NO_FOLDER;
    case ENOMEM: return CONFSTORE_NO_MEMORY;
    case EMFILE:
    case ENFILE: return CONFSTORE_DEVICE;
    default: return CONFSTORE_BAD_PATH;
    }
}

/* Takes all that is there, so that the next change is told first. */
static enum confstore_status pass_all(struct confstore_watch *watch) {
    struct confstore_change passed;
    enum confstore_status status;
    watch->next = UINT64_MAX;
    do {
        status = look(watch, &passed);
    } while (status == CONFSTORE_OK);
    watch->next = watch->number + 1;
    return status == CONFSTORE_NOTHING_DUE ? CONFSTORE_OK : status;
}

enum confstore_status confstore_watch_open(const char *folder, uint64_t start, struct confstore_watch **out) {
    *out = NULL;
    struct confstore_watch *watch = calloc(1, sizeof *watch);
    if (!watch) return CONFSTORE_NO_MEMORY;
    watch->folder = watch->file = watch->inotify = -1;
    watch->next = start;
    enum confstore_status status = open_folder(watch, folder);
    if (status == CONFSTORE_OK) status = open_file(watch);
    if (status == CONFSTORE_OK) begin_waiting(watch, folder);
    if (status == CONFSTORE_OK && start == 0) status = pass_all(watch);
    if (status == CONFSTORE_OK) *out = watch;
    else confstore_watch_close(watch);
    return status;
}

void confstore_watch_close(struct confstore_watch *watch) {
    if (!watch) return;
    close_end(&watch->folder);
    close_end(&watch->file);
    close_end(&watch->inotify);
    confstore_bytes_free(&watch->got);
    free(watch);
}
