/* Holds a store of confstore: starts a session of the program, sends it commands and takes its answers. And watches the
 * changes of a store that anybody holds.
 *
 *     struct confstore *store;
 *     struct confstore_answer said;
 *
 *     if (confstore_open(NULL, "store", 60000, &store) != CONFSTORE_OK) ...
 *     confstore_set(store, "web", "/port", "81", 2, &said);           said.kind is CONFSTORE_SAID_OK
 *     confstore_close(store, NULL);
 *
 * Any command, as one with conditions or a batch, is written, sent and read by calls of its own:
 *
 *     struct confstore_bytes command = {0}, answer = {0};
 *
 *     confstore_begin(&command);
 *     confstore_write_pair(&command, "set", "web", 3);
 *     confstore_write_pair(&command, "path", "/port", 5);
 *     confstore_write_pair(&command, "value", "81", 2);
 *     confstore_end(&command);
 *     confstore_ask(store, command.data, command.length, &answer);
 *     confstore_read_answer(answer.data, answer.length, &said);
 *
 * docs/SESSION.md has the commands and the answers. What this promises of the disk is the session's promise: once an
 * `ok` was taken, its command is on the disk. When a session ends, what was answered stands; of a command that was sent
 * and not answered, open the store again and look.
 *
 * Needs C11 and a POSIX system with posix_spawn, pthread_atfork, pipe2 and MSG_NOSIGNAL, as Linux. A handle is used by
 * one thread at a time, and different handles by any threads. No call waits longer than `timeout` milliseconds, and 5
 * seconds for a program that has closed its output to be gone. No signal's disposition or mask is changed in this
 * process, and none is raised: commands go through a socket, which tells a closed other end without SIGPIPE. The
 * program gets an empty mask and a process group of its own, so the keys of a terminal don't end it.
 *
 * A forked process does not hold the sessions of the one it was forked from: its copies of their ends are closed by
 * fork. Each call of it on such a handle returns CONFSTORE_FORKED, and confstore_close frees the handle. That is why
 * there is a list of the open stores, which is the only global state. A signal handler may not fork.
 *
 * SPDX-License-Identifier: Apache-2.0
 */
#ifndef CONFSTORE_H
#define CONFSTORE_H

#include <stddef.h>
#include <stdint.h>

#ifdef __cplusplus
extern "C" {
#endif

/* The version of this library. Its number has three digits each for the second and the third part: 1.2.3 is 1002003. */
#define CONFSTORE_VERSION "0.7.2"
#define CONFSTORE_VERSION_NUMBER 7002

/* The longest command that a session takes, with its closing line. */
#define CONFSTORE_LONGEST_COMMAND ((size_t)16777216)

/* The longest answer that a session gives, with its closing line. */
#define CONFSTORE_LONGEST_ANSWER ((size_t)67108864)

/* The longest record of a store, and the longest base. */
#define CONFSTORE_LONGEST_RECORD ((size_t)67108864)

/* What a call returns. */
enum confstore_status {
    CONFSTORE_OK,
    /* Of this side; nothing was sent. */
    CONFSTORE_NO_MEMORY,        /* malloc refused */
    CONFSTORE_NO_PROGRAM,       /* there is no such program, or it can't be run */
    CONFSTORE_NO_FOLDER,        /* there is no such folder */
    CONFSTORE_BAD_PATH,         /* a path is too long, a loop of links, or may not be looked at */
    CONFSTORE_NOT_STARTED,      /* the system did not start the program, as with too many or too long words */
    CONFSTORE_NO_SERVER,        /* no server takes clients at the socket */
    CONFSTORE_NO_PIPE,          /* the system gave no pipe or socket */
    CONFSTORE_NOT_TEXT,         /* the bytes are not UTF-8, or have a surrogate: no YAML can hold them */
    CONFSTORE_NOT_SCALAR,       /* what is read back is no scalar of the one style, as a collection */
    CONFSTORE_NOT_DOCUMENT,     /* a command has not exactly one closing line, at its end */
    CONFSTORE_TOO_LONG_TO_SEND, /* a command is longer than a session takes */
    CONFSTORE_NOTHING_DUE,      /* every command that was sent is answered */
    /* Of the session, which goes on. */
    CONFSTORE_TIMED_OUT, /* no answer in time: take it later; or a command could not be sent whole: close the store */
    /* Of the session, which is over, or another process's. Every later call returns the same. */
    CONFSTORE_FORKED,        /* the store was opened by another process, from which this one was forked */
    CONFSTORE_BAD_ANSWER,    /* what came is no answer of a session, or is one to no command */
    CONFSTORE_ANSWER_CUT,    /* it ended in the middle of an answer */
    CONFSTORE_ANSWER_LONG,   /* an answer was longer than one of a session is, and the session was ended */
    CONFSTORE_ENDED,         /* it ended, and did not say why: as by a signal, or since the server closed */
    CONFSTORE_DEVICE,        /* Device: a call of the system failed */
    CONFSTORE_LOCKED,        /* Locked: another run holds the folder */
    CONFSTORE_NOT_A_STORE,   /* NotAStore */
    CONFSTORE_DAMAGED,       /* Damaged */
    CONFSTORE_OUT_OF_MEMORY, /* OutOfMemory: the program's memory ran out; the command in hand changed nothing */
    CONFSTORE_COMMAND_LONG,  /* TooLong: a command was longer than a session takes */
    CONFSTORE_SESSION_LONG,  /* SessionLong: so was the whole input */
    CONFSTORE_INPUT_FAILED,  /* Input */
    CONFSTORE_OUTPUT_FAILED, /* Output */
    /* Of a watch, which is over too, and of a record or the value of a condition. */
    CONFSTORE_NOT_IN_STYLE, /* it is not written as the program writes it: by hand, or it is none */
    /* Of confstore_close. */
    CONFSTORE_NO_STATUS /* every command has its answer, and how the program ended is not known */
};

/* The status's name, as "CONFSTORE_OK". It is never freed. */
const char *confstore_status_name(enum confstore_status status);

/* Bytes that grow. All zeros is the empty one. After CONFSTORE_NO_MEMORY it is as it was. */
struct confstore_bytes {
    char *data;
    size_t length;
    size_t room;
};

/* Frees the bytes, and makes them empty. */
void confstore_bytes_free(struct confstore_bytes *bytes);

/* Bytes that belong to somebody else. */
struct confstore_part {
    const char *data;
    size_t length;
};

/* Makes room for so many more bytes; and writes them at the end. */
enum confstore_status confstore_bytes_reserve(struct confstore_bytes *bytes, size_t more);
enum confstore_status confstore_bytes_add(struct confstore_bytes *bytes, const char *more, size_t length);

/* A session, or a connection to a server of one. */
struct confstore;

/* Starts `PROGRAM run --group FOLDER`, and awaits its first answer, so that a store that can't be opened is reported
 * here. A NULL program is that of the environment's CONFSTORE, or else "confstore"; it is looked for on the PATH.
 * `*store` is NULL unless this returns CONFSTORE_OK. */
enum confstore_status confstore_open(const char *program, const char *folder, int timeout, struct confstore **store);

/* The same for a server on a Unix socket, as clients/serve.py is one. */
enum confstore_status confstore_connect(const char *path, int timeout, struct confstore **store);

/* Sends a command: a YAML document with its closing line. Any number may be sent before answers are taken: those that
 * come meanwhile are kept in memory. */
enum confstore_status confstore_send(struct confstore *store, const char *command, size_t length);

/* Takes the answer to the earliest command that was sent and whose answer was not taken. What was in `answer` goes. */
enum confstore_status confstore_take(struct confstore *store, struct confstore_bytes *answer);

/* Sends a command, and takes its answer. There may be no other answer to take. */
enum confstore_status confstore_ask(struct confstore *store, const char *command, size_t length,
                                    struct confstore_bytes *answer);

/* What confstore_close says of a program's status that is not known. No program has it. */
#define CONFSTORE_STATUS_UNKNOWN 256

/* Has the session perform what it was sent, and ends it, or kills it if that takes too long. Frees the store in any
 * case. `status`, if it isn't NULL, is the program's, the negative number of the signal that ended it, 0 of a server,
 * or CONFSTORE_STATUS_UNKNOWN. Answers that were not taken are awaited, and dropped. Returns CONFSTORE_OK if every
 * command that was sent has its answer and the program ended well, and otherwise what the session ended with.
 *
 * The system keeps no status for a process that ignores SIGCHLD, and gives it once: a process that waits for all its
 * children may have taken it. Then this returns CONFSTORE_NO_STATUS where it would return CONFSTORE_OK. NULL is closed
 * already. */
enum confstore_status confstore_close(struct confstore *store, int *status);

/* The same. `unanswered`, if it isn't NULL, is how many commands that were sent have no answer: the last ones. Whether
 * these were performed is not known. It is 0 if this returns CONFSTORE_OK or CONFSTORE_NO_STATUS. */
enum confstore_status confstore_close_counted(struct confstore *store, int *status, size_t *unanswered);

/* Writes a text as a value in the one style of docs/STYLE.md, at the end of the bytes: a word, lines after a header, or
 * in double quotes. Lines are indented by so many spaces. The line feed that ends it is written too, so what is written
 * is what an answer has as its value, and what confstore_read_text reads back: where a text ends in more than one line
 * feed, another one after it would be part of the text. */
enum confstore_status confstore_write_text(struct confstore_bytes *to, const char *text, size_t length,
                                           size_t indentation);

/* Writes a text as a key: a word, or in double quotes. */
enum confstore_status confstore_write_key(struct confstore_bytes *to, const char *text, size_t length);

/* Writes a line of a command: a word as the key, and a text as its value. */
enum confstore_status confstore_write_pair(struct confstore_bytes *to, const char *key, const char *text,
                                           size_t length);

/* Makes the bytes the start of a command, `---` and a line feed; and writes its closing line. */
enum confstore_status confstore_begin(struct confstore_bytes *command);
enum confstore_status confstore_end(struct confstore_bytes *command);

/* Makes the bytes the start of a batch: a command of several edits, of which all are made or none. Each edit is begun
 * by its word, `import`, `set` or `delete`, and the name of its configuration, and then has the other pairs of such a
 * command, as `path` and `value`. confstore_end ends the batch. */
enum confstore_status confstore_begin_batch(struct confstore_bytes *command);
enum confstore_status confstore_begin_edit(struct confstore_bytes *command, const char *word, const char *name,
                                           size_t length);
enum confstore_status confstore_write_edit_pair(struct confstore_bytes *command, const char *key, const char *text,
                                                size_t length);

/* What a condition says of a store. */
enum confstore_condition_kind {
    CONFSTORE_IF_TEXT,   /* at `path` of the configuration `name` is the text `value` */
    CONFSTORE_IF_VALUE,  /* there is the tree `value`, written as an answer of kind CONFSTORE_SAID_VALUE has it */
    CONFSTORE_IF_ABSENT, /* there is nothing; and where the path is empty, no configuration has the name */
    CONFSTORE_IF_COUNT   /* so many commands were accepted as `count` says */
};

/* A condition. The parts that its kind does not name are not looked at. */
struct confstore_condition {
    enum confstore_condition_kind kind;
    struct confstore_part name, path, value;
    uint64_t count;
};

/* Makes the bytes the start of a command, or of a batch, that is performed only where all of so many conditions hold.
 * They are looked at in order, right before the command. Where one does not hold, the answer is CONFSTORE_SAID_UNMET,
 * and nothing is changed. CONFSTORE_NOT_IN_STYLE: the value of a CONFSTORE_IF_VALUE is none. */
enum confstore_status confstore_begin_when(struct confstore_bytes *command,
                                           const struct confstore_condition *conditions, size_t count);
enum confstore_status confstore_begin_batch_when(struct confstore_bytes *command,
                                                 const struct confstore_condition *conditions, size_t count);

/* A key of an about, which ends in a zero byte, and its text. */
struct confstore_pair {
    const char *key, *text;
    size_t length;
};

/* Writes an about, which says who makes a change, when and why: so many pairs, in this order, as the last lines of a
 * command that changes something, or behind the edits of a batch. confstore_end comes next. Any keys may stand there;
 * usual ones are `by`, `when` and `why`. Where the count is 0 nothing is written.
 *
 *     const struct confstore_pair about[] = {{"by", "ann", 3}, {"why", "open the port", 13}};
 *     confstore_write_about(&command, about, 2);
 *
 * The program looks at the limits. It refuses more than 16 pairs, a key of more than 64 characters, and an about of
 * more than 4,096 bytes in the one style as AboutLarge; a program before 0.7 refuses each about as BadCommand. Once a
 * store has accepted one, such a program can't read it any more. */
enum confstore_status confstore_write_about(struct confstore_bytes *command, const struct confstore_pair *pairs,
                                            size_t count);

/* Reads back a scalar of the one style, with the line feed that ends it, and writes its text at the end of the bytes.
 * What is there already stays. Where a text ends in at most one line feed, the one that ends the scalar may be missing.
 */
enum confstore_status confstore_read_text(const char *written, size_t length, struct confstore_bytes *to);

/* What an answer says. */
enum confstore_said {
    CONFSTORE_SAID_OK,      /* `ok`: the command was accepted; `count` is the number of accepted commands */
    CONFSTORE_SAID_REFUSED, /* `refused`: nothing changed; `value` is the word, as NoConfig */
    CONFSTORE_SAID_VALUE,   /* `value`: `value` is the tree, in the one style */
    CONFSTORE_SAID_TEXT,    /* `text`: `value` is a scalar: read it by confstore_read_text */
    CONFSTORE_SAID_NAMES,   /* `names`: `value` is a list in the one style */
    CONFSTORE_SAID_UNMET    /* `refused: Unmet`: a condition of the command does not hold, and nothing changed */
};

/* An answer. `value` points into the answer's own bytes, and is what follows its key: from the same line for a scalar
 * or an empty collection, and otherwise whole lines. Of a refusal it is the word alone; else a line feed ends it. */
struct confstore_answer {
    enum confstore_said kind;
    uint64_t count;
    const char *value;
    size_t length;
};

/* Reads an answer. Returns CONFSTORE_BAD_ANSWER for what is none. */
enum confstore_status confstore_read_answer(const char *answer, size_t length, struct confstore_answer *said);

/* One command, from its first byte to what is said of it: a text is put at a path, or a text of YAML under a name; what
 * is at a path is taken out, or the configuration, where the path is empty; and what is at a path is read, whose text
 * confstore_read_text gives where it is one. Names and paths end in a zero byte.
 *
 * They return what confstore_ask returns, or CONFSTORE_NOT_TEXT. Where they return CONFSTORE_OK, `said` is the answer:
 * of a change CONFSTORE_SAID_OK with its count, of confstore_get CONFSTORE_SAID_VALUE, of each CONFSTORE_SAID_REFUSED.
 * Its `value` points into the store, until the next call of one of these. A session that says anything else is ended:
 * CONFSTORE_BAD_ANSWER. After CONFSTORE_NO_MEMORY no change was sent.
 *
 * While the answer to another command is due, as after CONFSTORE_TIMED_OUT, they send nothing and return
 * CONFSTORE_TIMED_OUT: take that answer by confstore_take first. */
enum confstore_status confstore_set(struct confstore *store, const char *name, const char *path, const char *text,
                                    size_t length, struct confstore_answer *said);
enum confstore_status confstore_import(struct confstore *store, const char *name, const char *text, size_t length,
                                       struct confstore_answer *said);
enum confstore_status confstore_delete(struct confstore *store, const char *name, const char *path,
                                       struct confstore_answer *said);
enum confstore_status confstore_get(struct confstore *store, const char *name, const char *path,
                                    struct confstore_answer *said);

/* Gives each later change by one of the first three calls above an about of so many pairs, as confstore_write_about
 * does, or none if the count is 0. What the pairs say is copied. Unless this returns CONFSTORE_OK, all is as before. */
enum confstore_status confstore_set_about(struct confstore *store, const struct confstore_pair *pairs, size_t count);

/* A watch of the changes of a store. It takes no lock and writes nothing, so it runs beside whoever holds the store,
 * and goes on over checkpoints and over sessions that end and begin. It is used by one thread at a time, and by the
 * process that opened it. */
struct confstore_watch;

/* What a watch tells. Numbers are those of accepted commands, from 1. */
enum confstore_event {
    CONFSTORE_EVENT_CHANGE,  /* the command with the number `first` was accepted, and `record` is its record */
    CONFSTORE_EVENT_CUT,     /* a checkpoint dropped the changes `first` to `last` before they were seen */
    CONFSTORE_EVENT_REPLACED /* the store has another history after the change `last`, as a backup that took its place;
                              * what it has after that number is told next */
};

/* An event. Of a change, `first` is `last`, and `record` points into the watch until its next call: it is the document
 * as it stands in the store. Of another event `record` is NULL, and of CONFSTORE_EVENT_REPLACED `first` is `last`. */
struct confstore_change {
    enum confstore_event event;
    uint64_t first, last;
    const char *record;
    size_t length;
};

/* Begins to watch the store of a folder: from the change with the number `start` on, or the changes after this call if
 * that is 0. `*watch` is NULL unless this returns CONFSTORE_OK. CONFSTORE_NOT_A_STORE: the folder has no store. */
enum confstore_status confstore_watch_open(const char *folder, uint64_t start, struct confstore_watch **watch);

/* Takes the next event, and waits for one for at most so many milliseconds; then it returns CONFSTORE_TIMED_OUT. Each
 * change comes once, in order. The last ones may not be on the disk yet.
 *
 * Changes are looked for while one is waited for: where the system has inotify, as soon as it says that something was
 * written, and once a second at least; else five times a second. CONFSTORE_EVENT_CUT comes where two checkpoints lie
 * between two looks, or where the first change that is asked for was dropped before.
 *
 * CONFSTORE_NOT_A_STORE, CONFSTORE_DAMAGED and CONFSTORE_DEVICE are what has become of the store, after all that was
 * before; each later call returns the same. So does CONFSTORE_NOT_IN_STYLE: what would be told, or the file's first
 * document, is written by hand in another form. A checkpoint writes the file anew. */
enum confstore_status confstore_watch_next(struct confstore_watch *watch, int timeout,
                                           struct confstore_change *change);

/* Ends a watch, and frees it. NULL is closed already. */
void confstore_watch_close(struct confstore_watch *watch);

enum confstore_edit_kind { CONFSTORE_EDIT_IMPORT, CONFSTORE_EDIT_SET, CONFSTORE_EDIT_DELETE };

/* An edit of a record. Its parts point into the record, and are what follows their keys: `name` and `path` are scalars,
 * for confstore_read_text, and `value` is a tree in the one style. An import has the empty path, and a delete has no
 * value. */
struct confstore_edit {
    enum confstore_edit_kind kind;
    struct confstore_part name, path, value;
};

/* Reads the edit at a place of a record, and moves the place behind it. The place of the first edit is 0; only the
 * record of a batch has more than one. Returns CONFSTORE_NOTHING_DUE behind the last one, where an about may stand, and
 * CONFSTORE_NOT_IN_STYLE for what the program did not write. */
enum confstore_status confstore_read_edit(const char *record, size_t length, size_t *place,
                                          struct confstore_edit *edit);

/* A pair of the about of a record. Both parts point into the record, and are scalars, for confstore_read_text. */
struct confstore_about_pair {
    struct confstore_part key, text;
};

/* Reads the pair at a place of a record's about, and moves the place behind it. The place of the first pair is 0, or
 * where confstore_read_edit has returned CONFSTORE_NOTHING_DUE. Returns CONFSTORE_NOTHING_DUE behind the last pair, and
 * of a record without an about; and CONFSTORE_NOT_IN_STYLE for what the program did not write. It does not look at the
 * limits. */
enum confstore_status confstore_read_about(const char *record, size_t length, size_t *place,
                                           struct confstore_about_pair *pair);

#ifdef __cplusplus
}
#endif
#endif
