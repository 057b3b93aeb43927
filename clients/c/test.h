/* What the files of the test share: see test_confstore.c. */
#ifndef TEST_H
#define TEST_H

#include "confstore.h"

#include <stdbool.h>

/* Counts a test, and prints what was wrong. */
void expect(const char *name, long found, long wanted);
void expect_status(const char *name, enum confstore_status found, enum confstore_status wanted);
void expect_bytes(const char *name, const char *found, size_t length, const char *wanted, size_t wanted_length);

/* A path in the folder of the tests. Two are kept at a time. */
const char *path_of(const char *name);
const char *folder_of(const char *name);
void write_file(const char *path, const char *content, int mode);

/* Lets so many allocations of the library succeed, and refuses the next one; all if that is negative. And whether one
 * was refused since. */
void refuse_after(long count);
bool was_refused(void);

/* The command that gets the configuration `c`. */
#define LOOK "get: c\npath: \"\"\n...\n"

/* Makes `command` a set of the configuration `c` at a path. */
void make_set(struct confstore_bytes *command, const char *path, const char *text, size_t length);

/* The answer to a command. */
struct confstore_answer ask(struct confstore *store, const char *command, size_t length,
                            struct confstore_bytes *answer);
struct confstore_answer ask_text(struct confstore *store, const char *command, struct confstore_bytes *answer);

/* What is tried of texts, without a store and over one. */
void scalars(void);
void changed(void);
void values(struct confstore *store);
void line_feeds(struct confstore *store);

/* What is tried of conditions: as they are written, over a store, and by clients of a server. */
void conditions_written(void);
void conditions(struct confstore *store);
void adders(const char *served);

/* What is tried of abouts: as they are written and read, by watches, and over a store. */
void abouts_written(void);
void abouts_read(void);
void hostile_abouts(void);
void changed_abouts(void);
void renewed_files(void);
void abouts(const char *program);

/* What is tried of the calls that are one command each. */
void single_calls(struct confstore *store);
void single_calls_without_memory(const char *program);
void single_calls_of_wrong_programs(void);

/* What is tried of forked processes, and of programs that say too much. */
void forks(const char *program, const char *served);
void endless_programs(void);
void longest_answers(void);
void paths(const char *program);

/* Whether this runs under valgrind, where posix_spawn does not tell why a program was not started. */
int is_under_valgrind(void);

/* What is tried of closing: with commands that have no answer, and where statuses are not told. */
void closing(const char *program);
void statuses_of_children(const char *program);

/* What is tried of watches, batches and edits. */
void watches(const char *program);

#endif
