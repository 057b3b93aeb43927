// What the drivers of the peers in C share: they read a file, and do a work on its text many times.
#ifndef ROUNDS_H
#define ROUNDS_H

#include <stdio.h>
#include <stdlib.h>
#include <string.h>

struct text {
    char *bytes;
    size_t length;
};

// A work on a text: it returns how many events, nodes or bytes it gave, or -1 where the text is refused.
typedef long (*work_on_text)(struct text text);

static struct text read_file(const char *name) {
    struct text text = {NULL, 0};
    FILE *file = fopen(name, "rb");
    if (!file || fseek(file, 0, SEEK_END)) {
        exit(1);
    }
    text.length = (size_t)ftell(file);
    text.bytes = malloc(text.length + 1);
    rewind(file);
    if (!text.bytes || fread(text.bytes, 1, text.length, file) != text.length) {
        exit(1);
    }
    fclose(file);
    return text;
}

// Takes the words of a driver: `events`, `tree` or `copy`, the file, and how often. Prints what the last round gave, or
// "refused". Returns the status.
static int run_rounds(int count, char **words, work_on_text events, work_on_text tree, work_on_text copy) {
    if (count != 4) {
        return 2;
    }
    work_on_text work = !strcmp(words[1], "events") ? events : !strcmp(words[1], "tree") ? tree : copy;
    struct text text = read_file(words[2]);
    long last = 0;
    for (long rounds = atol(words[3]); rounds > 0; rounds--) {
        last = work(text);
    }
    free(text.bytes);
    if (last < 0) {
        puts("refused");
    } else {
        printf("%ld\n", last);
    }
    return 0;
}

#endif
