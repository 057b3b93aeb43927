/* Sets a value of a store many times by clients/c, and prints the seconds.
 *
 *     confstore_client PROGRAM FOLDER COUNT WINDOW      in a session of its own
 *     confstore_client - SOCKET COUNT WINDOW            as a client of a server
 *
 * So many commands are under way at once as WINDOW says. */
#include "confstore.h"

#include <stdio.h>
#include <stdlib.h>
#include <string.h>
#include <time.h>

#define TIMEOUT 60000

static void need(enum confstore_status status) {
    if (status == CONFSTORE_OK) return;
    fprintf(stderr, "%s\n", confstore_status_name(status));
    exit(1);
}

static void send_set(struct confstore *store, struct confstore_bytes *command, long number) {
    char value[32];
    int length = snprintf(value, sizeof value, "v%09ld", number);
    need(confstore_begin(command));
    need(confstore_write_pair(command, "set", "app", 3));
    need(confstore_write_pair(command, "path", "/n", 2));
    need(confstore_write_pair(command, "value", value, (size_t)length));
    need(confstore_end(command));
    need(confstore_send(store, command->data, command->length));
}

int main(int count, char **words) {
    if (count != 5) return 2;
    struct confstore *store;
    struct confstore_bytes command = {0}, answer = {0};
    struct confstore_answer said;
    if (strcmp(words[1], "-")) need(confstore_open(words[1], words[2], TIMEOUT, &store));
    else need(confstore_connect(words[2], TIMEOUT, &store));
    long commands = atol(words[3]), window = atol(words[4]), sent = 0;
    struct timespec start, end;
    clock_gettime(CLOCK_MONOTONIC, &start);
    while (sent < window && sent < commands) send_set(store, &command, sent++);
    for (long taken = 0; taken < commands; taken++) {
        need(confstore_take(store, &answer));
        need(confstore_read_answer(answer.data, answer.length, &said));
        if (said.kind != CONFSTORE_SAID_OK) return 1;
        if (sent < commands) send_set(store, &command, sent++);
    }
    clock_gettime(CLOCK_MONOTONIC, &end);
    printf("%.6f\n", (double)(end.tv_sec - start.tv_sec) + (double)(end.tv_nsec - start.tv_nsec) / 1e9);
    confstore_bytes_free(&command);
    confstore_bytes_free(&answer);
    need(confstore_close(store, NULL));
    return 0;
}
