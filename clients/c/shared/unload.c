/* Unloads the shared library, and forks: the library leaves nothing behind that a fork would call.
 *
 *     unload LIBRARY
 *
 * The status is 0 if all went well. try.sh builds it and runs it. SPDX-License-Identifier: Apache-2.0 */
#define _GNU_SOURCE
#include "../confstore.h"

#include <dlfcn.h>
#include <stdio.h>
#include <sys/wait.h>
#include <unistd.h>

/* Loads the library, has it look at forks, and unloads it. */
static int is_unloaded(const char *path) {
    enum confstore_status (*connect_to)(const char *, int, struct confstore **);
    struct confstore *store;
    void *library = dlopen(path, RTLD_NOW);
    if (!library) return fprintf(stderr, "%s\n", dlerror()), 0;
    *(void **)&connect_to = dlsym(library, "confstore_connect");
    if (!connect_to || connect_to("/nonexistent", 1, &store) != CONFSTORE_NO_SERVER) return 0;
    return dlclose(library) == 0 && !dlopen(path, RTLD_NOW | RTLD_NOLOAD);
}

int main(int count, char **words) {
    if (count != 2) return 2;
    for (int turn = 0; turn < 3; turn++) {
        if (!is_unloaded(words[1])) return fprintf(stderr, "not unloaded\n"), 1;
        pid_t child = fork();
        if (child == 0) _exit(0);
        int status = -1;
        if (waitpid(child, &status, 0) != child || status != 0) return fprintf(stderr, "the fork failed\n"), 1;
    }
    return 0;
}
