// Tells a program that a file belongs to another user. Load it with LD_PRELOAD: where the environment's OTHERS_FILE is
// the path that a look is at, the owner is the user OTHERS_USER.
#define _GNU_SOURCE
#include <dlfcn.h>
#include <stdlib.h>
#include <string.h>
#include <sys/stat.h>

// The function of the C library. POSIX lets a pointer to an object, as dlsym returns it, stand for a function.
#define REAL(name) (*(__typeof__(&name) *)(void *[]){dlsym(RTLD_NEXT, #name)})

int statx(int folder, const char *restrict path, int flags, unsigned mask, struct statx *restrict found) {
    const char *file = getenv("OTHERS_FILE"), *user = getenv("OTHERS_USER");
    int status = REAL(statx)(folder, path, flags, mask, found);
    if (status == 0 && file && user && !strcmp(path, file)) {
        found->stx_uid = (unsigned)atol(user);
    }
    return status;
}
