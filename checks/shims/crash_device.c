// A file system in user space with one file, `disk`, of which `losetup` makes a block device. Its bytes are those of an
// image. It writes a log of what it is asked. Some writes are held for a while, so that later ones end first, as on a
// device that orders them by itself.
//
//   crash_device IMAGE LOG CHANCE LONGEST SEED FOLDER
//
// CHANCE of a hundred writes are held, each for at most LONGEST milliseconds, as the numbers from SEED say. It runs
// until FOLDER is unmounted. An entry of the log is a kind (`W` a write begins, `E` it ends, `F` all that ended is
// flushed), the number of the write, a place and a size, and then the bytes. Others may append to the log too.
#define FUSE_USE_VERSION 312
#define _GNU_SOURCE
#include <errno.h>
#include <fcntl.h>
#include <fuse.h>
#include <pthread.h>
#include <stdint.h>
#include <stdlib.h>
#include <string.h>
#include <sys/stat.h>
#include <sys/uio.h>
#include <unistd.h>

struct entry {
    uint32_t kind, number;
    uint64_t place, size;
};

static pthread_mutex_t turn = PTHREAD_MUTEX_INITIALIZER;
static int image, events;
static unsigned chance, longest, seed;
static uint32_t last;

static void append(char kind, uint32_t number, off_t place, const char *bytes, size_t size) {
    struct entry entry = {(uint32_t)kind, number, (uint64_t)place, size};
    struct iovec parts[] = {{&entry, sizeof entry}, {(void *)bytes, size}};
    if (writev(events, parts, 2) != (ssize_t)(sizeof entry + size)) {
        abort();
    }
}

static int disk_write(const char *path, const char *bytes, size_t size, off_t place, struct fuse_file_info *file) {
    (void)path, (void)file;
    pthread_mutex_lock(&turn);
    uint32_t number = ++last;
    unsigned drawn = (unsigned)rand_r(&seed) % 100, microseconds = (unsigned)rand_r(&seed) % (longest * 1000 + 1);
    append('W', number, place, bytes, size);
    pthread_mutex_unlock(&turn);
    usleep(drawn < chance ? microseconds : 0);
    ssize_t done = pwrite(image, bytes, size, place);
    append('E', number, 0, NULL, 0);
    return done == (ssize_t)size ? (int)size : -EIO;
}

static int disk_fsync(const char *path, int data, struct fuse_file_info *file) {
    (void)path, (void)data, (void)file;
    append('F', 0, 0, NULL, 0);
    return 0;
}

static int disk_read(const char *path, char *bytes, size_t size, off_t place, struct fuse_file_info *file) {
    (void)path, (void)file;
    return (int)pread(image, bytes, size, place);
}

static int disk_getattr(const char *path, struct stat *found, struct fuse_file_info *file) {
    (void)file;
    if (!strcmp(path, "/")) {
        found->st_mode = S_IFDIR | 0700;
        return 0;
    }
    return strcmp(path, "/disk") ? -ENOENT : fstat(image, found);
}

static void *disk_init(struct fuse_conn_info *connection, struct fuse_config *config) {
    connection->max_background = 128;
    config->direct_io = 1;
    config->attr_timeout = 3600;
    return NULL;
}

int main(int count, char **words) {
    image = count == 7 ? open(words[1], O_RDWR) : -1;
    events = count == 7 ? open(words[2], O_WRONLY | O_APPEND) : -1;
    if (image < 0 || events < 0) {
        return 2;
    }
    chance = (unsigned)atoi(words[3]), longest = (unsigned)atoi(words[4]), seed = (unsigned)atoi(words[5]);
    const struct fuse_operations calls = {.init = disk_init, .getattr = disk_getattr, .read = disk_read,
                                          .write = disk_write, .fsync = disk_fsync};
    char *options[] = {words[0], words[6], "-f", "-o", "max_threads=64,max_idle_threads=64"};
    return fuse_main(5, options, &calls, NULL);
}
