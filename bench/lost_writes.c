/*
 * A disk that loses power, for bench/killed: loaded before the C library, it keeps beside each store and its log what
 * a disk would have after a loss of power. That is all that was synced, and of what was written since then each write
 * by chance. The copies are in the folder that DISK names, under the names of the files.
 */
#define _GNU_SOURCE
#include <dlfcn.h>
#include <fcntl.h>
#include <limits.h>
#include <stdio.h>
#include <stdlib.h>
#include <string.h>
#include <time.h>
#include <unistd.h>

#define MOST_FILES 64
#define MOST_WRITES 4096

/* The writes to a file that are not on the disk yet. */
struct file {
    int disk;
    int count;
    struct {
        off_t at;
        size_t length;
    } writes[MOST_WRITES];
};

static struct file *files[MOST_FILES];

/* Reports what must not happen, and ends. */
static void fail(const char *what) {
    fprintf(stderr, "lost_writes: %s\n", what);
    abort();
}

/* The copy of the store or the log that has this descriptor; none for any other file. */
static struct file *file_of(int descriptor) {
    char link[64], path[PATH_MAX], copy[2 * PATH_MAX];
    const char *name, *folder = getenv("DISK");
    ssize_t length;
    if (descriptor < 0 || descriptor >= MOST_FILES || folder == NULL)
        return NULL;
    if (files[descriptor] != NULL)
        return files[descriptor];
    snprintf(link, sizeof link, "/proc/self/fd/%d", descriptor);
    length = readlink(link, path, sizeof path - 1);
    if (length <= 0)
        return NULL;
    path[length] = 0;
    name = strrchr(path, '/');
    if (name == NULL || strstr(name, ".db") == NULL)
        return NULL;
    snprintf(copy, sizeof copy, "%s%s", folder, name);
    files[descriptor] = calloc(1, sizeof(struct file));
    files[descriptor]->disk = open(copy, O_RDWR | O_CREAT, 0600);
    if (files[descriptor]->disk < 0)
        fail("no copy");
    srandom((unsigned)(getpid() * 7919 + time(NULL)));
    return files[descriptor];
}

/* Puts on the disk what the file has at this place. */
static void put(struct file *file, int descriptor, off_t at, size_t length) {
    static ssize_t (*real_pwrite)(int, const void *, size_t, off_t);
    char *octets = malloc(length);
    ssize_t found = pread(descriptor, octets, length, at);
    if (real_pwrite == NULL)
        real_pwrite = dlsym(RTLD_NEXT, "pwrite");
    if (found > 0 && real_pwrite(file->disk, octets, (size_t)found, at) != found)
        fail("no room");
    free(octets);
}

/* Puts on the disk all that was written. */
static void put_all(struct file *file, int descriptor) {
    for (int i = 0; i < file->count; i++)
        put(file, descriptor, file->writes[i].at, file->writes[i].length);
    file->count = 0;
}

ssize_t pwrite(int descriptor, const void *octets, size_t length, off_t at) {
    static ssize_t (*real)(int, const void *, size_t, off_t);
    struct file *file = file_of(descriptor);
    ssize_t written;
    if (real == NULL)
        real = dlsym(RTLD_NEXT, "pwrite");
    written = real(descriptor, octets, length, at);
    if (file == NULL || written <= 0)
        return written;
    if (random() % 2 == 0) {
        put(file, descriptor, at, (size_t)written);
    } else if (file->count == MOST_WRITES) {
        fail("too many writes before a sync");
    } else {
        file->writes[file->count].at = at;
        file->writes[file->count].length = (size_t)written;
        file->count++;
    }
    return written;
}

int ftruncate(int descriptor, off_t length) {
    static int (*real)(int, off_t);
    struct file *file = file_of(descriptor);
    if (real == NULL)
        real = dlsym(RTLD_NEXT, "ftruncate");
    if (file != NULL) {
        put_all(file, descriptor);
        if (real(file->disk, length) != 0)
            fail("not cut");
    }
    return real(descriptor, length);
}

int fdatasync(int descriptor) {
    struct file *file = file_of(descriptor);
    if (file != NULL)
        put_all(file, descriptor);
    return 0;
}

int fsync(int descriptor) {
    return fdatasync(descriptor);
}
