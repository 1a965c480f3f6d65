/* Loaded before a program, keeps what it asks of the disk in the file CUT_LOG, so that a test can leave what a cut of the power
   might have. A record is its kind, the number of a file or folder, an offset, a count, and so many bytes:

   m  a folder was made
   o  a file was opened that is made where there is none; the bytes are its path
   t  a file was emptied as it was opened
   w  bytes are to be written at the offset
   s  what was written to the file, or named in the folder, was stored
   r  a file is to be renamed; the bytes are the old path, a zero and the new one
   u  a name is to be removed; the bytes are its path

   A write, a rename and a removal are kept before they are done, and the others after that: who is killed in between may have done it or not.
   The program is killed once it has asked so often as CUT_AT says, if that is set. */
#define _GNU_SOURCE
#include <errno.h>
#include <fcntl.h>
#include <signal.h>
#include <stdarg.h>
#include <stdint.h>
#include <stdlib.h>
#include <string.h>
#include <sys/stat.h>
#include <sys/syscall.h>
#include <sys/uio.h>
#include <unistd.h>

struct record {
    uint64_t kind, number, at, count;
};

static int kept = -1;
static long cut_at;

/* The number of an open file. */
static uint64_t number_of(int device) {
    struct stat about;
    return fstat(device, &about) ? 0 : about.st_ino;
}

static void keep(char kind, uint64_t number, uint64_t at, const void *bytes, uint64_t count) {
    struct record head = {kind, number, at, count};
    struct iovec parts[] = {{&head, sizeof head}, {(void *)bytes, count}};
    if (kept >= 0 && syscall(SYS_writev, kept, parts, 2) != (ssize_t)(sizeof head + count))
        abort();
    if (cut_at && --cut_at == 0)
        raise(SIGKILL);
}

static int opened(int folder, const char *path, int flags, mode_t mode) {
    int device = syscall(SYS_openat, folder, path, flags, mode);
    if (device >= 0 && flags & O_CREAT)
        keep('o', number_of(device), 0, path, strlen(path));
    if (device >= 0 && flags & O_TRUNC)
        keep('t', number_of(device), 0, "", 0);
    return device;
}

static mode_t mode_of(int flags, va_list more) { return flags & O_CREAT ? va_arg(more, mode_t) : 0; }

#define OPENS(name)                                     \
    int name(const char *path, int flags, ...) {        \
        va_list more;                                   \
        va_start(more, flags);                          \
        mode_t mode = mode_of(flags, more);             \
        va_end(more);                                   \
        return opened(AT_FDCWD, path, flags, mode);     \
    }

#define OPENS_IN(name)                                      \
    int name(int folder, const char *path, int flags, ...) { \
        va_list more;                                       \
        va_start(more, flags);                              \
        mode_t mode = mode_of(flags, more);                 \
        va_end(more);                                       \
        return opened(folder, path, flags, mode);           \
    }

OPENS(open)
OPENS(open64)
OPENS_IN(openat)
OPENS_IN(openat64)

ssize_t pwrite64(int device, const void *bytes, size_t count, off64_t at) {
    keep('w', number_of(device), at, bytes, count);
    return syscall(SYS_pwrite64, device, bytes, count, at);
}

ssize_t pwrite(int device, const void *bytes, size_t count, off_t at) { return pwrite64(device, bytes, count, at); }

/* A write at the file's own offset; what isn't a file, as a socket or a stream, is passed over. */
ssize_t write(int device, const void *bytes, size_t count) {
    struct stat about;
    if (device > STDERR_FILENO && !fstat(device, &about) && S_ISREG(about.st_mode))
        keep('w', about.st_ino, lseek(device, 0, SEEK_CUR), bytes, count);
    return syscall(SYS_write, device, bytes, count);
}

static int stored(int device, int failed) {
    if (!failed)
        keep('s', number_of(device), 0, "", 0);
    return failed;
}

int fsync(int device) { return stored(device, syscall(SYS_fsync, device)); }

int fdatasync(int device) { return stored(device, syscall(SYS_fdatasync, device)); }

int mkdir(const char *path, mode_t mode) {
    int failed = syscall(SYS_mkdir, path, mode);
    if (!failed)
        keep('m', 0, 0, path, strlen(path));
    return failed;
}

int rename(const char *old, const char *new) {
    char both[8192];
    size_t first = strlen(old) + 1, second = strlen(new);
    if (first + second > sizeof both) {
        errno = ENAMETOOLONG;
        return -1;
    }
    memcpy(both, old, first);
    memcpy(both + first, new, second);
    keep('r', 0, 0, both, first + second);
    return syscall(SYS_rename, old, new);
}

int unlink(const char *path) {
    keep('u', 0, 0, path, strlen(path));
    return syscall(SYS_unlink, path);
}

__attribute__((constructor)) static void set_up(void) {
    const char *name = getenv("CUT_LOG"), *digits = getenv("CUT_AT");
    cut_at = digits ? atol(digits) : 0;
    kept = name ? syscall(SYS_openat, AT_FDCWD, name, O_WRONLY | O_CREAT | O_APPEND | O_CLOEXEC, 0600) : -1;
}
