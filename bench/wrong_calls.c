// Makes a program go wrong in one way, told by the variable WRONG: loaded before the C library, it leaves out or exchanges calls.
#define _GNU_SOURCE
#include <fcntl.h>
#include <stdarg.h>
#include <stdlib.h>
#include <string.h>
#include <sys/stat.h>
#include <sys/syscall.h>
#include <unistd.h>

// a gate that is opened behind the next answer: its file, or -1, and its place
static int late = -1;
static off_t gate;

static int is_wrong(const char *how) {
    const char *asked = getenv("WRONG");
    return asked && strcmp(asked, how) == 0;
}

int fsync(int file) {
    struct stat about;
    int is_folder = fstat(file, &about) == 0 && S_ISDIR(about.st_mode);
    if (is_wrong(is_folder ? "no_folder_sync" : "no_sync") || file == late)
        return 0;
    return syscall(SYS_fsync, file);
}

int flock(int file, int how) {
    return is_wrong("no_lock") ? 0 : syscall(SYS_flock, file, how);
}

int open(const char *path, int flags, ...) {
    va_list rest;
    va_start(rest, flags);
    mode_t mode = flags & O_CREAT ? va_arg(rest, mode_t) : 0;
    va_end(rest);
    return syscall(SYS_openat, AT_FDCWD, path, is_wrong("no_exclusive_creation") ? flags & ~O_EXCL : flags, mode);
}

ssize_t write(int file, const void *bytes, size_t count) {
    if (is_wrong("answer_first") && file > 2 && count == 1 && *(const char *)bytes == 1) {
        late = file;
        gate = lseek(file, 0, SEEK_CUR);
        return 1;
    }
    ssize_t done = syscall(SYS_write, file, bytes, count);
    if (file == 1 && late >= 0) {
        pwrite(late, "\1", 1, gate);
        syscall(SYS_fsync, late);
        late = -1;
    }
    return done;
}
