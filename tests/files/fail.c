/* A library to be loaded before a program (LD_PRELOAD). It counts the program's calls that change files, and makes one of
 * them fail, or ends the program there, as a crash would.
 *
 *   FAIL_NTH=N          the N-th of these calls, and no other one; without this setting none
 *   FAIL_WITH=ERRNO     it fails with this error of the system
 *   FAIL_WITH=before    the program is killed before the call
 *   FAIL_WITH=after     the program is killed after the call
 *   FAIL_WITH=half      the call, if it writes, writes half of its bytes, and then the program is killed
 *   FAIL_REPORT=FILE    FILE gets a line for each of these calls
 *
 * Standard output and standard error aren't counted. It is no part of the product, and no crate links it.
 */
#define _GNU_SOURCE
#include <dlfcn.h>
#include <errno.h>
#include <fcntl.h>
#include <signal.h>
#include <stdarg.h>
#include <stdio.h>
#include <stdlib.h>
#include <string.h>
#include <sys/stat.h>
#include <sys/syscall.h>
#include <unistd.h>

static long calls;

static void end(void) {
    kill(getpid(), SIGKILL);
}

/* Counts a call, and returns how it ends if it is the one, and otherwise NULL. */
static const char *how(const char *name) {
    const char *nth = getenv("FAIL_NTH"), *with = getenv("FAIL_WITH"), *report = getenv("FAIL_REPORT");
    calls++;
    if (report) {
        int fd = syscall(SYS_openat, AT_FDCWD, report, O_WRONLY | O_CREAT | O_APPEND, 0644);
        syscall(SYS_write, fd, name, strlen(name));
        syscall(SYS_write, fd, "\n", 1);
        syscall(SYS_close, fd);
    }
    if (!nth || !with || calls != atol(nth)) return NULL;
    if (strcmp(with, "before") == 0) end();
    return with;
}

/* Fails, or kills the program after a call that returned `done`. */
static long ended(const char *with, long done) {
    if (!with) return done;
    if (atoi(with) == 0) end();
    errno = atoi(with);
    return -1;
}

static int is_error(const char *with) {
    return with && atoi(with) != 0;
}

static int opened(const char *path, int flags, va_list rest) {
    mode_t mode = flags & O_CREAT ? va_arg(rest, mode_t) : 0;
    const char *with = flags & (O_CREAT | O_WRONLY | O_RDWR) ? how("open") : NULL;
    return ended(with, is_error(with) ? -1 : syscall(SYS_openat, AT_FDCWD, path, flags, mode));
}

int open(const char *path, int flags, ...) {
    va_list rest;
    va_start(rest, flags);
    int fd = opened(path, flags, rest);
    va_end(rest);
    return fd;
}

int open64(const char *path, int flags, ...) {
    va_list rest;
    va_start(rest, flags);
    int fd = opened(path, flags, rest);
    va_end(rest);
    return fd;
}

ssize_t write(int fd, const void *bytes, size_t size) {
    if (fd < 3) return syscall(SYS_write, fd, bytes, size);
    const char *with = how("write");
    if (with && strcmp(with, "half") == 0) size /= 2;
    return ended(with, is_error(with) ? -1 : syscall(SYS_write, fd, bytes, size));
}

int fsync(int fd) {
    const char *with = how("fsync");
    return ended(with, is_error(with) ? -1 : syscall(SYS_fsync, fd));
}

int fchmod(int fd, mode_t mode) {
    const char *with = how("fchmod");
    return ended(with, is_error(with) ? -1 : syscall(SYS_fchmod, fd, mode));
}

int fchown(int fd, uid_t user, gid_t group) {
    const char *with = how("fchown");
    return ended(with, is_error(with) ? -1 : syscall(SYS_fchown, fd, user, group));
}

int rename(const char *from, const char *to) {
    const char *with = how("rename");
    return ended(with, is_error(with) ? -1 : syscall(SYS_renameat2, AT_FDCWD, from, AT_FDCWD, to, 0));
}

int unlink(const char *path) {
    const char *with = how("unlink");
    return ended(with, is_error(with) ? -1 : syscall(SYS_unlinkat, AT_FDCWD, path, 0));
}
