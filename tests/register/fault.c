/* Preloaded into a program: of its calls of the functions below, the one with the number FAULT_AT, from 1, fails with EIO; or, with FAULT_HOW=kill,
   the program is killed there. A write that is killed has written half. */
#define _GNU_SOURCE
#include <errno.h>
#include <fcntl.h>
#include <signal.h>
#include <stdarg.h>
#include <stdlib.h>
#include <string.h>
#include <sys/stat.h>
#include <sys/syscall.h>
#include <unistd.h>

static int calls;

static int is_kill(void)
{
    const char *how = getenv("FAULT_HOW");
    return how != NULL && strcmp(how, "kill") == 0;
}

/* Whether this call is the one. */
static int is_due(void)
{
    const char *at = getenv("FAULT_AT");
    return at != NULL && ++calls == atoi(at);
}

/* Kills the program, or has the call fail. */
static int fault(void)
{
    if (is_kill()) raise(SIGKILL);
    errno = EIO;
    return -1;
}

int open(const char *name, int flags, ...)
{
    va_list more;
    mode_t mode;
    va_start(more, flags);
    mode = flags & O_CREAT ? va_arg(more, mode_t) : 0;
    va_end(more);
    return is_due() ? fault() : (int)syscall(SYS_openat, AT_FDCWD, name, flags, mode);
}

ssize_t read(int file, void *at, size_t length) { return is_due() ? fault() : syscall(SYS_read, file, at, length); }

ssize_t write(int file, const void *at, size_t length)
{
    if (!is_due()) return syscall(SYS_write, file, at, length);
    if (is_kill()) syscall(SYS_write, file, at, length / 2);
    return fault();
}

/* What is closed is closed, also where the call fails. */
int close(int file)
{
    int due = is_due(), answer;
    if (due && is_kill()) fault();
    answer = (int)syscall(SYS_close, file);
    return due ? fault() : answer;
}

int fsync(int file) { return is_due() ? fault() : (int)syscall(SYS_fsync, file); }
int rename(const char *from, const char *to) { return is_due() ? fault() : (int)syscall(SYS_rename, from, to); }
int unlink(const char *name) { return is_due() ? fault() : (int)syscall(SYS_unlink, name); }
int fchown(int file, uid_t owner, gid_t group) { return is_due() ? fault() : (int)syscall(SYS_fchown, file, owner, group); }
int fchmod(int file, mode_t mode) { return is_due() ? fault() : (int)syscall(SYS_fchmod, file, mode); }
int flock(int file, int how) { return is_due() ? fault() : (int)syscall(SYS_flock, file, how); }
int access(const char *name, int how) { return is_due() ? fault() : (int)syscall(SYS_access, name, how); }
int fstat(int file, struct stat *as) { return is_due() ? fault() : (int)syscall(SYS_fstat, file, as); }
