// A library to preload: calls of the system fail in turn, or are noted.
//
// FAIL_CALL names a call (open, read, write, seek, size, sync, rename, link, unlink, accept, recv, send, poll, wait,
// watch), FAIL_NUMBER counts those of one kind from 1, FAIL_ERRNO is the error that the one of that number gives, or
// 0 where the program is killed in its place, or -1 where a write does half of it and then the program is killed.
// With FAIL_REST each later one fails too. FAIL_NOTE is a file that is made when that happened.
//
// With LOSE_LOG each change of a file below the folder LOSE_FROM is noted in that file, so that somebody may work
// out what a loss of power would have left (gate/losing.py). open to unlink are those of files below LOSE_FROM, or
// of that folder.
#define _GNU_SOURCE
#include <errno.h>
#include <fcntl.h>
#include <limits.h>
#include <signal.h>
#include <stdarg.h>
#include <stdint.h>
#include <stdio.h>
#include <stdlib.h>
#include <string.h>
#include <sys/epoll.h>
#include <sys/socket.h>
#include <sys/stat.h>
#include <sys/syscall.h>
#include <sys/uio.h>
#include <unistd.h>

static unsigned long counted;
static int log_file = -2;

// Whether a path stands below the folder.
static int is_below(const char *path) {
    const char *from = getenv("LOSE_FROM");
    return from != NULL && strncmp(path, from, strlen(from)) == 0;
}

// Whether a file stands below the folder.
static int is_kept(int file) {
    char link[64], path[PATH_MAX];
    snprintf(link, sizeof link, "/proc/self/fd/%d", file);
    ssize_t size = syscall(SYS_readlink, link, path, sizeof path - 1);
    if (size <= 0) {
        return 0;
    }
    path[size] = 0;
    return is_below(path);
}

static void note(void) {
    const char *path = getenv("FAIL_NOTE");
    int file = path == NULL ? -1 : (int)syscall(SYS_openat, AT_FDCWD, path, O_CREAT | O_WRONLY, 0600);
    if (file >= 0) {
        syscall(SYS_close, file);
    }
}

static void die(void) {
    syscall(SYS_kill, getpid(), SIGKILL);
}

// Whether a call of this kind fails, which then sets errno. `half`: it has to do half of what it does, and to die.
static int fails(const char *kind, int *half) {
    const char *call = getenv("FAIL_CALL");
    const char *number = getenv("FAIL_NUMBER");
    if (call == NULL || number == NULL || strcmp(call, kind) != 0) {
        return 0;
    }
    unsigned long wanted = strtoul(number, NULL, 10), now = __atomic_add_fetch(&counted, 1, __ATOMIC_RELAXED);
    if (now != wanted && !(now > wanted && getenv("FAIL_REST") != NULL)) {
        return 0;
    }
    note();
    const char *text = getenv("FAIL_ERRNO");
    int error = text == NULL ? EIO : atoi(text);
    if (error == 0) {
        die();
    }
    if (error < 0) {
        if (half != NULL) {
            *half = 1;
            return 0;
        }
        die();
    }
    errno = error;
    return 1;
}

// Notes a change: its letter, the file's number, a place, a length, and bytes.
static void log_change(char letter, uint64_t file, uint64_t at, const void *bytes, uint64_t length, uint64_t more) {
    if (log_file == -2) {
        const char *path = getenv("LOSE_LOG");
        log_file = path == NULL ? -1 : (int)syscall(SYS_openat, AT_FDCWD, path, O_CREAT | O_WRONLY | O_APPEND, 0600);
    }
    if (log_file < 0) {
        return;
    }
    uint64_t head[5] = {(uint64_t)letter, file, at, length, more};
    struct iovec parts[2] = {{head, sizeof head}, {(void *)bytes, length}};
    if (syscall(SYS_writev, log_file, parts, length > 0 ? 2 : 1) < 0) {
        die();
    }
}

static uint64_t number_of(int file) {
    struct stat found;
    return fstat(file, &found) == 0 ? (uint64_t)found.st_ino : 0;
}

static const char *name_of(const char *path) {
    const char *last = strrchr(path, '/');
    return last == NULL ? path : last + 1;
}

static void opened(int file, const char *path, int is_new) {
    if (file >= 0 && is_new) {
        log_change('O', number_of(file), 0, name_of(path), strlen(name_of(path)), 0);
    }
}

static int open_any(int folder, const char *path, int flags, mode_t mode) {
    int kept = is_below(path), is_new = 0;
    if (kept) {
        if (fails("open", NULL)) {
            return -1;
        }
        struct stat found;
        is_new = (flags & O_CREAT) != 0 && stat(path, &found) != 0;
    }
    int file = (int)syscall(SYS_openat, folder, path, flags, mode);
    if (kept) {
        opened(file, path, is_new);
    }
    return file;
}

#define MODE_OF(mode, flags)                     \
    mode_t mode = 0;                             \
    if ((flags) & (O_CREAT | O_TMPFILE)) {       \
        va_list rest;                            \
        va_start(rest, flags);                   \
        mode = va_arg(rest, mode_t);             \
        va_end(rest);                            \
    }

int open(const char *path, int flags, ...) {
    MODE_OF(mode, flags)
    return open_any(AT_FDCWD, path, flags, mode);
}

int open64(const char *path, int flags, ...) {
    MODE_OF(mode, flags)
    return open_any(AT_FDCWD, path, flags, mode);
}

int openat(int folder, const char *path, int flags, ...) {
    MODE_OF(mode, flags)
    return open_any(folder, path, flags, mode);
}

int openat64(int folder, const char *path, int flags, ...) {
    MODE_OF(mode, flags)
    return open_any(folder, path, flags, mode);
}

static int is_socket(int file) {
    struct stat found;
    return fstat(file, &found) == 0 && S_ISSOCK(found.st_mode);
}

ssize_t read(int file, void *bytes, size_t length) {
    if (is_kept(file) ? fails("read", NULL) : is_socket(file) && fails("recv", NULL)) {
        return -1;
    }
    return syscall(SYS_read, file, bytes, length);
}

ssize_t recv(int file, void *bytes, size_t length, int flags) {
    if (fails("recv", NULL)) {
        return -1;
    }
    return syscall(SYS_recvfrom, file, bytes, length, flags, NULL, NULL);
}

static ssize_t write_kept(int file, const void *bytes, size_t length, int64_t at) {
    int half = 0;
    if (fails("write", &half)) {
        return -1;
    }
    int64_t place = at >= 0 ? at : syscall(SYS_lseek, file, 0, SEEK_CUR);
    size_t most = half ? length / 2 : length;
    log_change('W', number_of(file), (uint64_t)place, bytes, most, 0);
    ssize_t done = at >= 0 ? syscall(SYS_pwrite64, file, bytes, most, at) : syscall(SYS_write, file, bytes, most);
    if (half) {
        die();
    }
    return done;
}

ssize_t write(int file, const void *bytes, size_t length) {
    if (is_kept(file)) {
        return write_kept(file, bytes, length, -1);
    }
    if (is_socket(file) && fails("send", NULL)) {
        return -1;
    }
    return syscall(SYS_write, file, bytes, length);
}

ssize_t pwrite(int file, const void *bytes, size_t length, off_t at) {
    return is_kept(file) ? write_kept(file, bytes, length, at) : syscall(SYS_pwrite64, file, bytes, length, at);
}

ssize_t pwrite64(int file, const void *bytes, size_t length, off64_t at) {
    return pwrite(file, bytes, length, at);
}

ssize_t send(int file, const void *bytes, size_t length, int flags) {
    if (fails("send", NULL)) {
        return -1;
    }
    return syscall(SYS_sendto, file, bytes, length, flags, NULL, 0);
}

off_t lseek(int file, off_t at, int whence) {
    if (is_kept(file) && fails("seek", NULL)) {
        return -1;
    }
    return syscall(SYS_lseek, file, at, whence);
}

off64_t lseek64(int file, off64_t at, int whence) {
    return lseek(file, at, whence);
}

int ftruncate(int file, off_t size) {
    if (is_kept(file)) {
        if (fails("size", NULL)) {
            return -1;
        }
        log_change('T', number_of(file), (uint64_t)size, NULL, 0, 0);
    }
    return (int)syscall(SYS_ftruncate, file, size);
}

int ftruncate64(int file, off64_t size) {
    return ftruncate(file, size);
}

static int stored(int file, long call) {
    int kept = is_kept(file);
    if (kept && fails("sync", NULL)) {
        return -1;
    }
    int done = (int)syscall(call, file);
    if (kept && done == 0) {
        struct stat found;
        int is_folder = fstat(file, &found) == 0 && S_ISDIR(found.st_mode);
        log_change(is_folder ? 'D' : 'S', number_of(file), 0, NULL, 0, 0);
    }
    return done;
}

int fsync(int file) {
    return stored(file, SYS_fsync);
}

int fdatasync(int file) {
    return stored(file, SYS_fdatasync);
}

static void log_names(char letter, const char *old, const char *new) {
    char names[2 * NAME_MAX + 2];
    int size = snprintf(names, sizeof names, "%s/%s", name_of(old), name_of(new));
    log_change(letter, 0, 0, names, (uint64_t)size, 0);
}

static int renamed(const char *old, const char *new) {
    if (!is_below(old)) {
        return (int)syscall(SYS_rename, old, new);
    }
    if (fails("rename", NULL)) {
        return -1;
    }
    log_names('R', old, new);
    return (int)syscall(SYS_rename, old, new);
}

int rename(const char *old, const char *new) {
    return renamed(old, new);
}

int renameat(int from, const char *old, int to, const char *new) {
    return from == AT_FDCWD && to == AT_FDCWD ? renamed(old, new) : (int)syscall(SYS_renameat, from, old, to, new);
}

static int removed(const char *path) {
    if (is_below(path)) {
        if (fails("unlink", NULL)) {
            return -1;
        }
        log_change('U', 0, 0, name_of(path), strlen(name_of(path)), 0);
    }
    return (int)syscall(SYS_unlink, path);
}

int unlink(const char *path) {
    return removed(path);
}

int unlinkat(int folder, const char *path, int flags) {
    return folder == AT_FDCWD && flags == 0 ? removed(path) : (int)syscall(SYS_unlinkat, folder, path, flags);
}

static int linked(const char *old, const char *new) {
    if (is_below(new)) {
        if (fails("link", NULL)) {
            return -1;
        }
        log_names('L', old, new);
    }
    return (int)syscall(SYS_link, old, new);
}

int link(const char *old, const char *new) {
    return linked(old, new);
}

int linkat(int from, const char *old, int to, const char *new, int flags) {
    return from == AT_FDCWD && to == AT_FDCWD ? linked(old, new) : (int)syscall(SYS_linkat, from, old, to, new, flags);
}

int accept4(int file, struct sockaddr *address, socklen_t *length, int flags) {
    if (fails("accept", NULL)) {
        return -1;
    }
    return (int)syscall(SYS_accept4, file, address, length, flags);
}

int accept(int file, struct sockaddr *address, socklen_t *length) {
    return accept4(file, address, length, 0);
}

int epoll_create1(int flags) {
    if (fails("poll", NULL)) {
        return -1;
    }
    return (int)syscall(SYS_epoll_create1, flags);
}

int epoll_wait(int set, struct epoll_event *events, int most, int time) {
    if (fails("wait", NULL)) {
        return -1;
    }
    return (int)syscall(SYS_epoll_pwait, set, events, most, time, NULL, 8);
}

int epoll_ctl(int set, int what, int file, struct epoll_event *event) {
    if (fails("watch", NULL)) {
        return -1;
    }
    return (int)syscall(SYS_epoll_ctl, set, what, file, event);
}
