// A library to preload: the read of a listing whose number is LISTING fails, and no thread is made once the file NO_THREAD is
// there.
#define _GNU_SOURCE
#include <dlfcn.h>
#include <errno.h>
#include <pthread.h>
#include <stdlib.h>
#include <sys/syscall.h>
#include <unistd.h>
static long reads;
ssize_t getdents64(int fd, void *buffer, size_t size) {
    const char *fails = getenv("LISTING");
    if (fails && ++reads == atol(fails)) {
        errno = EIO;
        return -1;
    }
    return syscall(SYS_getdents64, fd, buffer, size);
}
int pthread_create(pthread_t *thread, const pthread_attr_t *how, void *(*begin)(void *), void *given) {
    const char *none = getenv("NO_THREAD");
    if (none && access(none, F_OK) == 0) {
        return EAGAIN;
    }
    int (*make)(pthread_t *, const pthread_attr_t *, void *(*)(void *), void *) = dlsym(RTLD_NEXT, "pthread_create");
    return make(thread, how, begin, given);
}
