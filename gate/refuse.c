// A library to preload: it refuses one growth of memory, the one whose number, counted from 1, stands
// in the environment as REFUSE_GROWTH, or each growth between one of REFUSE_MARK bytes and the next of one byte
// more; and then it makes the file that REFUSE_NOTE names. Growths of all threads are counted together.
#include <errno.h>
#include <fcntl.h>
#include <stdlib.h>
#include <unistd.h>

extern void *__libc_malloc(size_t size);
extern void *__libc_realloc(void *old, size_t size);

static unsigned long growths;
static int starves;

static int refuse(const char *note) {
    int file = open(note, O_CREAT | O_WRONLY, 0600);
    if (file >= 0) {
        close(file);
    }
    errno = ENOMEM;
    return 1;
}

static int is_refused(size_t size) {
    const char *note = getenv("REFUSE_NOTE");
    const char *number = getenv("REFUSE_GROWTH");
    const char *mark = getenv("REFUSE_MARK");
    if (note == NULL) {
        return 0;
    }
    if (mark != NULL && size - strtoul(mark, NULL, 10) < 2) {
        starves = size == strtoul(mark, NULL, 10);
        return 0;
    }
    if (starves || (number != NULL && __atomic_add_fetch(&growths, 1, __ATOMIC_RELAXED) == strtoul(number, NULL, 10))) {
        return refuse(note);
    }
    return 0;
}

void *malloc(size_t size) {
    return is_refused(size) ? NULL : __libc_malloc(size);
}

void *realloc(void *old, size_t size) {
    return is_refused(size) ? NULL : __libc_realloc(old, size);
}
