/* Stands before the C library's calls in a run of the program, and lets one of them fail or all of them move little.
 *
 * REFUSE is a list of words and numbers, as `growth=7`: the 7th call for memory is refused. `read=3` and `write=2` fail these calls,
 * `short=5` lets each read and write move at most five bytes. `tell=9` writes how many calls for memory, reads and writes there were
 * to the open file 9 at the end. Numbers count from 1 over all threads of the run, in the order in which the calls come.
 */
#include <errno.h>
#include <stdatomic.h>
#include <stddef.h>
#include <stdio.h>
#include <stdlib.h>
#include <string.h>
#include <unistd.h>

extern void *__libc_malloc(size_t size);
extern void *__libc_realloc(void *old, size_t size);
extern ssize_t __read(int file, void *into, size_t most);
extern ssize_t __write(int file, const void *from, size_t most);

static atomic_ulong growths, reads, writes;
static unsigned long growth, failing_read, failing_write, most_bytes, told;
/* What comes before the program's own start, as the C library's own making, is not counted. */
static atomic_int begun;

static unsigned long wanted(const char *word) {
    const char *all = getenv("REFUSE");
    const char *place = all ? strstr(all, word) : NULL;
    return place ? strtoul(place + strlen(word), NULL, 10) : 0;
}

__attribute__((constructor)) static void begin(void) {
    growth = wanted("growth=");
    failing_read = wanted("read=");
    failing_write = wanted("write=");
    most_bytes = wanted("short=");
    told = wanted("tell=");
    atomic_store(&begun, 1);
}

/* The program may end by `_exit`, so what was counted is told by that. */
static void tell(void) {
    char line[80];
    if (!told) return;
    int length = snprintf(line, sizeof line, "%lu %lu %lu\n", atomic_load(&growths), atomic_load(&reads), atomic_load(&writes));
    if (length > 0) (void)!__write((int)told, line, (size_t)length);
    told = 0;
}

__attribute__((destructor)) static void end(void) { tell(); }

extern void _Exit(int status) __attribute__((noreturn));

void _exit(int status) {
    tell();
    _Exit(status);
}

static int refused(void) { return atomic_load(&begun) && atomic_fetch_add(&growths, 1) + 1 == growth; }

void *malloc(size_t size) {
    if (refused()) {
        errno = ENOMEM;
        return NULL;
    }
    return __libc_malloc(size);
}

void *realloc(void *old, size_t size) {
    if (refused()) {
        errno = ENOMEM;
        return NULL;
    }
    return __libc_realloc(old, size);
}

static size_t at_most(size_t most) { return most_bytes && most > most_bytes ? most_bytes : most; }

ssize_t read(int file, void *into, size_t most) {
    if (atomic_fetch_add(&reads, 1) + 1 == failing_read) {
        errno = EIO;
        return -1;
    }
    return __read(file, into, at_most(most));
}

ssize_t write(int file, const void *from, size_t most) {
    if (atomic_fetch_add(&writes, 1) + 1 == failing_write) {
        errno = EIO;
        return -1;
    }
    return __write(file, from, at_most(most));
}
