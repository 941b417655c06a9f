// Refuses one request for memory of the program that it is loaded into: the one of the number REFUSED, from 1. With MARK, only
// those are numbered that come behind the first request of just MARK bytes and before the second. As the program ends, it writes
// into the file REQUESTS how many came before, were numbered, and came behind the second, how many behind a third, and how many it
// refused.
//
//     gcc -O2 -shared -fPIC -o refused.so refused.c && LD_PRELOAD=./refused.so REFUSED=5 REQUESTS=count PROGRAM
#include <fcntl.h>
#include <stdio.h>
#include <stdlib.h>
#include <unistd.h>

extern void *__libc_malloc(size_t size);
extern void *__libc_realloc(void *at, size_t size);

static unsigned long requests[4], refused, refusals, mark;
static int part;

static unsigned long number_of(const char *name) {
    const char *number = getenv(name);
    return number ? strtoul(number, NULL, 10) : 0;
}

__attribute__((constructor)) static void begin(void) {
    refused = number_of("REFUSED");
    mark = number_of("MARK");
    part = mark == 0;
}

// Counts a request, and says whether it is refused. One of MARK bytes is met, and those behind it are of the next part.
static int is_refused(size_t size) {
    if (mark && size == mark && part < 3) {
        part++;
        return 0;
    }
    if (++requests[part] != refused || part != 1) {
        return 0;
    }
    refusals++;
    return 1;
}

void *malloc(size_t size) {
    return is_refused(size) ? NULL : __libc_malloc(size);
}

void *realloc(void *at, size_t size) {
    return is_refused(size) ? NULL : __libc_realloc(at, size);
}

__attribute__((destructor)) static void end(void) {
    const char *name = getenv("REQUESTS");
    int file = name ? open(name, O_WRONLY | O_CREAT | O_TRUNC, 0644) : -1;
    if (file >= 0) {
        dprintf(file, "%lu %lu %lu %lu %lu\n", requests[0], requests[1], requests[2], requests[3], refusals);
        close(file);
    }
}
