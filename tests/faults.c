/* Preloaded into a program: `read` of standard input and `write` of standard output meet faults, one for each call. The
 * variables READ_FAULTS and WRITE_FAULTS hold them, parted by commas: a number n is a call that moves at most n bytes, -n one
 * that fails with the error n; after the last, calls go on as asked, or, where the list ends in a plus, as the last does. */
#define _GNU_SOURCE
#include <dlfcn.h>
#include <errno.h>
#include <stdlib.h>
#include <unistd.h>

typedef struct {
    char *next;
    int repeats;
    long last;
} faults;

/* The fault of this call, or as many bytes as are asked. */
static long fault(faults *list, const char *name, long asked) {
    if (!list->next && !list->repeats) {
        list->next = getenv(name);
        if (!list->next)
            list->next = "";
    }
    if (list->repeats)
        return list->last;
    if (!*list->next)
        return asked;
    list->last = strtol(list->next, &list->next, 10);
    if (*list->next == ',')
        list->next++;
    list->repeats = *list->next == '+';
    return list->last;
}

ssize_t read(int fd, void *bytes, size_t asked) {
    static faults list;
    ssize_t (*real)(int, void *, size_t) = dlsym(RTLD_NEXT, "read");
    long n = fd == STDIN_FILENO ? fault(&list, "READ_FAULTS", asked) : (long)asked;
    if (n < 0) {
        errno = -n;
        return -1;
    }
    return real(fd, bytes, (size_t)n < asked ? (size_t)n : asked);
}

ssize_t write(int fd, const void *bytes, size_t asked) {
    static faults list;
    ssize_t (*real)(int, const void *, size_t) = dlsym(RTLD_NEXT, "write");
    long n = fd == STDOUT_FILENO ? fault(&list, "WRITE_FAULTS", asked) : (long)asked;
    if (n < 0) {
        errno = -n;
        return -1;
    }
    return n == 0 ? 0 : real(fd, bytes, (size_t)n < asked ? (size_t)n : asked);
}
