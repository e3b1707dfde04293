/* Laid before the C library (LD_PRELOAD): from the first byte that goes to standard output on there is no memory, or from the beginning on
   where NO_MEMORY_AT_ALL is set. At the end a line goes to the file that NO_MEMORY_LOG names: how often memory was given, how often it was
   refused, and how often bytes were written to standard output. */
#include <errno.h>
#include <fcntl.h>
#include <stddef.h>
#include <stdio.h>
#include <stdlib.h>
#include <sys/types.h>
#include <unistd.h>

extern void *__libc_malloc(size_t size);
extern void *__libc_realloc(void *old, size_t size);
extern ssize_t __write(int file, const void *bytes, size_t count);

static long given, refused, writes;

static int is_refused(void) {
    if (writes == 0 && !getenv("NO_MEMORY_AT_ALL")) {
        given++;
        return 0;
    }
    refused++;
    errno = ENOMEM;
    return 1;
}

void *malloc(size_t size) {
    return is_refused() ? NULL : __libc_malloc(size);
}

void *realloc(void *old, size_t size) {
    return is_refused() ? NULL : __libc_realloc(old, size);
}

ssize_t write(int file, const void *bytes, size_t count) {
    if (file == STDOUT_FILENO)
        writes++;
    return __write(file, bytes, count);
}

__attribute__((destructor)) static void tell(void) {
    char line[96];
    const char *log = getenv("NO_MEMORY_LOG");
    int file = log ? open(log, O_WRONLY | O_APPEND) : -1;
    if (file < 0)
        return;
    __write(file, line, (size_t)snprintf(line, sizeof line, "%ld %ld %ld\n", given, refused, writes));
    close(file);
}
