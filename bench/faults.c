/* Refuses calls of a program that is run with this library before it (LD_PRELOAD).
 *
 * FAULT_CALL   malloc (malloc, calloc and realloc), read or write
 * FAULT_AT     the number of the call, from 1
 * FAULT_HOW    alone: this call is refused
 *              awhile: this call and the four after it are refused
 *              onward: this call and all after it are refused
 *              short: this call moves one byte (read and write)
 * FAULT_MARK   a file that is made once a call was refused or shortened
 * FAULT_AFTER  a line: calls count from when it is written until the next write; without it all count
 */
#define _GNU_SOURCE
#include <errno.h>
#include <fcntl.h>
#include <stdlib.h>
#include <string.h>
#include <sys/syscall.h>
#include <sys/types.h>
#include <unistd.h>

extern void *__libc_malloc(size_t size);
extern void *__libc_calloc(size_t count, size_t size);
extern void *__libc_realloc(void *block, size_t size);

enum answer { AS_IT_IS, REFUSED, SHORTENED };

static const char *call_name, *how, *mark, *after;
static long at, calls;
static int counts;

__attribute__((constructor)) static void begin(void) {
    const char *number = getenv("FAULT_AT");
    how = getenv("FAULT_HOW");
    mark = getenv("FAULT_MARK");
    after = getenv("FAULT_AFTER");
    counts = !after;
    at = number ? atol(number) : 0;
    call_name = at && how && mark ? getenv("FAULT_CALL") : NULL;
}

/* Whether a call after the first that is refused is refused, too. */
static int goes_on(void) {
    return strcmp(how, "onward") == 0 || (strcmp(how, "awhile") == 0 && calls < at + 5);
}

/* Counts a call, and returns whether it is refused or shortened. */
static enum answer count(const char *name) {
    if (!counts || !call_name || strcmp(name, call_name) != 0)
        return AS_IT_IS;
    calls += 1;
    if (calls < at || (calls > at && !goes_on()))
        return AS_IT_IS;
    if (calls == at) {
        long file = syscall(SYS_openat, AT_FDCWD, mark, O_CREAT | O_WRONLY, 0600);
        syscall(SYS_close, file);
    }
    return strcmp(how, "short") == 0 ? SHORTENED : REFUSED;
}

void *malloc(size_t size) {
    if (count("malloc") == AS_IT_IS)
        return __libc_malloc(size);
    errno = ENOMEM;
    return NULL;
}

void *calloc(size_t number, size_t size) {
    if (count("malloc") == AS_IT_IS)
        return __libc_calloc(number, size);
    errno = ENOMEM;
    return NULL;
}

void *realloc(void *block, size_t size) {
    if (count("malloc") == AS_IT_IS)
        return __libc_realloc(block, size);
    errno = ENOMEM;
    return NULL;
}

/* How many bytes a read or a write may move, or -1 where it is refused. */
static ssize_t moved(const char *name, size_t length) {
    switch (count(name)) {
    case REFUSED:
        errno = EIO;
        return -1;
    case SHORTENED:
        return length > 0 ? 1 : 0;
    default:
        return (ssize_t)length;
    }
}

ssize_t read(int file, void *bytes, size_t length) {
    ssize_t most = moved("read", length);
    return most < 0 ? -1 : syscall(SYS_read, file, bytes, (size_t)most);
}

/* Whether bytes are the line after which calls count. */
static int is_line(const char *bytes, size_t length) {
    return length == strlen(after) + 1 && memcmp(bytes, after, length - 1) == 0 && bytes[length - 1] == '\n';
}

ssize_t write(int file, const void *bytes, size_t length) {
    ssize_t most = moved("write", length);
    if (after)
        counts = is_line(bytes, length);
    return most < 0 ? -1 : syscall(SYS_write, file, bytes, (size_t)most);
}

/* The name by which some objects call it. */
ssize_t __write(int file, const void *bytes, size_t length) {
    return write(file, bytes, length);
}
