/* Preloaded into a program (LD_PRELOAD), it lets parts of it fail, or counts what it asks for, by these variables:
   MEMORY=n    the n-th request for memory is refused, from 1 on
   READ=n      the n-th read of standard input fails
   WRITE=n     the n-th write to standard output fails
   ROOM=n      standard output takes n octets and no more
   STEP=n      each read and each write there takes n octets at most
   COUNT=1     at its end the program writes a line to standard error: `room`, how many requests for memory there were,
               their octets, and those of the largest
   It is no part of the product: bin/faults and bin/room build it. It stands on the names that glibc gives its own malloc and realloc. */
#define _GNU_SOURCE
#include <errno.h>
#include <stddef.h>
#include <stdio.h>
#include <stdlib.h>
#include <sys/syscall.h>
#include <unistd.h>

extern void *__libc_malloc(size_t size);
extern void *__libc_realloc(void *old, size_t size);

static long memory, reads, writes, room = -1, step;
static long requests, reads_so_far, writes_so_far;
static long counts;
static size_t asked, asked_octets, asked_most;

static long number(const char *name, long otherwise) {
    const char *text = getenv(name);
    return text ? atol(text) : otherwise;
}

__attribute__((constructor)) static void start(void) {
    memory = number("MEMORY", 0);
    reads = number("READ", 0);
    writes = number("WRITE", 0);
    room = number("ROOM", -1);
    step = number("STEP", 0);
    counts = number("COUNT", 0);
}

__attribute__((destructor)) static void end(void) {
    char line[100];
    if (!counts) return;
    int length = snprintf(line, sizeof line, "room %zu %zu %zu\n", asked, asked_octets, asked_most);
    syscall(SYS_write, STDERR_FILENO, line, (size_t)length);
}

static void note(size_t size) {
    asked++;
    asked_octets += size;
    if (size > asked_most) asked_most = size;
}

static int is_refused(void) { return memory > 0 && ++requests == memory; }

void *malloc(size_t size) {
    note(size);
    return is_refused() ? NULL : __libc_malloc(size);
}

void *realloc(void *old, size_t size) {
    note(size);
    return is_refused() ? NULL : __libc_realloc(old, size);
}

static size_t at_most(size_t count, long most) { return most >= 0 && count > (size_t)most ? (size_t)most : count; }

ssize_t read(int file, void *octets, size_t count) {
    if (file == STDIN_FILENO) {
        if (reads > 0 && ++reads_so_far == reads) {
            errno = EIO;
            return -1;
        }
        if (step > 0) count = at_most(count, step);
    }
    return syscall(SYS_read, file, octets, count);
}

ssize_t write(int file, const void *octets, size_t count) {
    if (file == STDOUT_FILENO) {
        if ((writes > 0 && ++writes_so_far == writes) || room == 0) {
            errno = ENOSPC;
            return -1;
        }
        if (step > 0) count = at_most(count, step);
        count = at_most(count, room);
        if (room > 0) room -= (long)count;
    }
    return syscall(SYS_write, file, octets, count);
}
