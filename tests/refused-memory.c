/* Refuses memory to a program, and lets its reads and writes fail, for the tests beside this file.

   REFUSE_AT=N     the N-th request to malloc or realloc is refused
   REFUSE_ALL=1    so is each after it
   WRITE_ROOM=N    writes take N bytes in all, and then fail
   WRITE_NONE=1    they take none then, and don't fail
   READ_FAILS=N    the N-th read fails
   SMALL_STEPS=1   a read or a write moves one byte

   At its end the program says on standard error how many requests it made and how many were refused. */
#define _GNU_SOURCE
#include <dlfcn.h>
#include <errno.h>
#include <stdio.h>
#include <stdlib.h>
#include <unistd.h>

static long refuse_at, write_room = -1, read_fails, requests, refusals, reads;
static int refuse_all, write_none, small_steps;

static long number(const char *name, long otherwise) {
    const char *word = getenv(name);
    return word ? atol(word) : otherwise;
}

__attribute__((constructor)) static void begin(void) {
    refuse_all = number("REFUSE_ALL", 0) != 0;
    write_room = number("WRITE_ROOM", -1);
    write_none = number("WRITE_NONE", 0) != 0;
    read_fails = number("READ_FAILS", 0);
    small_steps = number("SMALL_STEPS", 0) != 0;
    refuse_at = number("REFUSE_AT", 0);
    requests = 0;
}

static int is_refused(void) {
    requests++;
    if (refuse_at == 0 || requests < refuse_at || (requests > refuse_at && !refuse_all)) return 0;
    refusals++;
    errno = ENOMEM;
    return 1;
}

void *malloc(size_t size) {
    static void *(*real)(size_t);
    if (!real) real = dlsym(RTLD_NEXT, "malloc");
    return is_refused() ? NULL : real(size);
}

void *realloc(void *old, size_t size) {
    static void *(*real)(void *, size_t);
    if (!real) real = dlsym(RTLD_NEXT, "realloc");
    return is_refused() ? NULL : real(old, size);
}

ssize_t read(int file, void *bytes, size_t count) {
    static ssize_t (*real)(int, void *, size_t);
    if (!real) real = dlsym(RTLD_NEXT, "read");
    if (++reads == read_fails) {
        errno = EIO;
        return -1;
    }
    return real(file, bytes, small_steps && count > 1 ? 1 : count);
}

ssize_t write(int file, const void *bytes, size_t count) {
    static ssize_t (*real)(int, const void *, size_t);
    ssize_t taken;
    if (!real) real = dlsym(RTLD_NEXT, "write");
    if (small_steps && count > 1) count = 1;
    if (write_room < 0) return real(file, bytes, count);
    if (write_room == 0 && count > 0) {
        errno = ENOSPC;
        return write_none ? 0 : -1;
    }
    if ((long)count > write_room) count = write_room;
    taken = real(file, bytes, count);
    if (taken > 0) write_room -= taken;
    return taken;
}

__attribute__((destructor)) static void end(void) {
    dprintf(2, "%ld requests, %ld refused\n", requests, refusals);
}
