/* Stands before the C library (LD_PRELOAD): of the calls of one kind, FAIL, the one of the number FAIL_AT fails, or gives or takes
 * one byte alone. The kinds: memory (malloc and realloc), open, read, write, short-read, short-write. With TELL it says at the
 * end on standard error how many calls of each kind there were. */
#define _GNU_SOURCE
#include <dlfcn.h>
#include <errno.h>
#include <fcntl.h>
#include <stdarg.h>
#include <stdio.h>
#include <stdlib.h>
#include <string.h>
#include <unistd.h>

enum kind { MEMORY, OPEN, READ, WRITE, KINDS };

static const char *const names[KINDS] = {"memory", "open", "read", "write"};
static long calls[KINDS];

static int is_meant(const char *name, long number) {
    const char *kind = getenv("FAIL"), *at = getenv("FAIL_AT");
    return kind && at && !strcmp(kind, name) && atol(at) == number;
}

static long counted(enum kind kind) {
    return __atomic_add_fetch(&calls[kind], 1, __ATOMIC_SEQ_CST);
}

void *malloc(size_t size) {
    static void *(*real)(size_t);
    if (!real) real = (void *(*)(size_t))dlsym(RTLD_NEXT, "malloc");
    return is_meant("memory", counted(MEMORY)) ? NULL : real(size);
}

void *realloc(void *old, size_t size) {
    static void *(*real)(void *, size_t);
    if (!real) real = (void *(*)(void *, size_t))dlsym(RTLD_NEXT, "realloc");
    return is_meant("memory", counted(MEMORY)) ? NULL : real(old, size);
}

int open(const char *path, int flags, ...) {
    static int (*real)(const char *, int, ...);
    va_list rest;
    va_start(rest, flags);
    mode_t mode = flags & O_CREAT ? va_arg(rest, mode_t) : 0;
    va_end(rest);
    if (!real) real = (int (*)(const char *, int, ...))dlsym(RTLD_NEXT, "open");
    if (!(flags & O_CREAT)) return real(path, flags);
    if (is_meant("open", counted(OPEN))) return errno = EACCES, -1;
    return real(path, flags, mode);
}

ssize_t read(int file, void *bytes, size_t size) {
    static ssize_t (*real)(int, void *, size_t);
    if (!real) real = (ssize_t (*)(int, void *, size_t))dlsym(RTLD_NEXT, "read");
    long number = counted(READ);
    if (is_meant("read", number)) return errno = EIO, -1;
    return real(file, bytes, size && is_meant("short-read", number) ? 1 : size);
}

ssize_t write(int file, const void *bytes, size_t size) {
    static ssize_t (*real)(int, const void *, size_t);
    if (!real) real = (ssize_t (*)(int, const void *, size_t))dlsym(RTLD_NEXT, "write");
    long number = counted(WRITE);
    if (is_meant("write", number)) return errno = EIO, -1;
    return real(file, bytes, size && is_meant("short-write", number) ? 1 : size);
}

__attribute__((destructor)) static void tell(void) {
    for (int kind = 0; getenv("TELL") && kind < KINDS; kind++) fprintf(stderr, "%s %ld\n", names[kind], calls[kind]);
}

/* A program that ends by this call runs no destructors. */
void _exit(int status) {
    void (*real)(int) = (void (*)(int))dlsym(RTLD_NEXT, "_exit");
    tell();
    real(status);
    __builtin_unreachable();
}
