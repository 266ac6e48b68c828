// A library to be loaded before a program. It refuses memory, makes reads and writes fail, and cuts them short, as
// these variables say; without them it changes nothing.
//
// FAULTS_MEMORY, FAULTS_READ, FAULTS_WRITE, FAULTS_ERROR: the number of the first call that fails, from 1, among those
// that ask for memory, read standard input, write standard output and write standard error.
// FAULTS_ONCE: only that call fails; else all that follow it fail too.
// FAULTS_ERRNO: the error of a read or write that fails; 0 for one that answers no byte.
// FAULTS_READ_MOST, FAULTS_WRITE_MOST: how many bytes a read or write takes at most.
// FAULTS_REPORT: a file descriptor that gets a letter for each fault: m, r, w or e.
#define _GNU_SOURCE
#include <dlfcn.h>
#include <errno.h>
#include <stddef.h>
#include <stdint.h>
#include <stdlib.h>
#include <string.h>
#include <sys/syscall.h>
#include <unistd.h>

struct kind {
    long first;
    long calls;
    char letter;
};

static struct kind memory = {0, 0, 'm'};
static struct kind input = {0, 0, 'r'};
static struct kind output = {0, 0, 'w'};
static struct kind errors = {0, 0, 'e'};
static int once;
static int error = EIO;
static size_t read_most = SIZE_MAX;
static size_t write_most = SIZE_MAX;
static int report = -1;

static void *(*real_malloc)(size_t);
static void *(*real_calloc)(size_t, size_t);
static void *(*real_realloc)(void *, size_t);

static long number(const char *name, long otherwise) {
    const char *text = getenv(name);
    return text ? atol(text) : otherwise;
}

static void find_memory(void) {
    if (!real_realloc) {
        real_malloc = (void *(*)(size_t))dlsym(RTLD_NEXT, "malloc");
        real_calloc = (void *(*)(size_t, size_t))dlsym(RTLD_NEXT, "calloc");
        real_realloc = (void *(*)(void *, size_t))dlsym(RTLD_NEXT, "realloc");
    }
}

// Calls count from here on, so that what comes before the program's own start is left alone.
__attribute__((constructor)) static void begin(void) {
    find_memory();
    once = number("FAULTS_ONCE", 0) != 0;
    error = (int)number("FAULTS_ERRNO", EIO);
    read_most = (size_t)number("FAULTS_READ_MOST", -1);
    write_most = (size_t)number("FAULTS_WRITE_MOST", -1);
    report = (int)number("FAULTS_REPORT", -1);
    input.first = number("FAULTS_READ", 0);
    output.first = number("FAULTS_WRITE", 0);
    errors.first = number("FAULTS_ERROR", 0);
    memory.first = number("FAULTS_MEMORY", 0);
}

// Whether this call fails.
static int fails(struct kind *kind) {
    if (kind->first == 0)
        return 0;
    kind->calls++;
    if (kind->calls < kind->first || (once && kind->calls > kind->first))
        return 0;
    if (report >= 0)
        syscall(SYS_write, report, &kind->letter, (size_t)1);
    return 1;
}

static int refused(void) {
    if (!fails(&memory))
        return 0;
    errno = ENOMEM;
    return 1;
}

void *malloc(size_t size) {
    find_memory();
    return refused() ? NULL : real_malloc(size);
}

void *calloc(size_t count, size_t size) {
    find_memory();
    return refused() ? NULL : real_calloc(count, size);
}

void *realloc(void *old, size_t size) {
    find_memory();
    return refused() ? NULL : real_realloc(old, size);
}

static size_t least(size_t a, size_t b) { return a < b ? a : b; }

static ssize_t failure(void) {
    errno = error;
    return error ? -1 : 0;
}

ssize_t read(int file, void *room, size_t size) {
    if (file == STDIN_FILENO) {
        if (fails(&input))
            return failure();
        size = least(size, read_most);
    }
    return syscall(SYS_read, file, room, size);
}

ssize_t write(int file, const void *bytes, size_t size) {
    if (file == STDOUT_FILENO || file == STDERR_FILENO) {
        if (fails(file == STDOUT_FILENO ? &output : &errors))
            return failure();
        size = least(size, write_most);
    }
    return syscall(SYS_write, file, bytes, size);
}
