/* Loaded before the C library (LD_PRELOAD): system calls that move fewer bytes than asked, or fail.
 *
 *   READ_MOST=N, WRITE_MOST=N    a read or a write moves at most N bytes
 *   FAULT_FILE=NAME              of this file, or of stdin or stdout,
 *   FAULT_AFTER=N                the call after the first N bytes fails, once,
 *   FAULT_ERRNO=N                with this errno
 */
#define _GNU_SOURCE
#include <errno.h>
#include <stdio.h>
#include <stdlib.h>
#include <string.h>
#include <sys/syscall.h>
#include <unistd.h>

/* How many bytes of the faulty file were moved. */
static size_t moved;
static int has_failed;

static size_t number(const char *name, size_t otherwise) {
    const char *text = getenv(name);
    return text ? strtoul(text, NULL, 10) : otherwise;
}

static int is_faulty(int fd) {
    const char *file = getenv("FAULT_FILE");
    if (!file || has_failed) return 0;
    if (fd == STDIN_FILENO || fd == STDOUT_FILENO) return !strcmp(file, fd ? "stdout" : "stdin");
    char link[32], path[4096];
    snprintf(link, sizeof link, "/proc/self/fd/%d", fd);
    ssize_t length = readlink(link, path, sizeof path - 1);
    path[length < 0 ? 0 : length] = 0;
    const char *name = strrchr(path, '/');
    return name && !strcmp(name + 1, file);
}

static ssize_t move(long call, int fd, void *buffer, size_t count, const char *most) {
    size_t few = number(most, count);
    if (few < count) count = few;
    int faulty = is_faulty(fd);
    if (faulty && count > 0) {
        size_t left = number("FAULT_AFTER", 0) - moved;
        if (left == 0) {
            has_failed = 1;
            errno = (int)number("FAULT_ERRNO", EIO);
            return -1;
        }
        if (left < count) count = left;
    }
    ssize_t done = syscall(call, fd, buffer, count);
    if (faulty && done > 0) moved += (size_t)done;
    return done;
}

ssize_t read(int fd, void *buffer, size_t count) {
    return move(SYS_read, fd, buffer, count, "READ_MOST");
}

ssize_t write(int fd, const void *buffer, size_t count) {
    return move(SYS_write, fd, (void *)buffer, count, "WRITE_MOST");
}
