/* Loaded before a program: its reads and writes move little, or fail, and each is reported.
 *
 * INPUT, OUTPUT and FILES are for the reads of standard input, the writes to standard output and the reads of other files,
 * each three numbers 'MOST FAILS ALL': a call moves MOST bytes at most, the one with the number FAILS, counted from 1, fails,
 * and after ALL bytes each moves none. A number below 0 sets no limit.
 * CALLS=FILE has a line written to the file for each such call: INPUT, OUTPUT or FILES, and what it answered.
 * OPENED=FILE has a line written to the file for each path, relative to the current folder, that is tried to be opened.
 */
#define _GNU_SOURCE
#include <dlfcn.h>
#include <errno.h>
#include <fcntl.h>
#include <stdarg.h>
#include <stdio.h>
#include <stdlib.h>
#include <string.h>
#include <unistd.h>

struct stream {
    const char *name;
    long most, fails, all, calls;
};

static struct stream input = {"INPUT", -1, -1, -1, 0};
static struct stream output = {"OUTPUT", -1, -1, -1, 0};
static struct stream files = {"FILES", -1, -1, -1, 0};
static int log_file = -1, opened_file = -1;
static int (*real_open)(const char *, int, ...);
static int (*real_openat)(int, const char *, int, ...);
static ssize_t (*real_read)(int, void *, size_t);
static ssize_t (*real_write)(int, const void *, size_t);

static void set(struct stream *stream)
{
    const char *numbers = getenv(stream->name);
    if (numbers && sscanf(numbers, "%ld %ld %ld", &stream->most, &stream->fails, &stream->all) != 3)
        _exit(99);
}

__attribute__((constructor)) static void begin(void)
{
    const char *file = getenv("CALLS"), *opened = getenv("OPENED");
    real_open = dlsym(RTLD_NEXT, "open");
    real_openat = dlsym(RTLD_NEXT, "openat");
    real_read = dlsym(RTLD_NEXT, "read");
    real_write = dlsym(RTLD_NEXT, "write");
    set(&input);
    set(&output);
    set(&files);
    if (file)
        log_file = real_open(file, O_WRONLY | O_CREAT | O_TRUNC | O_CLOEXEC, 0600);
    if (opened)
        opened_file = real_open(opened, O_WRONLY | O_CREAT | O_TRUNC | O_CLOEXEC, 0600);
}

/* Tells a path that is tried to be opened, unless it is absolute, as those that the C library opens for itself. */
static void tell_opened(const char *path)
{
    if (opened_file < 0 || path[0] == '/')
        return;
    size_t length = strlen(path);
    if (real_write(opened_file, path, length) != (ssize_t)length || real_write(opened_file, "\n", 1) != 1)
        _exit(99);
}

int open(const char *path, int flags, ...)
{
    va_list rest;
    va_start(rest, flags);
    mode_t mode = flags & O_CREAT ? va_arg(rest, mode_t) : 0;
    va_end(rest);
    tell_opened(path);
    return real_open(path, flags, mode);
}

int openat(int folder, const char *path, int flags, ...)
{
    va_list rest;
    va_start(rest, flags);
    mode_t mode = flags & O_CREAT ? va_arg(rest, mode_t) : 0;
    va_end(rest);
    tell_opened(path);
    return real_openat(folder, path, flags, mode);
}

int open64(const char *path, int flags, ...) __attribute__((alias("open")));
int openat64(int folder, const char *path, int flags, ...) __attribute__((alias("openat")));

/* How many of so many bytes a call may move, or -1 where it fails. */
static ssize_t allowed(struct stream *stream, size_t size)
{
    stream->calls += 1;
    if (stream->calls == stream->fails) {
        errno = EIO;
        return -1;
    }
    if (stream->most >= 0 && size > (size_t)stream->most)
        size = stream->most;
    if (stream->all >= 0 && size > (size_t)stream->all)
        size = stream->all;
    return size;
}

/* Tells a call, and answers as it did. */
static ssize_t told(struct stream *stream, ssize_t answer)
{
    int error = errno;
    char line[48];
    int length = snprintf(line, sizeof line, "%s %zd\n", stream->name, answer);
    if (stream->all >= 0 && answer > 0)
        stream->all -= answer;
    if (log_file >= 0 && real_write(log_file, line, length) != length)
        _exit(99);
    errno = error;
    return answer;
}

ssize_t read(int file, void *bytes, size_t size)
{
    struct stream *stream = file == 0 ? &input : &files;
    ssize_t most = allowed(stream, size);
    return told(stream, most < 0 ? -1 : real_read(file, bytes, most));
}

ssize_t write(int file, const void *bytes, size_t size)
{
    if (file != 1)
        return real_write(file, bytes, size);
    ssize_t most = allowed(&output, size);
    return told(&output, most <= 0 ? most : real_write(file, bytes, most));
}
