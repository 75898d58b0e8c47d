/* Loaded before a program: counts the growths of its heap, refuses some of them, and reports how far it counted. A block that
 * is made no larger is no growth.
 *
 * REFUSE_AT=N refuses the N-th growth, counted from 1, and no other; a signal USR1 refuses all from then on.
 * GROWTHS=FILE has the count so far written to the file, a line for each write to standard output, and one at the end.
 *
 * With REFUSE_BY_LINES=1 the program says what is refused by lines that it writes to standard output: from `refuse one`
 * on growths are counted anew, and the N-th is refused; from `refuse all` on all are; from `refuse none` on none. The file
 * then has a line for each `refuse none` after another such line: `one` or `all`, how many growths there were between
 * them, and how many of these were refused.
 */
#define _GNU_SOURCE
#include <dlfcn.h>
#include <fcntl.h>
#include <malloc.h>
#include <signal.h>
#include <stdio.h>
#include <stdlib.h>
#include <string.h>
#include <unistd.h>

extern void *__libc_malloc(size_t size);
extern void *__libc_realloc(void *block, size_t size);

static long refused_one = -1;
static long count = 0;
static long refused = 0;
static volatile sig_atomic_t refuses_all = 0;
static int by_lines = 0;
/* By lines: what is refused now. */
static const char *mode = NULL;
static int log_file = -1;
static ssize_t (*real_write)(int, const void *, size_t);

static void refuse_all(int signal)
{
    (void)signal;
    refuses_all = 1;
}

__attribute__((constructor)) static void begin(void)
{
    const char *at = getenv("REFUSE_AT");
    const char *file = getenv("GROWTHS");
    real_write = dlsym(RTLD_NEXT, "write");
    if (file)
        log_file = open(file, O_WRONLY | O_CREAT | O_TRUNC | O_CLOEXEC, 0600);
    if (at)
        refused_one = atol(at);
    by_lines = getenv("REFUSE_BY_LINES") != NULL;
    signal(SIGUSR1, refuse_all);
    count = 0;
}

static int is_refused(void)
{
    if (by_lines && !mode)
        return 0;
    count += 1;
    int now = refuses_all || count == refused_one;
    refused += now;
    return now;
}

void *malloc(size_t size)
{
    return is_refused() ? NULL : __libc_malloc(size);
}

void *realloc(void *block, size_t size)
{
    int grows = size > malloc_usable_size(block);
    return grows && is_refused() ? NULL : __libc_realloc(block, size);
}

static void put(const char *line, int length)
{
    if (log_file >= 0 && real_write(log_file, line, length) < 0)
        _exit(99);
}

static void tell(void)
{
    char line[32];
    put(line, snprintf(line, sizeof line, "%ld\n", count));
}

static int is_line(const char *line, const void *bytes, size_t size)
{
    return size == strlen(line) && memcmp(line, bytes, size) == 0;
}

/* Another mode, if this is a line that asks for one. */
static void listen(const void *bytes, size_t size)
{
    int one = is_line("refuse one\n", bytes, size), all = is_line("refuse all\n", bytes, size);
    if (!one && !all && !is_line("refuse none\n", bytes, size))
        return;
    if (mode) {
        char line[64];
        put(line, snprintf(line, sizeof line, "%s %ld %ld\n", mode, count, refused));
    }
    mode = one ? "one" : all ? "all" : NULL;
    refuses_all = all;
    count = refused = 0;
}

ssize_t write(int file, const void *bytes, size_t size)
{
    if (file == 1 && by_lines)
        listen(bytes, size);
    else if (file == 1)
        tell();
    return real_write(file, bytes, size);
}

__attribute__((destructor)) static void end(void)
{
    if (!by_lines)
        tell();
}
