/* Stands before malloc and its kin (LD_PRELOAD) and refuses requests for memory.
 *
 * Over a whole run: the request with the number REFUSE_ALONE, or each from the number REFUSE_FROM on, counted from 1. The count of
 * requests is kept in the file REFUSE_COUNT, if it is named, as a number of eight bytes: a program that ends by _exit runs nothing
 * at its end.
 *
 * Over a part of a run: a line `refuse N` on standard output begins a window, in which the Nth request alone is refused, counted
 * from 1 there, and a line `refuse all` one in which each is. A line `ample` ends it, and then the library prints on standard error
 * how many requests were made in it, and how many of them were refused. */
#define _GNU_SOURCE
#include <dlfcn.h>
#include <errno.h>
#include <fcntl.h>
#include <stddef.h>
#include <stdio.h>
#include <stdlib.h>
#include <string.h>
#include <sys/mman.h>
#include <unistd.h>

/* What the window refuses that is open. */
enum refusing { NONE, ALONE, ALL };

static unsigned long own_count, *count = &own_count, alone, from;

static enum refusing window;
static unsigned long window_alone, made, refused;

#define NEXT(name) ((__typeof__(&name))dlsym(RTLD_NEXT, #name))

static unsigned long number_in(const char *name)
{
    const char *text = getenv(name);

    return text ? strtoul(text, NULL, 10) : 0;
}

static void count_in(const char *path)
{
    int file = open(path, O_RDWR | O_CREAT | O_TRUNC, 0600);
    void *shared;

    if (file < 0 || ftruncate(file, sizeof *count) < 0)
        _exit(99);
    shared = mmap(NULL, sizeof *count, PROT_READ | PROT_WRITE, MAP_SHARED, file, 0);
    if (shared == MAP_FAILED)
        _exit(99);
    count = shared;
    close(file);
}

__attribute__((constructor)) static void start(void)
{
    const char *path = getenv("REFUSE_COUNT");

    alone = number_in("REFUSE_ALONE");
    from = number_in("REFUSE_FROM");
    if (path)
        count_in(path);
    *count = 0;
}

/* Whether the open window refuses this request. */
static int is_refused_in_window(void)
{
    unsigned long number;

    if (window == NONE)
        return 0;
    number = __atomic_add_fetch(&made, 1, __ATOMIC_SEQ_CST);
    if (window == ALONE && number != window_alone)
        return 0;
    __atomic_add_fetch(&refused, 1, __ATOMIC_SEQ_CST);
    return 1;
}

/* The requests of several threads are counted together. */
static int is_refused(void)
{
    unsigned long number = __atomic_add_fetch(count, 1, __ATOMIC_SEQ_CST);
    int in_window = is_refused_in_window();

    return in_window || number == alone || (from && number >= from);
}

void *malloc(size_t size)
{
    static void *(*next)(size_t);

    if (!next)
        next = NEXT(malloc);
    return is_refused() ? (errno = ENOMEM, NULL) : next(size);
}

void *realloc(void *old, size_t size)
{
    static void *(*next)(void *, size_t);

    if (!next)
        next = NEXT(realloc);
    return is_refused() ? (errno = ENOMEM, NULL) : next(old, size);
}

void *calloc(size_t items, size_t size)
{
    static void *(*next)(size_t, size_t);

    if (!next)
        next = NEXT(calloc);
    return is_refused() ? (errno = ENOMEM, NULL) : next(items, size);
}

void *aligned_alloc(size_t alignment, size_t size)
{
    static void *(*next)(size_t, size_t);

    if (!next)
        next = NEXT(aligned_alloc);
    return is_refused() ? (errno = ENOMEM, NULL) : next(alignment, size);
}

int posix_memalign(void **place, size_t alignment, size_t size)
{
    static int (*next)(void **, size_t, size_t);

    if (!next)
        next = NEXT(posix_memalign);
    return is_refused() ? ENOMEM : next(place, alignment, size);
}

static ssize_t write_on(int file, const void *bytes, size_t size)
{
    static ssize_t (*next)(int, const void *, size_t);

    if (!next)
        next = NEXT(write);
    return next(file, bytes, size);
}

static void begin_window(enum refusing which, unsigned long number)
{
    made = refused = 0;
    window_alone = number;
    window = which;
}

static void end_window(void)
{
    char told[64];

    window = NONE;
    write_on(STDERR_FILENO, told, snprintf(told, sizeof told, "%lu made, %lu refused\n", made, refused));
}

/* Heeds a whole line that the program wrote. */
static void heed(const char *line)
{
    unsigned long number;
    int end = 0;

    if (strcmp(line, "ample") == 0)
        end_window();
    else if (strcmp(line, "refuse all") == 0)
        begin_window(ALL, 0);
    else if (sscanf(line, "refuse %lu%n", &number, &end) == 1 && line[end] == '\0')
        begin_window(ALONE, number);
}

/* Puts what was written together to lines. A line that is too long for a command is none. */
static void watch(const char *bytes, size_t size)
{
    static char line[32];
    static size_t length;

    for (size_t i = 0; i < size; i++) {
        if (bytes[i] == '\n') {
            line[length < sizeof line ? length : 0] = '\0';
            length = 0;
            heed(line);
        } else if (length < sizeof line) {
            line[length++] = bytes[i];
        }
    }
}

ssize_t write(int file, const void *bytes, size_t size)
{
    ssize_t written = write_on(file, bytes, size);

    if (file == STDOUT_FILENO && written > 0)
        watch(bytes, written);
    return written;
}

ssize_t __write(int file, const void *bytes, size_t size)
{
    return write(file, bytes, size);
}
