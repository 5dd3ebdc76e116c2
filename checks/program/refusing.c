/* Stands before the C library, for refusing.py. Allocations are counted from the start, or from SIGUSR1 on where ON_SIGNAL
   is set; the count is kept in the file COUNTED. REFUSED is the number of the one that is refused in the run itself. FORKED
   has the first, the last and the step of those that are refused in children, the descriptors to tell an end by and to
   wait at, and the files that a child may change. */
#define _GNU_SOURCE
#include <errno.h>
#include <fcntl.h>
#include <limits.h>
#include <signal.h>
#include <stdio.h>
#include <stdlib.h>
#include <string.h>
#include <sys/mman.h>
#include <sys/wait.h>
#include <unistd.h>

extern void *__libc_malloc(size_t), *__libc_calloc(size_t, size_t), *__libc_realloc(void *, size_t),
    *__libc_memalign(size_t, size_t), __libc_free(void *);

enum { FILES = 2, MOST = 1 << 22, OPEN = 32, SECONDS = 60 };

static volatile long *counted, refused_at;
static volatile sig_atomic_t counts;
static long first, last, step;
static int told, asked;
static off_t offsets[OPEN];
static int is_forked;
static struct { char path[PATH_MAX], again[PATH_MAX], *bytes; ssize_t size; } kept[FILES];

static void begin(int number) { counts = 1; }

__attribute__((constructor)) static void prepare(void)
{
    int file = open(getenv("COUNTED"), O_RDWR);
    counted = mmap(0, sizeof *counted, PROT_READ | PROT_WRITE, MAP_SHARED, file, 0);
    close(file);
    refused_at = atol(getenv("REFUSED"));
    char *forked = getenv("FORKED");
    if (forked && sscanf(forked, "%ld %ld %ld %d %d %4000s %4000s",
                         &first, &last, &step, &told, &asked, kept[0].path, kept[1].path) != 7)
        abort();
    for (int at = 0; at < FILES; at++) {
        sprintf(kept[at].again, "%.4000s.kept", kept[at].path);
        kept[at].bytes = mmap(0, MOST, PROT_READ | PROT_WRITE, MAP_SHARED | MAP_ANONYMOUS, -1, 0);
    }
    struct sigaction on_signal = { .sa_handler = begin, .sa_flags = SA_RESTART };
    sigaction(SIGUSR1, &on_signal, 0);
    counts = !getenv("ON_SIGNAL");
}

/* Another name for each file, so that it is the same one still where a child removes it. */
static void keep(void)
{
    for (int at = 0; at < FILES; at++) {
        int file = open(kept[at].path, O_RDONLY);
        kept[at].size = file < 0 ? -1 : pread(file, kept[at].bytes, MOST, 0);
        close(file);
        if (kept[at].size == MOST || (file >= 0 && link(kept[at].path, kept[at].again)))
            abort();
    }
    for (int file = 0; file < OPEN; file++)
        offsets[file] = lseek(file, 0, SEEK_CUR);
}

static void put_back(void)
{
    for (int at = 0; at < FILES; at++) {
        if (kept[at].size < 0) {
            unlink(kept[at].path);
            continue;
        }
        rename(kept[at].again, kept[at].path);
        unlink(kept[at].again);
        int file = open(kept[at].path, O_WRONLY);
        if (pwrite(file, kept[at].bytes, kept[at].size, 0) != kept[at].size || ftruncate(file, kept[at].size))
            abort();
        close(file);
    }
    for (int file = 0; file < OPEN; file++)
        if (offsets[file] >= 0)
            lseek(file, offsets[file], SEEK_SET);
    for (int file = 1; file <= 2; file++)
        if (offsets[file] >= 0 && ftruncate(file, offsets[file]))
            abort();
}

/* Whether this is the child, which is refused the allocation of this number. */
static int is_child(long number)
{
    keep();
    pid_t child = fork();
    if (!child) {
        counts = 0;
        is_forked = 1;
        alarm(SECONDS);
        return 1;
    }
    int end[2] = { number, 0 };
    char go;
    if (waitpid(child, &end[1], 0) != child || write(told, end, sizeof end) != sizeof end || read(asked, &go, 1) != 1)
        abort();
    put_back();
    return 0;
}

static int is_refused(void)
{
    if (!counts)
        return 0;
    long number = ++*counted;
    int is_one = first <= number && number <= last && (number - first) % step == 0;
    if (step && is_one ? !is_child(number) : number != refused_at)
        return 0;
    errno = ENOMEM;
    return 1;
}

/* A child ends soon: what it would free is left, since each page that it writes to is copied first. */
void free(void *block)
{
    if (!is_forked)
        __libc_free(block);
}
void *malloc(size_t size) { return is_refused() ? 0 : __libc_malloc(size); }
void *calloc(size_t count, size_t size) { return is_refused() ? 0 : __libc_calloc(count, size); }
void *realloc(void *block, size_t size) { return is_refused() ? 0 : __libc_realloc(block, size); }
void *aligned_alloc(size_t by, size_t size) { return is_refused() ? 0 : __libc_memalign(by, size); }
void *memalign(size_t by, size_t size) { return is_refused() ? 0 : __libc_memalign(by, size); }
/* The salt of a log is no other in the next run, so that equal ends leave equal bytes. */
int getentropy(void *bytes, size_t size) { memset(bytes, 7, size); return 0; }
int posix_memalign(void **block, size_t by, size_t size)
{
    if (is_refused())
        return ENOMEM;
    return (*block = __libc_memalign(by, size)) ? 0 : ENOMEM;
}
