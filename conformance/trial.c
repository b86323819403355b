/* Loaded before a program: holds it where its own code begins, and runs a copy of it for each trial
 * that is asked for. A trial refuses the copy some of its allocations, or has a read or a write of
 * it be short or fail.
 *
 * TRIAL_DESCRIPTORS has five numbers with spaces between: of a pipe from which struct trial is
 * read, of one to which struct answer is written for each, and of the files of a copy's standard
 * input, output and error. Of the first two `read` and `write` move the bytes in memory, without a
 * call of the system for each: a copy that moves single bytes makes thousands. What it reads or
 * writes by other calls it does to the files. It begins at the start of the first two, writes over
 * what another copy wrote, and the file of its standard error is empty when it begins. */

#define _GNU_SOURCE
#include <dlfcn.h>
#include <errno.h>
#include <stdio.h>
#include <stdlib.h>
#include <string.h>
#include <sys/mman.h>
#include <sys/resource.h>
#include <sys/syscall.h>
#include <sys/wait.h>
#include <unistd.h>

/* Allocations, reads, and writes to standard output are counted from 1 on. The number 0 names none
   of them, and a greatest number of bytes of 0 is no limit. */
struct trial {
    long refused_from;
    long refused_to;
    long max_read;
    /* How many bytes of the input a read may bring up to, and only a later one may go on from. */
    long read_cut;
    long failing_read;
    long max_write;
    long failing_write;
    /* The error of a read or a write that fails; where it is 0 such a call moves no byte. */
    long error;
};

struct counts {
    long allocations;
    /* Of these, how many were refused. */
    long refusals;
    long reads;
    long writes;
    /* Bytes of standard output. */
    long written;
};

struct answer {
    /* As wait4 gives it. */
    long status;
    struct counts counts;
    /* The processor time that the copy took, in microseconds. */
    long time;
};

enum { SECONDS = 60, MAX_INPUT = 1 << 30, MAX_OUTPUT = 1 << 26 };

static struct trial trial;
static struct counts *counts;
static const char *input;
static long input_size;
static long bytes_read;
static char *output;

static void stop(const char *message)
{
    perror(message);
    _exit(127);
}

/* Gives a copy its standard streams. */
static void begin(const int *files)
{
    for (int stream = 0; stream < 3; stream++)
        if (dup2(files[stream], stream) < 0)
            stop("dup2");
    alarm(SECONDS);
}

static long moved(int file, int whence)
{
    long place = lseek(file, 0, whence);
    if (place < 0)
        stop("lseek");
    return place;
}

static void empty(int file)
{
    if (ftruncate(file, 0) < 0 || lseek(file, 0, SEEK_SET) < 0)
        stop("ftruncate");
}

static long microseconds(struct timeval time)
{
    return time.tv_sec * 1000000L + time.tv_usec;
}

/* Returns in each copy, and in no other process. */
static void serve(int requests, int answers, const int *files)
{
    while (syscall(SYS_read, requests, &trial, sizeof trial) == sizeof trial) {
        memset(counts, 0, sizeof *counts);
        input_size = moved(files[0], SEEK_END);
        moved(files[0], SEEK_SET);
        moved(files[1], SEEK_SET);
        empty(files[2]);
        pid_t copy = fork();
        if (copy < 0)
            stop("fork");
        if (copy == 0) {
            begin(files);
            return;
        }
        int status;
        struct rusage usage;
        if (wait4(copy, &status, 0, &usage) < 0)
            stop("wait4");
        /* What was written by other calls is seen too. */
        long behind = moved(files[1], SEEK_CUR);
        if (counts->written < behind)
            counts->written = behind;
        struct answer answer = {status, *counts,
                                microseconds(usage.ru_utime) + microseconds(usage.ru_stime)};
        if (syscall(SYS_write, answers, &answer, sizeof answer) != sizeof answer)
            stop("write");
    }
    _exit(0);
}

static void *mapped(size_t size, int protection, int flags, int file)
{
    void *memory = mmap(NULL, size, protection, MAP_SHARED | flags, file, 0);
    if (memory == MAP_FAILED)
        stop("mmap");
    return memory;
}

__attribute__((constructor)) static void hold(void)
{
    const char *descriptors = getenv("TRIAL_DESCRIPTORS");
    int requests, answers, files[3];
    if (!descriptors || sscanf(descriptors, "%d %d %d %d %d", &requests, &answers, &files[0],
                               &files[1], &files[2]) != 5)
        return;
    struct counts *shared = mapped(sizeof *counts, PROT_READ | PROT_WRITE, MAP_ANONYMOUS, -1);
    input = mapped(MAX_INPUT, PROT_READ, 0, files[0]);
    if (ftruncate(files[1], MAX_OUTPUT) < 0)
        stop("ftruncate");
    output = mapped(MAX_OUTPUT, PROT_READ | PROT_WRITE, 0, files[1]);
    unsetenv("LD_PRELOAD");
    unsetenv("TRIAL_DESCRIPTORS");
    counts = shared;
    serve(requests, answers, files);
}

/* Allocations that were made before the program's own code began are not counted. */
static int is_refused(void)
{
    if (!counts)
        return 0;
    long number = ++counts->allocations;
    int refused = trial.refused_from <= number && number <= trial.refused_to;
    counts->refusals += refused;
    return refused;
}

static void *next(const char *name)
{
    return dlsym(RTLD_NEXT, name);
}

static void *no_memory(void)
{
    errno = ENOMEM;
    return NULL;
}

void *malloc(size_t size)
{
    static void *(*allocate)(size_t);
    if (!allocate)
        allocate = (void *(*)(size_t))next("malloc");
    return is_refused() ? no_memory() : allocate(size);
}

void *calloc(size_t items, size_t size)
{
    static void *(*allocate)(size_t, size_t);
    if (!allocate)
        allocate = (void *(*)(size_t, size_t))next("calloc");
    return is_refused() ? no_memory() : allocate(items, size);
}

void *realloc(void *block, size_t size)
{
    static void *(*allocate)(void *, size_t);
    if (!allocate)
        allocate = (void *(*)(void *, size_t))next("realloc");
    return is_refused() ? no_memory() : allocate(block, size);
}

void *aligned_alloc(size_t alignment, size_t size)
{
    static void *(*allocate)(size_t, size_t);
    if (!allocate)
        allocate = (void *(*)(size_t, size_t))next("aligned_alloc");
    return is_refused() ? no_memory() : allocate(alignment, size);
}

int posix_memalign(void **block, size_t alignment, size_t size)
{
    static int (*allocate)(void **, size_t, size_t);
    if (!allocate)
        allocate = (int (*)(void **, size_t, size_t))next("posix_memalign");
    return is_refused() ? ENOMEM : allocate(block, alignment, size);
}

static size_t least(size_t size, long maximum)
{
    return maximum > 0 && (size_t)maximum < size ? (size_t)maximum : size;
}

static size_t at_most(size_t size, long room)
{
    return room < 0 ? 0 : (size_t)room < size ? (size_t)room : size;
}

static ssize_t failed(void)
{
    errno = (int)trial.error;
    return trial.error ? -1 : 0;
}

/* A read of standard input. */
static ssize_t take(char *bytes, size_t size)
{
    if (bytes_read < trial.read_cut)
        size = least(size, trial.read_cut - bytes_read);
    size = at_most(size, input_size - bytes_read);
    memcpy(bytes, input + bytes_read, size);
    bytes_read += size;
    return size;
}

/* A write to standard output. */
static ssize_t put(const char *bytes, size_t size)
{
    size = at_most(size, MAX_OUTPUT - counts->written);
    memcpy(output + counts->written, bytes, size);
    counts->written += size;
    return size;
}

ssize_t read(int file, void *bytes, size_t size)
{
    if (!counts)
        return syscall(SYS_read, file, bytes, size);
    if (++counts->reads == trial.failing_read)
        return failed();
    size = least(size, trial.max_read);
    return file == STDIN_FILENO ? take(bytes, size) : syscall(SYS_read, file, bytes, size);
}

ssize_t write(int file, const void *bytes, size_t size)
{
    if (!counts || file != STDOUT_FILENO)
        return syscall(SYS_write, file, bytes, size);
    if (++counts->writes == trial.failing_write)
        return failed();
    return put(bytes, least(size, trial.max_write));
}
