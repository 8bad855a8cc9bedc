/* A library for LD_PRELOAD, of Linux with the GNU C library. It refuses one of a program's requests to the system, or hands on
   fewer bytes than were asked for, and counts the requests. The environment says which:

     REFUSE_KIND    memory, read, write or thread: the kind of the requests that are refused; reads are those of standard
                    input, writes those of standard output
     REFUSE_AT      the number of the request that is refused, from 1 on
     REFUSE_LATER   where it is set, all later requests of the kind are refused too
     REFUSE_PIECE   how many bytes a read or a write moves at most
     REFUSE_COUNTS  a file of 40 bytes, for five numbers of 64 bits: the requests of each kind, and how many were refused

   What the loader asks for before the program begins isn't counted. The counts stand in the file at once, so that they are
   there however the program ends. */
#define _GNU_SOURCE
#include <dlfcn.h>
#include <errno.h>
#include <fcntl.h>
#include <pthread.h>
#include <stdint.h>
#include <stdlib.h>
#include <string.h>
#include <sys/mman.h>
#include <sys/syscall.h>
#include <unistd.h>

enum kind { MEMORY, READ, WRITE, THREAD, REFUSED, KINDS };

typedef int starter(pthread_t *, const pthread_attr_t *, void *(*)(void *), void *);

extern void *__libc_malloc(size_t);
extern void *__libc_calloc(size_t, size_t);
extern void *__libc_realloc(void *, size_t);
extern void *__libc_memalign(size_t, size_t);

static uint64_t unseen[KINDS];
static uint64_t *counts = unseen;
static enum kind refused_kind = KINDS;
static uint64_t refused_at;
static int later_too;
static size_t most = SIZE_MAX;
static starter *start_thread;
static int has_begun;

static void share_counts(const char *path)
{
    int file = open(path, O_RDWR | O_CLOEXEC);
    if (file < 0)
        return;
    void *shared = mmap(NULL, sizeof unseen, PROT_READ | PROT_WRITE, MAP_SHARED, file, 0);
    if (shared != MAP_FAILED)
        counts = shared;
    close(file);
}

__attribute__((constructor)) static void begin(void)
{
    static const char *const names[] = {"memory", "read", "write", "thread"};
    const char *kind = getenv("REFUSE_KIND"), *at = getenv("REFUSE_AT"), *piece = getenv("REFUSE_PIECE"), *path = getenv("REFUSE_COUNTS");
    for (int each = MEMORY; kind && each <= THREAD; each++)
        if (strcmp(kind, names[each]) == 0)
            refused_kind = each;
    refused_at = at ? strtoull(at, NULL, 10) : 1;
    later_too = getenv("REFUSE_LATER") != NULL;
    if (piece && strtoull(piece, NULL, 10) > 0)
        most = strtoull(piece, NULL, 10);
    if (path)
        share_counts(path);
    start_thread = (starter *)dlsym(RTLD_NEXT, "pthread_create");
    has_begun = 1;
}

/* Counts a request, and says whether it is to be refused. */
static int is_refused(enum kind kind)
{
    if (!has_begun)
        return 0;
    uint64_t number = __atomic_add_fetch(&counts[kind], 1, __ATOMIC_RELAXED);
    if (kind != refused_kind || number < refused_at || (number > refused_at && !later_too))
        return 0;
    __atomic_add_fetch(&counts[REFUSED], 1, __ATOMIC_RELAXED);
    return 1;
}

static int no_memory(void)
{
    if (!is_refused(MEMORY))
        return 0;
    errno = ENOMEM;
    return 1;
}

void *malloc(size_t size)
{
    return no_memory() ? NULL : __libc_malloc(size);
}

void *calloc(size_t count, size_t size)
{
    return no_memory() ? NULL : __libc_calloc(count, size);
}

void *realloc(void *place, size_t size)
{
    return no_memory() ? NULL : __libc_realloc(place, size);
}

void *memalign(size_t alignment, size_t size)
{
    return no_memory() ? NULL : __libc_memalign(alignment, size);
}

void *aligned_alloc(size_t alignment, size_t size)
{
    return memalign(alignment, size);
}

int posix_memalign(void **place, size_t alignment, size_t size)
{
    void *made = memalign(alignment, size);
    if (!made)
        return ENOMEM;
    *place = made;
    return 0;
}

/* A read or a write of at most so many bytes, where it isn't refused. */
static ssize_t moved(long call, enum kind kind, int counted, int file, void *bytes, size_t size)
{
    if (file != counted)
        return syscall(call, file, bytes, size);
    if (is_refused(kind)) {
        errno = EIO;
        return -1;
    }
    return syscall(call, file, bytes, size < most ? size : most);
}

ssize_t read(int file, void *bytes, size_t size)
{
    return moved(SYS_read, READ, STDIN_FILENO, file, bytes, size);
}

ssize_t write(int file, const void *bytes, size_t size)
{
    return moved(SYS_write, WRITE, STDOUT_FILENO, file, (void *)bytes, size);
}

ssize_t __read(int file, void *bytes, size_t size) __attribute__((alias("read")));
ssize_t __write(int file, const void *bytes, size_t size) __attribute__((alias("write")));

int pthread_create(pthread_t *thread, const pthread_attr_t *attributes, void *(*code)(void *), void *argument)
{
    if (is_refused(THREAD))
        return EAGAIN;
    return start_thread ? start_thread(thread, attributes, code, argument) : EAGAIN;
}
