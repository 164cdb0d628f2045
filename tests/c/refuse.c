/* Loaded into a program by LD_PRELOAD. Refuses some of the program's allocations, and moves its clock. What is asked for, and what came of it,
   stands in the file that REFUSE names; who started the program maps it too.

   What counts is a call of malloc, realloc, calloc or aligned_alloc, or the start of a thread, that the program itself makes. Calls that the
   C library makes do not count. */

#define _GNU_SOURCE
#include <dlfcn.h>
#include <errno.h>
#include <fcntl.h>
#include <link.h>
#include <pthread.h>
#include <stdatomic.h>
#include <stdint.h>
#include <stdlib.h>
#include <sys/epoll.h>
#include <sys/mman.h>
#include <sys/syscall.h>
#include <time.h>
#include <unistd.h>

struct orders {
    _Atomic uint64_t counting; /* 1: allocations are counted */
    _Atomic uint64_t first;    /* the number of the first one to be refused, from 1 on; 0 refuses none */
    _Atomic uint64_t last;     /* the number of the last one to be refused */
    _Atomic uint64_t count;    /* allocations so far */
    _Atomic uint64_t refused;  /* how many of them were refused */
    _Atomic uint64_t size;     /* bytes of the latest one that was refused; 0 for a thread */
    _Atomic uint64_t ahead;    /* seconds by which the program's clocks are ahead */
    _Atomic uint64_t wait;     /* milliseconds that a wait for events takes at most; 0 changes none */
    _Atomic uint64_t waits;    /* waits for events that the first thread has begun */
    _Atomic uint64_t rests;    /* sleeps that the first thread has begun */
};

extern void *__libc_malloc(size_t size);
extern void *__libc_realloc(void *block, size_t size);
extern void *__libc_calloc(size_t count, size_t size);
extern void *__libc_memalign(size_t alignment, size_t size);

static struct orders *orders;
static uintptr_t program_begin = UINTPTR_MAX, program_end;

/* The C library's own pthread_create. */
static int (*start_thread)(pthread_t *, const pthread_attr_t *, void *(*)(void *), void *);

/* The first object is the program itself. */
static int take_program(struct dl_phdr_info *object, size_t size, void *unused)
{
    (void)size;
    (void)unused;
    for (int at = 0; at < object->dlpi_phnum; at++) {
        const ElfW(Phdr) *part = &object->dlpi_phdr[at];
        uintptr_t begin = object->dlpi_addr + part->p_vaddr;
        if (part->p_type != PT_LOAD)
            continue;
        if (begin < program_begin)
            program_begin = begin;
        if (begin + part->p_memsz > program_end)
            program_end = begin + part->p_memsz;
    }
    return 1;
}

__attribute__((constructor)) static void take_orders(void)
{
    /* ISO C has no other conversion to a pointer to a function. */
    *(void **)&start_thread = dlsym(RTLD_NEXT, "pthread_create");
    const char *path = getenv("REFUSE");
    int file = path ? open(path, O_RDWR | O_CLOEXEC) : -1;
    if (file < 0)
        return;
    void *place = mmap(NULL, sizeof(struct orders), PROT_READ | PROT_WRITE, MAP_SHARED, file, 0);
    close(file);
    dl_iterate_phdr(take_program, NULL);
    if (place != MAP_FAILED)
        orders = place;
}

static int is_refused(uintptr_t caller, size_t size)
{
    if (!orders || caller < program_begin || caller >= program_end || !atomic_load(&orders->counting))
        return 0;
    uint64_t number = atomic_fetch_add(&orders->count, 1) + 1;
    if (number < atomic_load(&orders->first) || number > atomic_load(&orders->last))
        return 0;
    atomic_store(&orders->size, size);
    atomic_fetch_add(&orders->refused, 1);
    return 1;
}

#define CALLER ((uintptr_t)__builtin_return_address(0))

static void *none(void)
{
    errno = ENOMEM;
    return NULL;
}

void *malloc(size_t size)
{
    return is_refused(CALLER, size) ? none() : __libc_malloc(size);
}

void *realloc(void *block, size_t size)
{
    return is_refused(CALLER, size) ? none() : __libc_realloc(block, size);
}

void *calloc(size_t count, size_t size)
{
    return is_refused(CALLER, count * size) ? none() : __libc_calloc(count, size);
}

void *aligned_alloc(size_t alignment, size_t size)
{
    return is_refused(CALLER, size) ? none() : __libc_memalign(alignment, size);
}

int pthread_create(pthread_t *thread, const pthread_attr_t *how, void *(*run)(void *), void *given)
{
    return is_refused(CALLER, 0) ? EAGAIN : start_thread(thread, how, run, given);
}

int clock_gettime(clockid_t clock, struct timespec *moment)
{
    int status = (int)syscall(SYS_clock_gettime, clock, moment);
    if (status == 0 && orders)
        moment->tv_sec += (time_t)atomic_load(&orders->ahead);
    return status;
}

static int is_first_thread(void)
{
    return gettid() == getpid();
}

int nanosleep(const struct timespec *asked, struct timespec *left)
{
    if (orders && is_first_thread())
        atomic_fetch_add(&orders->rests, 1);
    int error = clock_nanosleep(CLOCK_REALTIME, 0, asked, left);
    if (error == 0)
        return 0;
    errno = error;
    return -1;
}

int epoll_wait(int set, struct epoll_event *events, int most, int wait)
{
    if (orders && wait != 0 && is_first_thread()) {
        int longest = (int)atomic_load(&orders->wait);
        atomic_fetch_add(&orders->waits, 1);
        if (longest > 0 && (wait < 0 || wait > longest))
            wait = longest;
    }
    return epoll_pwait(set, events, most, wait, NULL);
}
