/*
 * Stands in front of the C library's allocator and refuses requests for memory, as the environment says:
 *   REFUSE_FIRST   the first request that is refused, from 1; 0 refuses none
 *   REFUSE_EVERY   0: no other; 1: each one behind it as well; 2: every second one behind it
 *   SHIM_MARKS   the descriptor to which a byte is written for each request, 'x' for one that is refused, '.' for another
 * Requests are counted from where the program's own code begins. A program that hangs is ended by SIGALRM.
 */
#include <errno.h>
#include <stddef.h>
#include <stdlib.h>
#include <sys/syscall.h>
#include <unistd.h>

extern void *__libc_malloc(size_t size);
extern void *__libc_calloc(size_t count, size_t size);
extern void *__libc_realloc(void *held, size_t size);
extern void *__libc_memalign(size_t alignment, size_t size);

static unsigned long asked, first, every;
static int marks = -1;

static unsigned long told(const char *name)
{
    const char *value = getenv(name);
    return value ? strtoul(value, NULL, 10) : 0;
}

__attribute__((constructor)) static void begin(void)
{
    first = told("REFUSE_FIRST");
    every = told("REFUSE_EVERY");
    marks = getenv("SHIM_MARKS") ? (int)told("SHIM_MARKS") : -1;
    alarm(30);
}

/* Whether this request is refused. */
static int refused(void)
{
    if (marks < 0)
        return 0;
    asked++;
    int is = asked == first || (first && every && asked > first && (asked - first) % every == 0);
    int before = errno;
    syscall(SYS_write, marks, is ? "x" : ".", 1);
    errno = is ? ENOMEM : before;
    return is;
}

void *malloc(size_t size)
{
    return refused() ? NULL : __libc_malloc(size);
}

void *calloc(size_t count, size_t size)
{
    return refused() ? NULL : __libc_calloc(count, size);
}

void *realloc(void *held, size_t size)
{
    return refused() ? NULL : __libc_realloc(held, size);
}

void *memalign(size_t alignment, size_t size)
{
    return refused() ? NULL : __libc_memalign(alignment, size);
}

void *aligned_alloc(size_t alignment, size_t size)
{
    return refused() ? NULL : __libc_memalign(alignment, size);
}

int posix_memalign(void **place, size_t alignment, size_t size)
{
    void *held = refused() ? NULL : __libc_memalign(alignment, size);
    if (!held)
        return ENOMEM;
    *place = held;
    return 0;
}
