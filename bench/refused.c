/* Refuses requests for memory of the program that it is loaded into, as a page of shared memory says. `bench/refused` builds it,
 * loads it by LD_PRELOAD, and shares the page, whose file REFUSED_PAGE names: it may change it while the program runs.
 *
 * The program asks the C library alone, by malloc and realloc, and for large alignments by other functions. What the library asks
 * for on its behalf, as for a thread's own variables, comes here too; stacks, which it maps, do not. Requests are counted from the
 * program's start, or between marks. A mark is a request for just so many bytes, by a test that has no other way to tell where a
 * call begins and ends that it tries, and that this said that it had no memory.
 */
#define _GNU_SOURCE
#include <errno.h>
#include <fcntl.h>
#include <stdatomic.h>
#include <stddef.h>
#include <stdint.h>
#include <stdlib.h>
#include <sys/mman.h>
#include <unistd.h>

#define BEGIN_MARK 65521
#define END_MARK 65519
#define TOLD_MARK 65497

extern void *__libc_malloc(size_t);
extern void *__libc_calloc(size_t, size_t);
extern void *__libc_realloc(void *, size_t);
extern void *__libc_memalign(size_t, size_t);

/* Numbers of requests begin at 1. A first number of 0 refuses none. */
struct page {
    _Atomic uint64_t counted; /* requests so far */
    _Atomic uint64_t refused; /* how many of them were refused */
    _Atomic uint64_t first;   /* the first to be refused */
    _Atomic uint64_t last;    /* and the last */
    _Atomic uint64_t marked;  /* whether only requests between marks count */
    _Atomic uint64_t inside;  /* whether a call has begun that has not ended */
    _Atomic uint64_t told;    /* how many calls said that they had no memory */
};

static struct page *page;

__attribute__((constructor)) static void open_page(void)
{
    const char *name = getenv("REFUSED_PAGE");
    int file = name ? open(name, O_RDWR | O_CLOEXEC) : -1;
    if (file < 0)
        return;
    void *found = mmap(NULL, sizeof(struct page), PROT_READ | PROT_WRITE, MAP_SHARED, file, 0);
    close(file);
    if (found != MAP_FAILED)
        page = found;
}

/* Whether the request is refused, which is counted. */
static int is_refused(size_t bytes)
{
    if (!page)
        return 0;
    if (atomic_load(&page->marked)) {
        if (bytes == BEGIN_MARK || bytes == END_MARK) {
            atomic_store(&page->inside, bytes == BEGIN_MARK);
            return 0;
        }
        if (bytes == TOLD_MARK) {
            atomic_fetch_add(&page->told, 1);
            return 0;
        }
        if (!atomic_load(&page->inside))
            return 0;
    }
    uint64_t number = atomic_fetch_add(&page->counted, 1) + 1;
    uint64_t first = atomic_load(&page->first);
    if (first == 0 || number < first || number > atomic_load(&page->last))
        return 0;
    atomic_fetch_add(&page->refused, 1);
    errno = ENOMEM;
    return 1;
}

void *malloc(size_t bytes)
{
    return is_refused(bytes) ? NULL : __libc_malloc(bytes);
}

void *calloc(size_t count, size_t bytes)
{
    return is_refused(count * bytes) ? NULL : __libc_calloc(count, bytes);
}

void *realloc(void *old, size_t bytes)
{
    return is_refused(bytes) ? NULL : __libc_realloc(old, bytes);
}

void *memalign(size_t alignment, size_t bytes)
{
    return is_refused(bytes) ? NULL : __libc_memalign(alignment, bytes);
}

void *aligned_alloc(size_t alignment, size_t bytes)
{
    return memalign(alignment, bytes);
}

int posix_memalign(void **to, size_t alignment, size_t bytes)
{
    void *found = memalign(alignment, bytes);
    if (!found)
        return ENOMEM;
    *to = found;
    return 0;
}
