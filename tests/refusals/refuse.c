/* Loaded before the C library (LD_PRELOAD), this counts the requests for memory of a program and refuses some of them.
   REFUSE_AT=N refuses the N-th request, and with REFUSE_ALL=1 also each later one. REFUSE_COUNTS names a file of 16 bytes,
   in which two numbers stand at each time: how many requests there were, and how many of them were refused. */
#include <errno.h>
#include <fcntl.h>
#include <stdlib.h>
#include <sys/mman.h>
#include <unistd.h>

extern void *__libc_malloc(size_t), *__libc_calloc(size_t, size_t), *__libc_realloc(void *, size_t), *__libc_memalign(size_t, size_t);

static unsigned long none[2], *volatile counts = none, at;
static int all;

/* Runs before the program's main; until then nothing is refused. */
__attribute__((constructor)) static void begin(void)
{
    const char *number = getenv("REFUSE_AT"), *name = getenv("REFUSE_COUNTS");
    int file = name ? open(name, O_RDWR | O_CLOEXEC) : -1;
    void *shared = file < 0 ? MAP_FAILED : mmap(NULL, 16, PROT_READ | PROT_WRITE, MAP_SHARED, file, 0);
    if (shared == MAP_FAILED) _exit(99);
    counts = shared;
    at = number ? strtoul(number, NULL, 10) : 0;
    all = getenv("REFUSE_ALL") != NULL;
}

/* Counts a request, and tells whether it is refused. */
static int refused(void)
{
    if (counts == none) return 0;
    unsigned long number = __sync_add_and_fetch(&counts[0], 1);
    if (at == 0 || (all ? number < at : number != at)) return 0;
    __sync_add_and_fetch(&counts[1], 1);
    errno = ENOMEM;
    return 1;
}

void *malloc(size_t size) { return refused() ? NULL : __libc_malloc(size); }
void *calloc(size_t count, size_t size) { return refused() ? NULL : __libc_calloc(count, size); }
void *realloc(void *old, size_t size) { return refused() ? NULL : __libc_realloc(old, size); }
void *aligned_alloc(size_t alignment, size_t size) { return refused() ? NULL : __libc_memalign(alignment, size); }

int posix_memalign(void **result, size_t alignment, size_t size)
{
    void *made = refused() ? NULL : __libc_memalign(alignment, size);
    if (made == NULL) return ENOMEM;
    *result = made;
    return 0;
}
