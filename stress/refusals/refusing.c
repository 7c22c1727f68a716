/* An allocator that refuses one allocation, of the number REFUSE, or that of the number REFUSE_FROM and all after it. It says so
   if there are fewer. */
#include <stdio.h>
#include <stdlib.h>

extern void *__libc_malloc(size_t size);
extern void *__libc_realloc(void *old, size_t size);
extern void *__libc_memalign(size_t align, size_t size);

static long count = 0;
static long refused = 0;
static int others = 0;

static int is_refused(void) {
    if (refused == 0) {
        const char *number = getenv("REFUSE");
        const char *first = getenv("REFUSE_FROM");
        others = number == NULL && first != NULL;
        refused = number ? atol(number) : first ? atol(first) : -1;
    }
    count += 1;
    return others ? count >= refused : count == refused;
}

void *malloc(size_t size) { return is_refused() ? NULL : __libc_malloc(size); }

void *realloc(void *old, size_t size) { return is_refused() ? NULL : __libc_realloc(old, size); }

void *aligned_alloc(size_t align, size_t size) { return is_refused() ? NULL : __libc_memalign(align, size); }

__attribute__((destructor)) static void tell(void) {
    if (count < refused) fprintf(stderr, "only %ld allocations\n", count);
}
