/* A heap of the host's in place of the library's: it counts what is held, and refuses what it is told to. A program includes it once. */
#include <stdbool.h>
#include <stdlib.h>

struct tried {
    bool ok;
    void *memory;
};

/* How many requests are still granted; whether all are refused from then on, or one; and how many blocks are held. */
static long heap_left = -1, heap_held;
static bool heap_stays_empty, heap_refused;
static char heap_nothing;

/* From now on `left` requests are granted, and the next one is refused, or that and all behind it. A negative number: all are granted. */
static void heap_grant(long left, bool stays_empty) {
    heap_left = left;
    heap_stays_empty = stays_empty;
    heap_refused = false;
}

static bool heap_refuses(void) {
    if (heap_left < 0 || heap_left-- > 0) return false;
    heap_left = heap_stays_empty ? 0 : -1;
    heap_refused = true;
    return true;
}

static struct tried heap_given(void *memory) {
    struct tried tried = {memory != NULL, memory};
    if (!memory) tried.memory = &heap_nothing;
    return tried;
}

#ifdef __cplusplus
extern "C" {
#endif
struct tried rattle_alloc(size_t size, size_t align);
struct tried rattle_realloc(void *old, size_t kept, size_t size, size_t align);
void rattle_dealloc(void *memory);

struct tried rattle_alloc(size_t size, size_t align) {
    struct tried tried = heap_given(heap_refuses() ? NULL : malloc(size ? size : align));
    heap_held += tried.ok;
    return tried;
}

struct tried rattle_realloc(void *old, size_t kept, size_t size, size_t align) {
    (void)kept;
    return heap_given(heap_refuses() ? NULL : realloc(old, size ? size : align));
}

void rattle_dealloc(void *memory) {
    heap_held--;
    free(memory);
}
#ifdef __cplusplus
}
#endif
