/* The heap that code in Rattle asks for memory: three functions over malloc, realloc and free. They do what the kit's own
   object of them does, whose source isn't in the kit. `struct tried` crosses as Rattle's { bool ok; uint8_t *p }. */
#include <stddef.h>
#include <stdlib.h>

struct tried {
    size_t ok;
    void *p;
};

/* where a call that failed points, so that the pointer is never null */
static unsigned char nothing;

static struct tried made(void *p) {
    return (struct tried){p != 0, p ? p : &nothing};
}

struct tried rattle_alloc(size_t size, size_t align) {
    return made(malloc(size ? size : align));
}

struct tried rattle_realloc(void *p, size_t kept, size_t size, size_t align) {
    (void)kept;
    return made(realloc(p, size ? size : align));
}

void rattle_dealloc(void *p) {
    free(p);
}
