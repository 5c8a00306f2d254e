/* The heap of a library that the kit proved, over C's malloc, for the platforms for which the kit has none: the kit's own is for x86-64 alone. This isn't
 * proved. Its contracts are those of the kit's libc/src/heap.rt: what is asked for is aligned to at most 16 octets, as malloc's is, and an address is
 * answered also where there is no memory. */
#include <stddef.h>
#include <stdint.h>
#include <stdlib.h>

/* Tried of the kit's libc/src/types.rt, as it is handed over: in two registers. */
typedef struct tried {
    uint64_t ok;
    void *p;
} tried;

tried rattle_alloc(size_t n, size_t a);
tried rattle_realloc(void *p, size_t kept, size_t n, size_t a);
void rattle_dealloc(void *p);

static unsigned char nothing[16];

static tried tried_at(void *p)
{
    tried it = {p != NULL, p != NULL ? p : nothing};
    return it;
}

tried rattle_alloc(size_t n, size_t a)
{
    return tried_at(malloc(n != 0 ? n : a));
}

tried rattle_realloc(void *p, size_t kept, size_t n, size_t a)
{
    (void)kept;
    return tried_at(realloc(p, n != 0 ? n : a));
}

void rattle_dealloc(void *p)
{
    free(p);
}
