/* Preloaded into nginx by the tests, and into other programs over the library. Of the blocks of memory that the module or the library ask
 * for, it refuses the one whose number, from 1, stands in the file that REFUSED names, as eight octets; then that number is 0, and nothing is refused.
 * While -N stands there, each block of N octets and more is refused, whoever asks for it. */
#define _GNU_SOURCE
#include <dlfcn.h>
#include <fcntl.h>
#include <stdlib.h>
#include <string.h>
#include <sys/mman.h>
#include <unistd.h>

extern void *__libc_malloc(size_t size);
extern void *__libc_realloc(void *block, size_t size);

/* The number, in the file, so that the workers have it too. */
static volatile long *left;

__attribute__((constructor)) static void map_number(void)
{
    const char *name = getenv("REFUSED");
    int file = name == NULL ? -1 : open(name, O_RDWR);
    void *at = file < 0 ? MAP_FAILED : mmap(NULL, sizeof(long), PROT_READ | PROT_WRITE, MAP_SHARED, file, 0);
    if (at != MAP_FAILED)
        left = at;
    if (file >= 0)
        close(file);
}

static int is_refused(const void *caller, size_t size)
{
    Dl_info of;
    if (left != NULL && *left < 0)
        return size >= (size_t)-*left;
    if (left == NULL || *left == 0 || dladdr(caller, &of) == 0 || of.dli_fname == NULL)
        return 0;
    /* (the file's own name, since its folder may have any) */
    const char *slash = strrchr(of.dli_fname, '/'), *name = slash == NULL ? of.dli_fname : slash + 1;
    if (strstr(name, "fowharimu") == NULL)
        return 0;
    return --*left == 0;
}

void *malloc(size_t size)
{
    return is_refused(__builtin_return_address(0), size) ? NULL : __libc_malloc(size);
}

void *realloc(void *block, size_t size)
{
    return is_refused(__builtin_return_address(0), size) ? NULL : __libc_realloc(block, size);
}
