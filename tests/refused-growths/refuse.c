/* Refuses one allocation: the one whose number the environment gives, counted from 1, and says so on standard error. It includes
   nothing, so that the kit's own compiler makes it. */
typedef unsigned long size;

extern void *__libc_malloc(size octets);
extern void *__libc_realloc(void *block, size octets);
extern char *getenv(const char *name);
extern long atol(const char *text);
extern long write(int file, const void *octets, size count);

static long count;

static int is_refused(void) {
    const char *number = getenv("REFUSED_GROWTH");
    if (!number || ++count != atol(number)) return 0;
    return write(2, "refused growth\n", 15) == 15;
}

void *malloc(size octets) { return is_refused() ? 0 : __libc_malloc(octets); }

void *realloc(void *block, size octets) { return is_refused() ? 0 : __libc_realloc(block, octets); }
