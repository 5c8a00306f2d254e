/* What the program asks of C's library beside the heap, for the platforms for which the kit has no such code: its words, its environment, and the number of an
 * error. This isn't proved; it does what the kit's os/src/c.rt says. A text is answered by how many octets were put, -1 where there is none, -2 where there is no
 * room. The words come in as glibc hands them to what stands in .init_array, which musl doesn't: the program is linked with glibc, statically. */
#include <errno.h>
#include <stddef.h>
#include <stdlib.h>

extern char **environ;

size_t rattle_arg_count(void);
long rattle_arg(size_t i, char *at, size_t room);
long rattle_env(const char *name, char *at, size_t room);
long rattle_env_at(size_t i, char *at, size_t room);
int rattle_errno(void);
void rattle_set_errno(int to);

static char **words;
static size_t count;

static void keep(int argc, char **argv)
{
    count = (size_t)argc;
    words = argv;
}

__attribute__((section(".init_array"), used)) static void (*const keeps)(int, char **) = keep;

static long put(const char *text, char *at, size_t room)
{
    if (text == NULL)
        return -1;
    size_t n = 0;
    for (; text[n] != 0; n++) {
        if (n == room)
            return -2;
        at[n] = text[n];
    }
    return (long)n;
}

size_t rattle_arg_count(void)
{
    return count;
}

long rattle_arg(size_t i, char *at, size_t room)
{
    return put(i < count ? words[i] : NULL, at, room);
}

long rattle_env(const char *name, char *at, size_t room)
{
    return put(getenv(name), at, room);
}

long rattle_env_at(size_t i, char *at, size_t room)
{
    for (size_t n = 0; environ != NULL && environ[n] != NULL; n++)
        if (n == i)
            return put(environ[n], at, room);
    return -1;
}

int rattle_errno(void)
{
    return errno;
}

void rattle_set_errno(int to)
{
    errno = to;
}
