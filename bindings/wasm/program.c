/* What the program asks before it begins, of which an engine knows nothing: whether the processor has what it was compiled for, which is said to be so, since the
 * engine refuses a module that it can't run; and that a broken pipe is no signal, which it never is there. Not proved. */
typedef __SIZE_TYPE__ size_t;

long write(int fd, const void *at, size_t count);
const void *__x86_get_cpuid_feature_leaf(unsigned leaf);
void *__sysv_signal(int number, void *handler);
long __write(int fd, const void *at, size_t count);

const void *__x86_get_cpuid_feature_leaf(unsigned leaf)
{
    static const unsigned all[8] = { ~0u, ~0u, ~0u, ~0u, ~0u, ~0u, ~0u, ~0u };
    (void)leaf;
    return all;
}

void *__sysv_signal(int number, void *handler)
{
    (void)number, (void)handler;
    return 0;
}

long __write(int fd, const void *at, size_t count)
{
    return write(fd, at, count);
}
