/* In place of version.c: a library of another interface, for tests. */
#include <fowharimu.h>

uint32_t fow_abi(void)
{
    return FOW_ABI + 1;
}

const char *fow_version(void)
{
    return "another";
}
