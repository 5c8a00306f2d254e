#include <fowharimu.h>

uint32_t fow_abi(void)
{
    return FOW_ABI;
}

/* VERSION is the Makefile's. */
const char *fow_version(void)
{
    return VERSION;
}
