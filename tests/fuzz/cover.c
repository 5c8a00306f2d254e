/* Coverage of the proved archive, which can't be instrumented: a trap at each basic block whose offset from fow_judge stands in the file that
 * FOW_BLOCKS names (blocks.py writes it). At its first hit it is taken away, and libFuzzer is told. For one thread, on x86-64. At the end
 * the file that FOW_HITS names gets the number of blocks that ran. */
#define _GNU_SOURCE
#include <fowharimu.h>
#include <signal.h>
#include <stdio.h>
#include <stdlib.h>
#include <sys/mman.h>
#include <ucontext.h>
#include <unistd.h>

enum { MOST_BLOCKS = 1 << 15, SPAN = 1 << 21, OUTCOMES = 1 << 12, TRAP = 0xcc };

__attribute__((section("__libfuzzer_extra_counters"))) static uint8_t counters[MOST_BLOCKS + OUTCOMES];
static long offsets[MOST_BLOCKS];
static uint8_t first_octets[MOST_BLOCKS];
static int32_t block_at[SPAN]; /* by the distance from the lowest, the number from 1 */
static unsigned char *base, *lowest;
static long count, hits;

void cover_outcome(uint32_t outcome);

void cover_outcome(uint32_t outcome)
{
    counters[MOST_BLOCKS + (outcome * 2654435761u >> 20)] = 1;
}

static void on_trap(int number, siginfo_t *info, void *at)
{
    ucontext_t *context = at;
    unsigned char *place = (unsigned char *)context->uc_mcontext.gregs[REG_RIP] - 1;
    (void)number, (void)info;
    if (place < lowest || place >= lowest + SPAN || block_at[place - lowest] == 0)
        abort();
    long block = block_at[place - lowest] - 1;
    *place = first_octets[block];
    counters[block] = 1;
    hits++;
    context->uc_mcontext.gregs[REG_RIP] -= 1;
}

static void tell_hits(void)
{
    const char *name = getenv("FOW_HITS");
    FILE *out = name == NULL ? NULL : fopen(name, "w");
    if (out == NULL)
        return;
    fprintf(out, "%ld of %ld\n", hits, count);
    fclose(out);
}

static int read_offsets(void)
{
    const char *name = getenv("FOW_BLOCKS");
    FILE *in = name == NULL ? NULL : fopen(name, "r");
    if (in == NULL)
        return 0;
    while (count < MOST_BLOCKS && fscanf(in, "%ld", &offsets[count]) == 1)
        count++;
    fclose(in);
    return count != 0;
}

__attribute__((constructor)) static void begin(void)
{
    if (!read_offsets())
        return;
    base = (unsigned char *)fow_judge;
    lowest = base + offsets[0];
    size_t page = (size_t)sysconf(_SC_PAGESIZE);
    unsigned char *from = (unsigned char *)((size_t)lowest & ~(page - 1));
    if (mprotect(from, (size_t)(base + offsets[count - 1] + page - from), PROT_READ | PROT_WRITE | PROT_EXEC) != 0)
        abort();
    struct sigaction action = { .sa_sigaction = on_trap, .sa_flags = SA_SIGINFO | SA_NODEFER };
    sigaction(SIGTRAP, &action, NULL);
    for (long block = 0; block < count; block++) {
        unsigned char *place = base + offsets[block];
        if (place >= lowest + SPAN)
            abort();
        block_at[place - lowest] = (int32_t)block + 1;
        first_octets[block] = *place;
        *place = TRAP;
    }
    atexit(tell_hits);
}
