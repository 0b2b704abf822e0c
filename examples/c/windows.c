/* Guest memory with a hole, over galitzaf.h: root and context table at 4 GiB, page tables, interrupt table and a
 * posted descriptor below the hole. windows.stdout has what it prints.
 *
 *     packaging/archive
 *     cc -std=c11 -Iinclude examples/c/windows.c target/staticlib/libgalitzaf.a -o windows
 */
#include "galitzaf.h"

#include <inttypes.h>
#include <stdio.h>

#define SOURCE 0x0310
#define HIGH UINT64_C(0x100000000)

/* HAW 39, MGAW 48, 3 levels, posting; TE and IRE; S 3; root table at 4 GiB, interrupt table at 3000h. */
static const uint8_t registers[GALITZAF_REGISTERS_SIZE] = {
    39, 48, 0x21, 0x03, 3, 0, 0, 0,
    0x00, 0x00, 0, 0, 1, 0, 0, 0,
    0x00, 0x30, 0, 0, 0, 0, 0, 0,
};

/* The run has what is above the hole first. The first window ends within its fourth page. */
static const struct galitzaf_window windows[] = {
    {0x0000, 0x2000, 0x3440},
    {HIGH, 0x0000, 0x2000},
};

static uint8_t run[0x6000];

/* Words by their place in the run. */
static const struct { size_t place; uint64_t word; } words[] = {
    {0x0030, 0x100001001}, {0x1100, 0x0001}, {0x1108, 0x501},      /* root and context entry at 4 GiB */
    {0x2008, 0x1003},      {0x3008, 0x2003}, {0x4008, 0x12345001}, /* page entries at 0000h, 1000h and 2000h */
    {0x5040, 0x0000340000318001}, {0x5420, 0x0000070000F20000},    /* interrupt entry and descriptor at 3000h */
    {0x5060, 0x0000344000318001},                                  /* one whose descriptor is cut off */
};

static uint64_t load(const uint8_t *bytes, size_t count)
{
    uint64_t number = 0;
    while (count-- > 0)
        number = number << 8 | bytes[count];
    return number;
}

static void print_answer(uint32_t status, const uint8_t *answer)
{
    if (status != GALITZAF_OK)
        printf("malformed call, %03" PRIX32 "\n", status);
    else if (answer[GALITZAF_KIND] == GALITZAF_GRANTED)
        printf("granted %" PRIX64 "\n", load(answer + GALITZAF_HOST_ADDRESS, 8));
    else if (answer[GALITZAF_KIND] == GALITZAF_BLOCKED)
        printf("fault %02X, entry %" PRIX64 "\n", answer[GALITZAF_REASON], load(answer + GALITZAF_ENTRY, 8));
    else if (answer[GALITZAF_KIND] == GALITZAF_REFUSED)
        printf("refused %d\n", answer[GALITZAF_REFUSAL]);
    else if (answer[GALITZAF_KIND] == GALITZAF_POSTED)
        printf("posted %02X to %" PRIX64 "; byte 5406 of the run is %d\n", answer[GALITZAF_POSTED_VECTOR],
               load(answer + GALITZAF_DESCRIPTOR, 8), run[0x5406]);
    else
        printf("kind %d\n", answer[GALITZAF_KIND]);
}

static void memory(const char *over, const uint64_t *numbers, size_t count)
{
    uint8_t answer[GALITZAF_ANSWER_SIZE];
    printf("read 40201ABC over %s: ", over);
    print_answer(galitzaf_memory_request(registers, sizeof registers, numbers, count, run, sizeof run, SOURCE,
                                         0x40201ABC, 0, answer, sizeof answer), answer);
}

static void interrupt(uint64_t address)
{
    uint8_t answer[GALITZAF_ANSWER_SIZE];
    printf("interrupt %" PRIX64 ": ", address);
    print_answer(galitzaf_interrupt_request(registers, sizeof registers, GALITZAF_WINDOWS(windows, 2), run,
                                            sizeof run, SOURCE, address, 0, answer, sizeof answer), answer);
}

static void take(uint64_t descriptor)
{
    uint32_t status = galitzaf_take(registers, sizeof registers, GALITZAF_WINDOWS(windows, 2), run, sizeof run,
                                    descriptor);
    printf("take from %" PRIX64 ": ", descriptor);
    if (status >= GALITZAF_TAKEN)
        printf("vector %02" PRIX32 "\n", status - GALITZAF_TAKEN);
    else
        printf("%s\n", status == GALITZAF_NONE_STANDS ? "none" : "refused");
}

int main(void)
{
    static const struct galitzaf_window swapped[] = {{HIGH, 0x0000, 0x2000}, {0x0000, 0x2000, 0x3440}};
    static const struct galitzaf_window longer[] = {{0x0000, 0x2000, 0x4001}};

    for (size_t i = 0; i < sizeof words / sizeof words[0]; i++)
        for (size_t n = 0; n < 8; n++)
            run[words[i].place + n] = (uint8_t)(words[i].word >> (8 * n));
    memory("both windows", GALITZAF_WINDOWS(windows, 2));
    memory("the lower alone", GALITZAF_WINDOWS(windows, 1));
    memory("no window", GALITZAF_WINDOWS(windows, 0));
    memory("a plain image", GALITZAF_FLAT(sizeof run));
    memory("windows not sorted", GALITZAF_WINDOWS(swapped, 2));
    memory("a window past the run", GALITZAF_WINDOWS(longer, 1));
    memory("five numbers", galitzaf_numbers(windows), 5);
    interrupt(0xFEE00090);
    interrupt(0xFEE000D0);
    take(0x3400);
    take(0x3400);
    take(0x3440);
    return 0;
}
