/* Makes requests of every kind over a bench image with edits. Each call stands between two stores to `marker`, by which
 * tests/run-object finds its loads and stores in a trace of this program.
 *
 *     requests print N    what each of N requests answered, one a line
 *     requests trace N    the same requests, as little as possible beside them
 *     requests load N     after each call a word of the image is loaded twice, which has to be noticed
 *     requests store N    after each call a byte of it is stored twice
 */
#include "galitzaf.h"

#include <stdio.h>
#include <stdlib.h>
#include <string.h>

uint64_t image[0x1000] __attribute__((aligned(4096)));
volatile uint32_t marker;
static size_t length, count;
static struct galitzaf_window windows[4];
static uint8_t registers[GALITZAF_REGISTERS_SIZE], answer[GALITZAF_ANSWER_SIZE];
static char mode;

/* The calls, in one place. */
static uint32_t memory(uint16_t source, uint64_t address, uint8_t write)
{
    return galitzaf_memory_request(registers, sizeof registers, GALITZAF_WINDOWS(windows, count), (uint8_t *)image, length, source, address, write, answer, sizeof answer);
}

static uint32_t translation(uint16_t source, uint64_t address)
{
    return galitzaf_translation_request(registers, sizeof registers, GALITZAF_WINDOWS(windows, count), (uint8_t *)image, length, source, address, answer, sizeof answer);
}

static uint32_t interrupt(uint16_t source, uint64_t address, uint32_t data)
{
    return galitzaf_interrupt_request(registers, sizeof registers, GALITZAF_WINDOWS(windows, count), (uint8_t *)image, length, source, address, data, answer, sizeof answer);
}

static uint32_t take(uint64_t descriptor)
{
    return galitzaf_take(registers, sizeof registers, GALITZAF_WINDOWS(windows, count), (uint8_t *)image, length, descriptor);
}

/* The bench image; beside it an entry of 1 GiB, tables for 4 and 5 levels and their devices, one that passes through, a page
 * on the interrupt range, and an interrupt that is posted urgently. */
static const struct { uint64_t address, word; } words[] = {
    {0x1030, 0x2001}, {0x2100, 0x3001}, {0x2108, 0x501}, {0x3008, 0x4003}, {0x4008, 0x5003}, {0x4010, 0x40600083},
    {0x4018, 0x9003}, {0x4020, 0x8000000003}, {0x4028, 0x7003}, {0x5008, 0x12345001}, {0x7FF8, 0x23456003},
    {0x6020, 0x0000070000410001}, {0x6028, 0x40310}, {0x6040, 0x0000640000318001}, {0x6420, 0x0000070000F20000},
    {0x3010, 0x40000083}, {0x0000, 0x3003}, {0x7000, 0x0003}, {0x2200, 0x0001}, {0x2208, 0x502}, {0x2280, 0x7001},
    {0x2288, 0x503}, {0x2300, 0x9}, {0x2308, 0x501}, {0x5018, 0xFEE00003}, {0x6050, 0x000064000032C001},
};

/* What a round may change: a word by these bits. */
static const struct { uint64_t address, bits; } edits[] = {
    {0x1030, 1}, {0x1030, 2}, {0x2100, 1}, {0x2100, 2}, {0x2100, 0x10}, {0x2108, 7}, {0x2100, 0xC}, {0x3008, 3}, {0x4008, 1},
    {0x4008, 0x80}, {0x5008, 3}, {0x5008, 1}, {0x5008, 2}, {0x5008, UINT64_C(1) << 40}, {0x6020, 1}, {0x6020, 2},
    {0x6020, 0x1000}, {0x6028, 1}, {0x6040, UINT64_C(1) << 53}, {0x6040, 0x10}, {0x6048, UINT64_C(1) << 32}, {0x6420, 1},
    {0x6420, 2}, {0x6428, 1}, {0x6400, 0x8001}, {0x6418, UINT64_C(1) << 63},
};
static const size_t lengths[] = {0x8000, 0x8000, 0x8000, 0x8000, 0x8000, 0x8000, 0x7FFF, 0x5008, 0x4008, 0x2108, 0x1038, 0x6028, 0x6430};
static const uint16_t sources[] = {0x310, 0x310, 0x310, 0x320, 0x328, 0x330, 0x311, 0x410};
static const uint64_t places[] = {
    0x40201ABC, 0x40201ABC, 0x40202000, 0x40203000, 0x40412345, 0x40600000, 0x40800000, 0x40BFF000, 0x80001234, 0x7FFFFFFFFF,
    0x8000000000, 0xFEE00000,
};
static const uint64_t messages[] = {
    0xFEE00050, 0xFEE00050, 0xFEE00090, 0xFEE00090, 0xFEE000B0, 0xFEEFFFFC, 0xFEE00058, 0xFEE00000, 0xFED00000,
};
static const uint64_t descriptors[] = {0x6400, 0x6400, 0x6400, 0x6420, 0x8000};

static uint64_t state = 1;

static uint64_t below(uint64_t bound) /* SplitMix64 */
{
    uint64_t z = state += UINT64_C(0x9E3779B97F4A7C15);
    z = (z ^ (z >> 30)) * UINT64_C(0xBF58476D1CE4E5B9);
    z = (z ^ (z >> 27)) * UINT64_C(0x94D049BB133111EB);
    return (z ^ (z >> 31)) % bound;
}

#define ONE_OF(list) ((list)[below(sizeof(list) / sizeof((list)[0]))])

/* The whole run by one window, or by as many as it has room for, host addresses as before. */
static void show(void)
{
    static const size_t ends[] = {0x2000, 0x4000, 0x6000};
    size_t from = 0;
    count = 0;
    if (below(2))
        for (size_t i = 0; i < 3 && ends[i] < length; i++) {
            windows[count++] = (struct galitzaf_window){from, from, ends[i] - from};
            from = ends[i];
        }
    windows[count++] = (struct galitzaf_window){from, from, length - from};
}

static void world(void)
{
    static const uint8_t good[GALITZAF_REGISTERS_SIZE] = {39, 57, 0x3F, 0x03, 3, [9] = 0x10, [17] = 0x60};
    memcpy(registers, good, sizeof registers);
    for (size_t i = 0; i < sizeof edits / sizeof edits[0]; i++)
        image[edits[i].address / 8] = 0;
    for (size_t i = 0x6400 / 8; i < 0x6440 / 8; i++)
        image[i] = 0;
    for (size_t i = 0; i < sizeof words / sizeof words[0]; i++)
        image[words[i].address / 8] = words[i].word;
    for (uint64_t n = below(3); n > 0; n--) {
        size_t i = below(sizeof edits / sizeof edits[0]);
        image[edits[i].address / 8] ^= edits[i].bits;
    }
    length = ONE_OF(lengths);
    show();
    switch (below(16)) {
    case 0: registers[0] = 35; break;    /* HAW */
    case 1: registers[3] = 0x00; break;  /* TE and IRE off */
    case 2: registers[3] |= 0x04; break; /* EIME */
    case 3: registers[3] |= 0x08; break; /* CFIS */
    case 4: registers[2] &= 0x1F; break; /* no posting */
    }
}

static void begin(void) { marker = 1; }

static void end(void)
{
    if (mode == 'l') {
        (void)*(volatile uint64_t *)image;
        (void)*(volatile uint64_t *)image;
    } else if (mode == 's') {
        *(volatile uint8_t *)(image + 2) = 0;
        *(volatile uint8_t *)(image + 2) = 0;
    }
    marker = 0;
}

static void print_answer(const char *kind, uint32_t status)
{
    if (mode != 'p')
        return;
    printf("%s ", kind);
    switch (status == GALITZAF_OK ? answer[GALITZAF_KIND] : GALITZAF_NO_ANSWER) {
    case GALITZAF_GRANTED: printf("granted\n"); break;
    case GALITZAF_BLOCKED: printf("fault %02X\n", answer[GALITZAF_REASON]); break;
    case GALITZAF_REFUSED: printf("refused %d\n", answer[GALITZAF_REFUSAL]); break;
    case GALITZAF_PASSED: printf("passed\n"); break;
    case GALITZAF_REMAPPED: printf("remapped\n"); break;
    case GALITZAF_TRANSLATED: printf("page\n"); break;
    case GALITZAF_EMPTY: printf("empty\n"); break;
    case GALITZAF_POSTED: printf("posted, %s\n", answer[GALITZAF_NOTIFIES] ? "notification" : "no notification"); break;
    default: printf("status %03X\n", (unsigned)status);
    }
}

static void print_take(uint32_t status)
{
    if (mode != 'p')
        return;
    if (status >= GALITZAF_TAKEN)
        printf("take vector\n");
    else if (status == GALITZAF_NONE_STANDS)
        printf("take nothing\n");
    else
        printf("take refused %d\n", (int)status);
}

int main(int argc, char **argv)
{
    uint32_t status;
    if (argc != 3)
        return 2;
    mode = argv[1][0];
    for (int left = atoi(argv[2]); left > 0; left--) {
        world();
        uint16_t source = ONE_OF(sources);
        uint64_t place = ONE_OF(places), message = ONE_OF(messages), descriptor = ONE_OF(descriptors);
        uint32_t data = below(4) ? 0 : 0x10000;
        uint8_t write = (uint8_t)below(2);
        switch (below(6)) {
        case 5: /* mostly of a device whose translation requests aren't blocked */
            if (below(4))
                image[0x2100 / 8] |= 4;
            begin(), status = translation(source, place), end();
            print_answer("translation", status);
            break;
        case 0: case 1:
            begin(), status = memory(source, place, write), end();
            print_answer(write ? "write" : "read", status);
            break;
        case 2: case 3:
            begin(), status = interrupt(source, message, data), end();
            print_answer("interrupt", status);
            break;
        default:
            begin(), status = take(descriptor), end();
            print_take(status);
        }
    }
    return 0;
}
