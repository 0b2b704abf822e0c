/* A trace beside a unit's calls, over galitzaf.h: 20 reads and writes recorded, read back, damaged, and replayed after an edit.
 * trace.stdout has what it prints.
 *
 *     packaging/archive
 *     cc -std=c11 -Iinclude examples/c/trace.c target/staticlib/libgalitzaf.a -o trace
 */
#include "galitzaf.h"

#include <inttypes.h>
#include <stdio.h>
#include <string.h>

#define SOURCE 0x0310

/* HAW 39, MGAW 48, 3 levels, TE; root table at 1000h. */
static const uint8_t registers[GALITZAF_REGISTERS_SIZE] = {39, 48, 0x01, 0x01, [9] = 0x10};

static uint8_t image[0x8000];

/* The trace, and how much of it there is; a hypervisor writes each block to a file as it comes. */
static uint8_t trace[8 * GALITZAF_TRACE_BLOCK_SIZE];
static size_t length;

static void set(size_t at, uint64_t word)
{
    for (size_t n = 0; n < 8; n++)
        image[at + n] = (uint8_t)(word >> 8 * n);
}

static uint64_t load(const uint8_t *bytes, size_t count)
{
    uint64_t number = 0;
    while (count-- > 0)
        number = number << 8 | bytes[count];
    return number;
}

/* What a call said of the block that is being filled: one that is full goes to the trace. */
static int keep(uint32_t status, const uint8_t *block)
{
    if (status == GALITZAF_TRACE_BLOCK) {
        memcpy(trace + length, block, GALITZAF_TRACE_BLOCK_SIZE);
        length += GALITZAF_TRACE_BLOCK_SIZE;
        return 1;
    }
    return status == GALITZAF_OK;
}

static int record(void)
{
    uint64_t writer[GALITZAF_TRACE_NUMBERS] = {0, 0};
    uint8_t block[GALITZAF_TRACE_BLOCK_SIZE];
    for (int n = 0; n < 20; n++) {
        uint64_t address = 0x40201000 + 8 * (uint64_t)n;
        uint8_t write = n % 4 == 3, answer[GALITZAF_ANSWER_SIZE];
        uint8_t kind = write ? GALITZAF_TRACE_WRITE : GALITZAF_TRACE_READ;
        if (galitzaf_memory_request(registers, sizeof registers, GALITZAF_FLAT(sizeof image), image, sizeof image, SOURCE,
                                    address, write, answer, sizeof answer) != GALITZAF_OK
            || !keep(galitzaf_trace_append(writer, 2, block, sizeof block, kind, SOURCE, address, 0, answer, sizeof answer),
                     block))
            return 0;
    }
    return keep(galitzaf_trace_close(writer, 2, block, sizeof block), block);
}

static void read_back(void)
{
    uint64_t place[GALITZAF_TRACE_NUMBERS] = {0, 0};
    uint8_t entry[GALITZAF_TRACE_ENTRY_SIZE];
    for (;;) {
        uint64_t block = place[0], index = place[1];
        uint32_t status = galitzaf_trace_next(trace, length, place, 2, entry, sizeof entry);
        if (status == GALITZAF_TRACE_DAMAGED)
            printf("block %" PRIu64 ": damaged\n", block);
        else if (status != GALITZAF_TRACE_ENTRY)
            return;
        else if (index < 4)
            printf("block %" PRIu64 ", entry %" PRIu64 ": %s %" PRIX64 ", answer %d, number %d, value %" PRIX64 "\n", block, index,
                   entry[0] == GALITZAF_TRACE_WRITE ? "write" : "read", load(entry + 8, 8), entry[1], entry[2], load(entry + 24, 8));
    }
}

static void replay(void)
{
    uint64_t place[GALITZAF_TRACE_NUMBERS] = {0, 0};
    uint8_t entry[GALITZAF_TRACE_ENTRY_SIZE];
    int same = 0;
    for (;;) {
        uint64_t block = place[0], index = place[1];
        uint32_t status = galitzaf_trace_replay(registers, sizeof registers, GALITZAF_FLAT(sizeof image), image, sizeof image,
                                                trace, length, place, 2, entry, sizeof entry);
        if (status == GALITZAF_TRACE_SAME)
            same++;
        else if (status == GALITZAF_TRACE_DIFFERS)
            printf("block %" PRIu64 ", entry %" PRIu64 ": answer %d now, number %d\n", block, index, entry[1], entry[2]);
        else if (status == GALITZAF_TRACE_DAMAGED)
            printf("block %" PRIu64 ": damaged\n", block);
        else
            break;
    }
    printf("%d have the same answer\n", same);
}

int main(void)
{
    set(0x1030, 0x2001); /* root entry of bus 3 */
    set(0x2100, 0x3001); /* context entry of device 2 */
    set(0x2108, 0x501);
    set(0x3008, 0x4003); /* page entries: 40201000h may be read */
    set(0x4008, 0x5003);
    set(0x5008, 0x12345001);
    if (!record())
        return 1;
    printf("%zu bytes\n", length);
    read_back();
    replay();
    puts("the page may be written now:");
    set(0x5008, 0x12345003);
    replay();
    puts("a byte of the second block is another:");
    trace[600] ^= 1;
    read_back();
    replay();
    return 0;
}
