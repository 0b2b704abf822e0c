/* The bench image of document 01: its twelve cases, a round of the fault recorder and malformed calls, over
 * galitzaf.h. bench.stdout has what it prints.
 *
 *     packaging/archive
 *     cc -std=c11 -Iinclude examples/c/bench.c target/staticlib/libgalitzaf.a -o bench
 */
#include "galitzaf.h"

#include <inttypes.h>
#include <stdio.h>
#include <string.h>

#define IMAGE_SIZE 32768
#define SOURCE 0x0310

/* HAW 39, MGAW 48, levels 3 and 4, both large pages, posting; TE and IRE; S 3; tables at 1000h and 6000h. */
static const uint8_t registers[GALITZAF_REGISTERS_SIZE] = {
    39, 48, 0x3B, 0x03, 3, 0, 0, 0,
    0x00, 0x10, 0, 0, 0, 0, 0, 0,
    0x00, 0x60, 0, 0, 0, 0, 0, 0,
};

static const struct { size_t address; uint64_t word; } words[] = {
    {0x1030, 0x2001},     {0x2100, 0x3001},       {0x2108, 0x501},
    {0x3008, 0x4003},     {0x4008, 0x5003},       {0x4010, 0x40600083},
    {0x4018, 0x9003},     {0x4020, 0x8000000003}, {0x4028, 0x7003},
    {0x5008, 0x12345001}, {0x7FF8, 0x23456003},
    {0x6020, 0x0000070000410001}, {0x6028, 0x40310},
    {0x6040, 0x0000640000318001}, {0x6420, 0x0000070000F20000},
};

static uint8_t image[IMAGE_SIZE];
static uint8_t answer[GALITZAF_ANSWER_SIZE];
static uint8_t records[GALITZAF_RECORDS_SIZE];
static uint8_t recorder[GALITZAF_RECORDER_SIZE];

static uint64_t load(const uint8_t *bytes, size_t count)
{
    uint64_t number = 0;
    while (count-- > 0)
        number = number << 8 | bytes[count];
    return number;
}

static void store(uint8_t *bytes, uint64_t word)
{
    for (size_t i = 0; i < 8; i++)
        bytes[i] = (uint8_t)(word >> (8 * i));
}

static void print_record(const uint8_t *record)
{
    printf("%016" PRIX64 " %016" PRIX64, load(record, 8), load(record + 8, 8));
}

static void print_answer(uint32_t status)
{
    if (status != GALITZAF_OK) {
        printf("malformed call, %03" PRIX32 "\n", status);
        return;
    }
    switch (answer[GALITZAF_KIND]) {
    case GALITZAF_GRANTED:
        printf("granted %" PRIX64 "\n", load(answer + GALITZAF_HOST_ADDRESS, 8));
        break;
    case GALITZAF_BLOCKED:
        printf("fault %02X%s, record ", answer[GALITZAF_REASON], answer[GALITZAF_RECORDABLE] ? "" : " (not recordable)");
        print_record(answer + GALITZAF_RECORD);
        if (answer[GALITZAF_HAS_ENTRY])
            printf(", entry %" PRIX64, load(answer + GALITZAF_ENTRY, 8));
        printf("\n");
        break;
    case GALITZAF_REFUSED:
        printf("refused %d\n", answer[GALITZAF_REFUSAL]);
        break;
    case GALITZAF_PASSED:
        printf("passed\n");
        break;
    case GALITZAF_REMAPPED:
        printf("vector %02X, destination %" PRIX64 "\n", answer[GALITZAF_VECTOR], load(answer + GALITZAF_DESTINATION, 4));
        break;
    case GALITZAF_POSTED:
        printf("posted %02X to %" PRIX64, answer[GALITZAF_POSTED_VECTOR], load(answer + GALITZAF_DESCRIPTOR, 8));
        if (answer[GALITZAF_NOTIFIES])
            printf(", notification %02X to %" PRIX64, answer[GALITZAF_NOTIFICATION], load(answer + GALITZAF_DESTINATION, 4));
        printf("; byte 6406 is %d, byte 6420 is %d\n", image[0x6406], image[0x6420]);
        break;
    default:
        printf("unknown kind %d\n", answer[GALITZAF_KIND]);
    }
}

static void memory(uint16_t source, uint64_t address, uint8_t write, size_t image_size)
{
    const char *shorter = image_size < IMAGE_SIZE ? ", image one byte shorter" : "";
    printf("%04X %s %" PRIX64 "%s: ", source, write ? "write" : "read", address, shorter);
    print_answer(galitzaf_memory_request(registers, sizeof registers, GALITZAF_FLAT(image_size), image,
                                         image_size, source, address, write, answer, sizeof answer));
}

static void interrupt(uint16_t source, uint64_t address, uint32_t data)
{
    printf("%04X interrupt %" PRIX64 ", data %" PRIX32 ": ", source, address, data);
    print_answer(galitzaf_interrupt_request(registers, sizeof registers, GALITZAF_FLAT(sizeof image), image,
                                            sizeof image, source, address, data, answer, sizeof answer));
}

static void cases(void)
{
    static const struct { int number; uint16_t source; uint64_t address; uint8_t write; size_t cut; } asked[] = {
        {1, SOURCE, 0x40201ABC, 0, 0},   {2, SOURCE, 0x40201ABC, 1, 0},   {3, SOURCE, 0x40202000, 0, 0},
        {4, SOURCE, 0x40412345, 0, 0},   {5, SOURCE, 0x40600000, 0, 0},   {6, SOURCE, 0x40800000, 0, 0},
        {7, SOURCE, 0x40BFF000, 0, 0},   {7, SOURCE, 0x40BFF000, 0, 1},   {8, SOURCE, 0x7FFFFFFFFF, 0, 0},
        {8, SOURCE, 0x8000000000, 0, 0}, {9, 0x0410, 0x40201ABC, 0, 0},   {9, 0x0311, 0x40201ABC, 0, 0},
    };
    static const struct { int number; uint16_t source; uint64_t address; uint32_t data; } sent[] = {
        {10, SOURCE, 0xFEE00050, 0}, {10, 0x0311, 0xFEE00050, 0}, {11, SOURCE, 0xFEEFFFFC, 3},
        {12, SOURCE, 0xFEE00090, 0}, {12, SOURCE, 0xFEE00090, 0},
    };
    for (size_t i = 0; i < sizeof asked / sizeof asked[0]; i++) {
        printf("%2d. ", asked[i].number);
        memory(asked[i].source, asked[i].address, asked[i].write, IMAGE_SIZE - asked[i].cut);
    }
    for (size_t i = 0; i < sizeof sent / sizeof sent[0]; i++) {
        printf("%2d. ", sent[i].number);
        interrupt(sent[i].source, sent[i].address, sent[i].data);
    }
}

static const char *said(uint32_t status)
{
    switch (status) {
    case GALITZAF_REFUSED_3: return "refused 3";
    case GALITZAF_NO_FAULT: return "no fault";
    case GALITZAF_NOT_RECORDABLE: return "not recordable";
    case GALITZAF_DROPPED: return "dropped";
    case GALITZAF_OVERFLOWED: return "overflowed";
    case GALITZAF_WRITTEN: return "written";
    case GALITZAF_SLOT_CLEAR: return "was clear";
    case GALITZAF_SLOT_CLEARED: return "cleared";
    case GALITZAF_OVERFLOW_CLEAR: return "was clear";
    case GALITZAF_OVERFLOW_CLEARED: return "cleared";
    default: return "malformed call";
    }
}

static void record(size_t records_size)
{
    uint32_t status = galitzaf_record(answer, sizeof answer, records, records_size, recorder,
                                      sizeof recorder);
    printf("record: %s; next slot %d, overflow %d\n", said(status), recorder[0], recorder[1]);
}

static void clear_slot(uint8_t slot)
{
    uint32_t status = galitzaf_clear_slot(records, sizeof records, recorder, sizeof recorder, slot);
    printf("clear slot %d: %s\n", slot, said(status));
}

static void clear_overflow(void)
{
    uint32_t status = galitzaf_clear_overflow(records, sizeof records, recorder, sizeof recorder);
    printf("clear overflow: %s\n", said(status));
}

static void recorder_round(void)
{
    printf("recorder:\n");
    memory(SOURCE, 0x40201ABC, 0, IMAGE_SIZE);
    record(sizeof records);
    for (uint64_t page = 0; page < 10; page++) {
        memory(SOURCE, 0x40201ABC + 0x1000 * page, 1, IMAGE_SIZE);
        record(sizeof records);
    }
    clear_slot(0);
    clear_slot(0);
    clear_slot(8);
    record(sizeof records);
    clear_overflow();
    clear_overflow();
    record(sizeof records);
    record(sizeof records - 1);
    for (size_t slot = 0; slot < 8; slot++) {
        printf("slot %zu: ", slot);
        print_record(records + 16 * slot);
        printf("\n");
    }
}

/* Calls that no caller should make: each is answered, and changes nothing. */
static void malformed(void)
{
    uint8_t odd[GALITZAF_REGISTERS_SIZE];
    uint8_t no_answer[GALITZAF_ANSWER_SIZE] = {GALITZAF_NO_ANSWER};
    uint8_t bad_recorder[GALITZAF_RECORDER_SIZE] = {0, 2};

    printf("malformed:\n");
    memcpy(odd, registers, sizeof odd);
    odd[5] = 1;
    memset(answer, 0xAA, sizeof answer);
    printf("registers too short: %03" PRIX32 "\n",
           galitzaf_memory_request(registers, sizeof registers - 1, GALITZAF_FLAT(sizeof image), image,
                                   sizeof image, SOURCE, 0, 0, answer, sizeof answer));
    printf("registers with a bit that has to be zero: %03" PRIX32 "\n",
           galitzaf_interrupt_request(odd, sizeof odd, GALITZAF_FLAT(sizeof image), image, sizeof image,
                                      SOURCE, 0xFEE00090, 0, answer, sizeof answer));
    printf("answer too short: %03" PRIX32 "\n",
           galitzaf_interrupt_request(registers, sizeof registers, GALITZAF_FLAT(sizeof image), image,
                                      sizeof image, SOURCE, 0xFEE00090, 0, answer, sizeof answer - 1));
    printf("neither read nor write: %03" PRIX32 "\n",
           galitzaf_memory_request(registers, sizeof registers, GALITZAF_FLAT(sizeof image), image,
                                   sizeof image, SOURCE, 0, 2, answer, sizeof answer));
    printf("no request's answer: %03" PRIX32 "\n",
           galitzaf_record(no_answer, sizeof no_answer, records, sizeof records, recorder,
                           sizeof recorder));
    printf("overflow neither 0 nor 1: %03" PRIX32 "\n",
           galitzaf_clear_slot(records, sizeof records, bad_recorder, sizeof bad_recorder, 0));
    printf("recorder too short: %03" PRIX32 "\n",
           galitzaf_clear_overflow(records, sizeof records, recorder, sizeof recorder - 1));
    printf("answer bytes 0 and 31 are still %02X and %02X\n", answer[0], answer[31]);
}

int main(void)
{
    for (size_t i = 0; i < sizeof words / sizeof words[0]; i++)
        store(image + words[i].address, words[i].word);
    cases();
    recorder_round();
    malformed();
    return 0;
}
