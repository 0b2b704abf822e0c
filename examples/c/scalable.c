/* Scalable mode, over galitzaf.h: a device with two address spaces, PASID 1 translated by the first level and PASID 2
 * nested, by both levels. scalable.stdout has what it prints.
 *
 *     packaging/archive
 *     cc -std=c11 -Iinclude examples/c/scalable.c target/staticlib/libgalitzaf.a -o scalable
 */
#include "galitzaf.h"
#include "galitzaf_text.h"

#include <inttypes.h>
#include <stdio.h>

#define SOURCE 0x0310
#define CAPABILITIES (GALITZAF_FLTS | GALITZAF_SLTS | GALITZAF_NEST | GALITZAF_SLADS | GALITZAF_SMPWC)

static const uint8_t registers[GALITZAF_REGISTERS_SIZE] = {
    [GALITZAF_HAW] = 39,
    [GALITZAF_MGAW] = 48,
    [GALITZAF_SUPPORTED] = GALITZAF_LEVELS_4,
    [GALITZAF_SWITCHES] = GALITZAF_TE,
    [GALITZAF_ROOT_TABLE + 1] = 0x10, /* 1000h, little-endian */
};

static uint8_t image[0x20000];

/* Words by their host addresses. A table's address is in bits 63:12 of the entry that leads to it. */
static const struct { size_t at; uint64_t word; } words[] = {
    {0x1030, 0x2001},     /* root entry of bus 3: present, context table */
    {0x2200, 0x300D},     /* context entry of 03:02.0: present, DTE, PASIDE, PASID directory for 2^13 PASIDs */
    {0x3000, 0x4001},     /* directory entry of PASIDs 0 to 63: PASID table */
    {0x4040, 0x0041},     /* PASID 1: present, PGTT 1, first level; */
    {0x4048, 0x800000},   /*   PWSNP: walks are coherent, so that flags may be set; */
    {0x4050, 0x5000},     /*   4 levels, top table */
    {0x4080, 0x92C9},     /* PASID 2: present, AW 2, PGTT 3, nested, SLADE, the second level's top table; */
    {0x4088, 0x800000},   /*   PWSNP; */
    {0x4090, 0x5000},     /*   the first level's top table, at an intermediate address */
    {0x5000, 0x6007},     /* first level of 40201000h: 4 entries, present, R/W, U/S; the last maps host page 12345000h */
    {0x6008, 0x7007},
    {0x7008, 0x8007},
    {0x8008, 0x12345007},
    {0x9000, 0xA003},     /* second level: intermediate addresses 0 to 1FFFFFh ... */
    {0xA000, 0xB003},
    {0xB000, 0xC003},
    {0xB488, 0xD003},     /*   ... and 12200000h to 123FFFFFh */
    {0xC028, 0x5003},     /*   pages 5000h to 8000h, the first level's tables, are where they are */
    {0xC030, 0x6003},
    {0xC038, 0x7003},
    {0xC040, 0x8003},
    {0xDA28, 0x1E000001}, /*   page 12345000h is host page 1E000000h, and may be read alone */
};

static uint64_t load(const uint8_t *bytes)
{
    uint64_t number = 0;
    for (int n = 7; n >= 0; n--)
        number = number << 8 | bytes[n];
    return number;
}

static void ask(const char *what, uint64_t address, uint8_t kind, uint32_t pasid)
{
    uint8_t answer[GALITZAF_ANSWER_SIZE];
    uint32_t status = galitzaf_scalable_request(registers, sizeof registers, CAPABILITIES, GALITZAF_FLAT(sizeof image),
                                                image, sizeof image, SOURCE, address, kind, pasid, answer,
                                                sizeof answer);

    printf("%s %" PRIX64 ", PASID %" PRIX32 ": ", what, address, pasid);
    if (status != GALITZAF_OK) {
        printf("malformed call, %03" PRIX32 "\n", status);
    } else if (answer[GALITZAF_KIND] == GALITZAF_GRANTED) {
        printf("granted %" PRIX64 "\n", load(answer + GALITZAF_HOST_ADDRESS));
    } else if (answer[GALITZAF_KIND] == GALITZAF_BLOCKED) {
        char line[GALITZAF_FAULT_LINE_SIZE];
        galitzaf_fault_line(answer, sizeof answer, line, sizeof line);
        printf("%s\n", line);
    } else {
        printf("%s\n", galitzaf_refusal_text(answer[GALITZAF_REFUSAL]));
    }
}

/* A granted request sets flags in the entries that it went through. */
static void flags(void)
{
    printf("entries 8008: %" PRIX64 ", C040: %" PRIX64 ", DA28: %" PRIX64 "\n", load(image + 0x8008),
           load(image + 0xC040), load(image + 0xDA28));
}

int main(void)
{
    for (size_t i = 0; i < sizeof words / sizeof words[0]; i++)
        for (size_t n = 0; n < 8; n++)
            image[words[i].at + n] = (uint8_t)(words[i].word >> (8 * n));
    flags();
    ask("read", 0x40201ABC, GALITZAF_KIND_PASID, 1);
    flags();
    ask("write", 0x40201ABC, GALITZAF_KIND_PASID | GALITZAF_KIND_WRITE, 1);
    flags();
    ask("read", 0x40201ABC, GALITZAF_KIND_PASID, 2);
    flags();
    ask("write", 0x40201ABC, GALITZAF_KIND_PASID | GALITZAF_KIND_WRITE, 2);
    ask("read", 0x40201ABC, GALITZAF_KIND_PASID, 3);
    ask("read", 0x40201ABC, GALITZAF_KIND_PASID, 0x100000);
    return 0;
}
