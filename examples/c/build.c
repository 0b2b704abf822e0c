/* Page tables built in a region of guest memory, over galitzaf.h: pages mapped, a list refused whole, pages unmapped, and
 * what is mapped after each, in words of galitzaf_text.h. build.stdout has what it prints.
 *
 *     packaging/archive
 *     cc -std=c11 -Iinclude examples/c/build.c target/staticlib/libgalitzaf.a -o build
 */
#include "galitzaf_text.h"

#include <inttypes.h>
#include <stdio.h>

#define SOURCE 0x0310
#define REGION 0x3000
#define REGION_SIZE 0x4000

/* HAW 39, MGAW 48, 3 levels, 2 MiB pages; TE; root table at 1000h, interrupt table at 7000h. */
static const uint8_t registers[GALITZAF_REGISTERS_SIZE] = {
    39, 48, GALITZAF_LEVELS_3 | GALITZAF_PAGES_2M, GALITZAF_TE, 3, 0, 0, 0,
    0x00, 0x10, 0, 0, 0, 0, 0, 0,
    0x00, 0x70, 0, 0, 0, 0, 0, 0,
};

/* Root and context entry; the top table is the region's first page, all zero. */
static uint8_t image[0x8000] = {
    [0x1030] = 0x01, [0x1031] = 0x20,                   /* bus 3: context table at 2000h */
    [0x2100] = 0x01, [0x2101] = 0x30, [0x2108] = 0x01,  /* 02.0: 3 levels from 3000h */
};

static void build(const char *what, const struct galitzaf_item *items, size_t count)
{
    static uint8_t copy[REGION_SIZE], marks[GALITZAF_MARKS(REGION_SIZE)];
    uint64_t item = 0;
    uint32_t status = galitzaf_build(registers, sizeof registers, GALITZAF_FLAT(sizeof image), image, sizeof image,
                                     SOURCE, REGION, REGION_SIZE, GALITZAF_ITEMS(items, count), copy, sizeof copy,
                                     marks, sizeof marks, &item, 1);
    if (status == GALITZAF_OK)
        printf("%s: done\n", what);
    else if (status >= GALITZAF_ITEM_SIZE && status <= GALITZAF_ITEM_NOT_MAPPED)
        printf("%s: item %" PRIu64 " is refused, %s\n", what, item, galitzaf_build_text(status));
    else
        printf("%s: refused, %s\n", what, galitzaf_build_text(status));
}

static void list(void)
{
    static uint64_t known[GALITZAF_KNOWN(sizeof image)], spans[4 * 16];
    uint32_t status = galitzaf_list_spans(registers, sizeof registers, GALITZAF_FLAT(sizeof image), image, sizeof image,
                                          SOURCE, known, sizeof known / sizeof *known, spans, sizeof spans / sizeof *spans);
    for (uint32_t n = 0; status >= GALITZAF_LISTED && n < status - GALITZAF_LISTED; n++)
        printf("  %" PRIX64 " %" PRIX64 " %" PRIX64 " %c%c\n", spans[4 * n], spans[4 * n + 1], spans[4 * n + 2],
               spans[4 * n + 3] & 1 ? 'R' : '-', spans[4 * n + 3] & 2 ? 'W' : '-');
}

int main(void)
{
    const struct galitzaf_item pages[] = {
        {GALITZAF_MAP_READ, 0x40201000, 0x1000, 0x12345000},
        {GALITZAF_MAP_READ | GALITZAF_MAP_WRITE, 0x40400000, 0x200000, 0x40600000},
        {GALITZAF_MAP_READ | GALITZAF_MAP_WRITE, 0x40BFF000, 0x1000, 0x23456000},
    };
    build("three pages", pages, 3);
    list();

    /* The region's four pages are tables now. */
    const struct galitzaf_item more[] = {
        {GALITZAF_UNMAP, 0x40400000, 0x200000, 0},
        {GALITZAF_MAP_READ, 0x80000000, 0x1000, 0x12346000},
    };
    build("one for another", more, 2);
    list();

    const struct galitzaf_item other[] = {
        {GALITZAF_UNMAP, 0x40201000, 0x1000, 0},
        {GALITZAF_UNMAP, 0x40BFF000, 0x1000, 0},
        {GALITZAF_MAP_READ, 0x80000000, 0x1000, 0x12346000},
    };
    build("two tables emptied, two made", other, 3);
    list();

    build("the interrupt range", (const struct galitzaf_item[]){{GALITZAF_MAP_READ, 0xFEE00000, 0x1000, 0}}, 1);
    return 0;
}
