/* A row of storm meters over galitzaf.h: three devices are counted in ticks, one of them storms, is tripped and
 * masked, and is let back once it is quiet. meters.stdout has what it prints.
 *
 *     packaging/archive
 *     cc -std=c11 -Iinclude examples/c/meters.c target/staticlib/libgalitzaf.a -o meters
 */
#include "galitzaf.h"

#include <inttypes.h>
#include <stdio.h>

enum { CAMERA, DISK, NETWORK, DEVICES };
#define TICKS 16

/* The camera's interrupts are never too many for this hypervisor. The disk storms above 2000. The network has a band: it
 * storms above 3000, and is silent below 1. */
static const uint8_t kinds[DEVICES] = {0, 1, 2};
static const double lows[DEVICES] = {0, 0, 1};
static const double highs[DEVICES] = {0, 2000, 3000};
static double loads[DEVICES];
static uint8_t tripped[DEVICES];

/* What each device raises in each tick. The disk storms from tick 5 to tick 7. */
static uint32_t raised(int device, int tick)
{
    if (device == CAMERA)
        return 30;
    if (device == DISK)
        return tick >= 5 && tick <= 7 ? 40000 : 100;
    return tick == 3 ? 2500 : 600;
}

static void print_row(int tick, const uint32_t *counts, const int *masked)
{
    printf("tick %2d", tick);
    for (int i = 0; i < DEVICES; i++)
        printf(" | %5" PRIu32 "%c %9.3f %u", counts[i], masked[i] ? '*' : ' ', loads[i], tripped[i]);
    printf("\n");
}

static uint32_t tick(const uint32_t *counts, size_t counts_len)
{
    return galitzaf_tick_meters(kinds, DEVICES, lows, DEVICES, highs, DEVICES, loads, DEVICES,
                                counts, counts_len, tripped, DEVICES);
}

int main(void)
{
    int masked[DEVICES] = {0};
    uint32_t counts[DEVICES];

    printf("        | camera             | disk               | network\n");
    printf("        | count (* masked), load, and 1 where the meter tripped\n");
    galitzaf_reset_meters(loads, DEVICES);
    for (int t = 1; t <= TICKS; t++) {
        /* The interrupts of a masked device aren't let in and so aren't counted: its load halves. */
        for (int i = 0; i < DEVICES; i++)
            counts[i] = masked[i] ? 0 : raised(i, t);
        if (tick(counts, DEVICES) != GALITZAF_OK)
            return 1;
        print_row(t, counts, masked);
        for (int i = 0; i < DEVICES; i++)
            masked[i] = tripped[i] && loads[i] > highs[i];
    }

    /* A tick that is refused leaves loads and bytes as they came. */
    counts[NETWORK] = 65536;
    printf("a count of 65,536: %02" PRIX32 "\n", tick(counts, DEVICES));
    counts[NETWORK] = 600;
    printf("two counts for three meters: %02" PRIX32 "\n", tick(counts, DEVICES - 1));
    printf("the disk's load is still %.3f\n", loads[DISK]);

    galitzaf_reset_meters(loads, DEVICES);
    printf("after a reset: %.1f %.1f %.1f\n", loads[CAMERA], loads[DISK], loads[NETWORK]);
    counts[NETWORK] = 0;
    if (tick(counts, DEVICES) != GALITZAF_OK)
        return 1;
    printf("a network that is silent then is %s\n", tripped[NETWORK] ? "tripped: it is under its band" : "not tripped");
    return 0;
}
