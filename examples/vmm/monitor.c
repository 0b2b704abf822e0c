/* A small virtual machine monitor's side of the unit. The guest has 32 KiB of memory at 0 and 32 KiB at 4 GiB, with a hole
 * between them; the monitor holds both as one run of mmap'd bytes. The guest's driver writes tables into its memory and
 * programs the unit by MMIO; a device then reads, writes and interrupts.
 *
 *     cc -std=c11 examples/vmm/monitor.c $(pkg-config --cflags --libs galitzaf) -o monitor
 */
#define _DEFAULT_SOURCE
#include <galitzaf.h>
#include <galitzaf_text.h>

#include <inttypes.h>
#include <stdio.h>
#include <string.h>
#include <sys/mman.h>

#define HIGH UINT64_C(0x100000000) /* where the guest's memory goes on */
#define DEVICE 0x0310              /* 03:02.0 */

enum { LOW_SIZE = 0x8000, HIGH_SIZE = 0x8000, RUN_SIZE = LOW_SIZE + HIGH_SIZE, PAGE = 4096 };

/* ---- Guest memory ---- */

static uint8_t *run;
static const struct galitzaf_window windows[] = {{0, 0, LOW_SIZE}, {HIGH, LOW_SIZE, HIGH_SIZE}};
#define MEMORY GALITZAF_WINDOWS(windows, 2), run, RUN_SIZE

/* The bytes at a guest physical address, or none where they don't lie whole in a window. */
static uint8_t *at(uint64_t address, uint64_t length)
{
    for (size_t i = 0; i < 2; i++) {
        const struct galitzaf_window *w = &windows[i];
        if (address >= w->start && length <= w->length && address - w->start <= w->length - length)
            return run + w->offset + (address - w->start);
    }
    return NULL;
}

static void store(uint64_t address, uint64_t word)
{
    uint8_t *to = at(address, 8);
    for (int i = 0; to && i < 8; i++)
        to[i] = (uint8_t)(word >> (8 * i));
}

static uint64_t load(const uint8_t *bytes, int size)
{
    uint64_t value = 0;
    while (size-- > 0)
        value = value << 8 | bytes[size];
    return value;
}

/* ---- The unit's registers, as the guest sees them by MMIO ---- */

enum { GCMD = 0x18, RTADDR = 0x20, IRTA = 0xB8 };
#define TE (UINT32_C(1) << 31)
#define SRTP (UINT32_C(1) << 30)
#define IRE (UINT32_C(1) << 25)
#define SIRTP (UINT32_C(1) << 24)
#define CFI (UINT32_C(1) << 23)

static uint64_t rtaddr, irta;
static uint8_t registers[GALITZAF_REGISTERS_SIZE] = {
    [GALITZAF_HAW] = 39,
    [GALITZAF_MGAW] = 48,
    [GALITZAF_SUPPORTED] = GALITZAF_LEVELS_3 | GALITZAF_LEVELS_4 | GALITZAF_PAGES_2M | GALITZAF_PAGES_1G | GALITZAF_POSTING,
};

static void set_address(int byte, uint64_t address)
{
    for (int i = 0; i < 8; i++)
        registers[byte + i] = (uint8_t)(address >> (8 * i));
}

/* A table's address counts from the command that sets it, as VT-d has it. The switches are the command's. */
static void command(uint32_t bits)
{
    int eime = registers[GALITZAF_SWITCHES] & GALITZAF_EIME;
    if (bits & SRTP)
        set_address(GALITZAF_ROOT_TABLE, rtaddr & ~UINT64_C(0xFFF));
    if (bits & SIRTP) {
        set_address(GALITZAF_INTERRUPT_TABLE, irta & ~UINT64_C(0xFFF));
        registers[GALITZAF_S] = irta & 0xF;
        eime = irta >> 11 & 1 ? GALITZAF_EIME : 0;
    }
    registers[GALITZAF_SWITCHES] = (uint8_t)((bits & TE ? GALITZAF_TE : 0) | (bits & IRE ? GALITZAF_IRE : 0) | eime |
                                             (bits & CFI ? GALITZAF_CFIS : 0));
}

static void mmio_write(int offset, uint64_t value)
{
    switch (offset) {
    case RTADDR: rtaddr = value; break;
    case IRTA: irta = value; break;
    case GCMD: command((uint32_t)value); break;
    }
}

/* ---- Faults: recorded for the guest, and told ---- */

static uint8_t answer[GALITZAF_ANSWER_SIZE];
static uint8_t records[GALITZAF_RECORDS_SIZE], recorder[GALITZAF_RECORDER_SIZE];

/* Refusal 1 is told with what it is for. */
static void refused(void)
{
    printf("  refused: %s", galitzaf_refusal_text(answer[GALITZAF_REFUSAL]));
    if (answer[GALITZAF_REFUSAL] == GALITZAF_REFUSAL_BAD_REGISTERS)
        printf(" (%s)", galitzaf_first_bad_text(galitzaf_first_bad(registers, sizeof registers, GALITZAF_WINDOWS(windows, 2),
                                                                   RUN_SIZE)));
    puts("");
}

static void not_granted(void)
{
    char line[GALITZAF_FAULT_LINE_SIZE];
    if (answer[GALITZAF_KIND] == GALITZAF_REFUSED) {
        refused(); /* no fault: drop the request, and log it */
        return;
    }
    galitzaf_fault_line(answer, sizeof answer, line, sizeof line);
    uint32_t status = galitzaf_record(answer, sizeof answer, records, sizeof records, recorder, sizeof recorder);
    printf("  %s: %s\n", line, status == GALITZAF_WRITTEN ? "recorded" : "not recorded");
}

/* The guest's fault handler: what stands, then cleared. */
static void read_faults(void)
{
    for (uint8_t slot = 0; slot < sizeof records / 16; slot++) {
        const uint8_t *record = records + 16 * slot;
        if (record[15] & 0x80) {
            printf("  slot %d: reason %02X, source %04X, page %" PRIX64 "\n", slot, record[12], (unsigned)load(record + 8, 2),
                   load(record, 8));
            if (galitzaf_clear_slot(records, sizeof records, recorder, sizeof recorder, slot) != GALITZAF_SLOT_CLEARED)
                puts("  not cleared");
        }
    }
}

/* ---- The device ---- */

/* A device's access to guest memory, a page at a time: that is as far as one answer reaches. Stops at the first piece that
 * isn't granted, and says how much was done. */
static size_t dma(uint64_t address, uint8_t *data, size_t length, uint8_t write)
{
    size_t done = 0;
    while (done < length) {
        size_t piece = PAGE - (address + done) % PAGE;
        if (piece > length - done)
            piece = length - done;
        uint32_t status = galitzaf_memory_request(registers, sizeof registers, MEMORY, DEVICE, address + done, write, answer,
                                                  sizeof answer);
        if (status != GALITZAF_OK || answer[GALITZAF_KIND] != GALITZAF_GRANTED) {
            not_granted();
            break;
        }
        uint64_t host = load(answer + GALITZAF_HOST_ADDRESS, 8);
        uint8_t *bytes = at(host, piece);
        printf("  %zu bytes at %" PRIX64 "%s\n", piece, host, bytes ? "" : ", where the guest has no memory");
        if (bytes)
            memcpy(write ? bytes : data + done, write ? data + done : bytes, piece);
        done += piece;
    }
    return done;
}

/* A processor that was notified takes what was posted. */
static void take_all(uint64_t descriptor)
{
    uint32_t status;
    while ((status = galitzaf_take(registers, sizeof registers, MEMORY, descriptor)) >= GALITZAF_TAKEN)
        printf("  taken: vector %02" PRIX32 "\n", status - GALITZAF_TAKEN);
}

static void interrupt(uint64_t address, uint32_t data)
{
    uint32_t status = galitzaf_interrupt_request(registers, sizeof registers, MEMORY, DEVICE, address, data, answer,
                                                 sizeof answer);
    switch (status == GALITZAF_OK ? answer[GALITZAF_KIND] : GALITZAF_NO_ANSWER) {
    case GALITZAF_PASSED:
        printf("  passed: vector %02" PRIX32 "\n", data & 0xFF);
        break;
    case GALITZAF_REMAPPED:
        printf("  remapped: vector %02X to %" PRIX64 "\n", answer[GALITZAF_VECTOR], load(answer + GALITZAF_DESTINATION, 4));
        break;
    case GALITZAF_POSTED:
        printf("  posted: vector %02X%s\n", answer[GALITZAF_POSTED_VECTOR],
               answer[GALITZAF_NOTIFIES] ? ", processor notified" : "");
        break;
    default:
        not_granted();
    }
}

/* ---- The guest's driver ---- */

#define ROOT_TABLE HIGH
#define CONTEXT_TABLE (HIGH + 0x1000)
#define INTERRUPT_TABLE (HIGH + 0x2000)
#define DESCRIPTOR UINT64_C(0x5000)

/* Device addresses 10000h and 11000h are a page below the hole and one above it; 12000h may be read alone. */
static void write_tables(void)
{
    store(ROOT_TABLE + 16 * 0x03, CONTEXT_TABLE | 1);
    store(CONTEXT_TABLE + 16 * 0x10, 0x1000 | 1);
    store(CONTEXT_TABLE + 16 * 0x10 + 8, 0x101); /* domain 1, 3 levels */
    store(0x1000, 0x2000 | 3);
    store(0x2000, 0x3000 | 3);
    store(0x3000 + 8 * 0x10, 0x4000 | 3);
    store(0x3000 + 8 * 0x11, (HIGH + 0x3000) | 3);
    store(0x3000 + 8 * 0x12, (HIGH + 0x4000) | 1);

    store(INTERRUPT_TABLE + 16 * 2, UINT64_C(0x0000070000410001)); /* vector 41 to APIC 7 */
    store(INTERRUPT_TABLE + 16 * 2 + 8, 0x40000 | DEVICE);         /* from that device alone */
    store(INTERRUPT_TABLE + 16 * 4, DESCRIPTOR << 32 | 0x318001);  /* vector 31, posted */
    store(DESCRIPTOR + 0x20, UINT64_C(0x0000070000F20000));        /* notification F2 to APIC 7 */
}

static void program_unit(void)
{
    mmio_write(RTADDR, ROOT_TABLE);
    mmio_write(IRTA, INTERRUPT_TABLE | 3);
    mmio_write(GCMD, SRTP | SIRTP);
    mmio_write(GCMD, TE | IRE);
}

int main(void)
{
    uint8_t data[6000], back[6000];

    run = mmap(NULL, RUN_SIZE, PROT_READ | PROT_WRITE, MAP_PRIVATE | MAP_ANONYMOUS, -1, 0);
    if (run == MAP_FAILED)
        return 1;
    for (size_t i = 0; i < sizeof data; i++)
        data[i] = (uint8_t)(i * 7);

    puts("before the guest programs the unit, an interrupt:");
    interrupt(0xFEE00000, 0x52);
    write_tables();
    program_unit();

    puts("the device writes 6000 bytes from 10100h on, and reads them:");
    dma(0x10100, data, sizeof data, 1);
    dma(0x10100, back, sizeof back, 0);
    puts(memcmp(data, back, sizeof data) == 0 ? "  the same bytes" : "  other bytes");
    puts("it writes 4096 bytes from 11800h on:");
    printf("  %zu bytes done\n", dma(0x11800, data, 4096, 1));
    puts("it reads where nothing is mapped, and where interrupts are:");
    dma(0x13000, back, 16, 0);
    dma(0xFEE00000, back, 16, 0);
    puts("the guest's fault handler:");
    read_faults();

    puts("interrupts 2, 4, 4 and 5:");
    interrupt(0xFEE00050, 0);
    interrupt(0xFEE00090, 0);
    interrupt(0xFEE00090, 0);
    interrupt(0xFEE000B0, 0);
    puts("the processor:");
    take_all(DESCRIPTOR);

    puts("the guest puts its root table beyond 2^HAW:");
    mmio_write(RTADDR, UINT64_C(1) << 39);
    mmio_write(GCMD, SRTP | TE | IRE);
    dma(0x10000, back, 16, 0);
    return 0;
}
