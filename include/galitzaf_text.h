/* Faults and refusals in words. A fault is told in the style of Linux's log:
 *
 *   [DMA Write] Request device [03:02.0] fault addr 40201000 [fault reason 05h] write permission missing, entry 5008
 *   [DMA Translation] Request device [03:02.0] fault addr 40201000 [fault reason 0Dh] translation request blocked, entry 2100
 *   [INTR-REMAP] Request device [03:02.0] fault index 1F [fault reason 22h] interrupt entry not present, entry 61F0
 *
 * The address is that of the page, and entry the host address of the entry concerned, where there is one. Written in C
 * over galitzaf.h's layout of an answer; not a part of what is proved. Needs no C library.
 */
#ifndef GALITZAF_TEXT_H
#define GALITZAF_TEXT_H

#include "galitzaf.h"

#ifdef __cplusplus
extern "C" {
#endif

/* Every line fits, with its NUL. */
#define GALITZAF_FAULT_LINE_SIZE 160

/* A fault reason in words. */
static inline const char *galitzaf_reason_text(uint8_t reason)
{
    switch (reason) {
    case GALITZAF_REASON_ROOT_NOT_PRESENT: return "root entry not present";
    case GALITZAF_REASON_CONTEXT_NOT_PRESENT: return "context entry not present";
    case GALITZAF_REASON_CONTEXT_INVALID: return "context entry invalid";
    case GALITZAF_REASON_ADDRESS_OVERFLOW: return "address beyond guest width";
    case GALITZAF_REASON_WRITE_DENIED: return "write permission missing";
    case GALITZAF_REASON_READ_DENIED: return "read permission missing";
    case GALITZAF_REASON_PAGE_ENTRY_ACCESS: return "page entry not fetched";
    case GALITZAF_REASON_ROOT_ACCESS: return "root entry not fetched";
    case GALITZAF_REASON_CONTEXT_ACCESS: return "context entry not fetched";
    case GALITZAF_REASON_ROOT_RESERVED: return "reserved bit set in root entry";
    case GALITZAF_REASON_CONTEXT_RESERVED: return "reserved bit set in context entry";
    case GALITZAF_REASON_PAGE_ENTRY_RESERVED: return "reserved bit set in page entry";
    case GALITZAF_REASON_TRANSLATION_BLOCKED: return "translation request blocked";
    case GALITZAF_REASON_REQUEST_RESERVED: return "reserved bit set in interrupt request";
    case GALITZAF_REASON_INDEX_OUT_OF_RANGE: return "interrupt index out of range";
    case GALITZAF_REASON_IRTE_NOT_PRESENT: return "interrupt entry not present";
    case GALITZAF_REASON_IRTE_ACCESS: return "interrupt entry not fetched";
    case GALITZAF_REASON_IRTE_RESERVED: return "reserved bit set in interrupt entry";
    case GALITZAF_REASON_COMPATIBILITY_BLOCKED: return "compatibility format interrupt blocked";
    case GALITZAF_REASON_SOURCE_REJECTED: return "interrupt source rejected";
    case GALITZAF_REASON_DESCRIPTOR_ACCESS: return "posted descriptor not fetched";
    case GALITZAF_REASON_DESCRIPTOR_RESERVED: return "reserved bit set in posted descriptor";
    case GALITZAF_REASON_SCALABLE_ROOT_ACCESS: return "scalable root entry not fetched";
    case GALITZAF_REASON_SCALABLE_ROOT_NOT_PRESENT: return "scalable root entry not present";
    case GALITZAF_REASON_SCALABLE_ROOT_RESERVED: return "reserved bit set in scalable root entry";
    case GALITZAF_REASON_SCALABLE_CONTEXT_ACCESS: return "scalable context entry not fetched";
    case GALITZAF_REASON_SCALABLE_CONTEXT_NOT_PRESENT: return "scalable context entry not present";
    case GALITZAF_REASON_SCALABLE_CONTEXT_RESERVED: return "reserved bit set in scalable context entry";
    case GALITZAF_REASON_SCALABLE_CONTEXT_INVALID: return "scalable context entry invalid";
    case GALITZAF_REASON_SCALABLE_PASID_DISABLED: return "request with PASID disabled";
    case GALITZAF_REASON_SCALABLE_PASID_OUT_OF_RANGE: return "PASID beyond directory";
    case GALITZAF_REASON_SCALABLE_DIRECTORY_ACCESS: return "PASID directory entry not fetched";
    case GALITZAF_REASON_SCALABLE_DIRECTORY_NOT_PRESENT: return "PASID directory entry not present";
    case GALITZAF_REASON_SCALABLE_DIRECTORY_RESERVED: return "reserved bit set in PASID directory entry";
    case GALITZAF_REASON_SCALABLE_TABLE_ACCESS: return "PASID table entry not fetched";
    case GALITZAF_REASON_SCALABLE_TABLE_NOT_PRESENT: return "PASID table entry not present";
    case GALITZAF_REASON_SCALABLE_TABLE_RESERVED: return "reserved bit set in PASID table entry";
    case GALITZAF_REASON_SCALABLE_TABLE_INVALID: return "PASID table entry invalid";
    case GALITZAF_REASON_SCALABLE_SUPERVISOR_DENIED: return "supervisor request denied";
    case GALITZAF_REASON_SCALABLE_FIRST_LEVEL_ACCESS: return "first-level entry not fetched";
    case GALITZAF_REASON_SCALABLE_FIRST_LEVEL_NOT_PRESENT: return "first-level entry not present";
    case GALITZAF_REASON_SCALABLE_FIRST_LEVEL_RESERVED: return "reserved bit set in first-level entry";
    case GALITZAF_REASON_SCALABLE_FIRST_LEVEL_TOP_ACCESS: return "top first-level entry not fetched";
    case GALITZAF_REASON_SCALABLE_INTERMEDIATE_OVERFLOW: return "intermediate address beyond guest width";
    case GALITZAF_REASON_SCALABLE_SECOND_LEVEL_ACCESS: return "second-level entry not fetched";
    case GALITZAF_REASON_SCALABLE_SECOND_LEVEL_NOT_PRESENT: return "second-level entry without rights";
    case GALITZAF_REASON_SCALABLE_SECOND_LEVEL_RESERVED: return "reserved bit set in second-level entry";
    case GALITZAF_REASON_SCALABLE_SECOND_LEVEL_TOP_ACCESS: return "top second-level entry not fetched";
    case GALITZAF_REASON_SCALABLE_FLAGS_NOT_SNOOPED: return "flag to set in a walk not snooped";
    case GALITZAF_REASON_SCALABLE_NOT_CANONICAL: return "address not canonical";
    case GALITZAF_REASON_SCALABLE_USER_DENIED: return "user access denied";
    case GALITZAF_REASON_SCALABLE_ADDRESS_OVERFLOW: return "address beyond second-level width";
    case GALITZAF_REASON_SCALABLE_WRITE_DENIED: return "write permission missing in scalable mode";
    case GALITZAF_REASON_SCALABLE_READ_DENIED: return "read permission missing in scalable mode";
    default: return "unknown reason";
    }
}

/* A refusal in words: of an answer's byte, or of the recorder and takes. */
static inline const char *galitzaf_refusal_text(uint32_t refusal)
{
    switch (refusal) {
    case GALITZAF_REFUSAL_BAD_REGISTERS: return "bad registers or windows";
    case GALITZAF_REFUSAL_WRONG_ADDRESS: return "address of the wrong kind";
    case GALITZAF_REFUSED_3: return "bad recorder, record buffer or slot";
    case GALITZAF_REFUSAL_PAGE_IN_INTERRUPT_RANGE: return "page in the interrupt range";
    case GALITZAF_REFUSED_5: return "descriptor misaligned or outside memory";
    case GALITZAF_REFUSAL_PASID_TOO_WIDE: return "PASID of more than 20 bits";
    default: return "unknown refusal";
    }
}

/* What refusal 1 is for, in words, from the answer of galitzaf_first_bad; a window without its place. */
static inline const char *galitzaf_first_bad_text(uint32_t first_bad)
{
    switch (first_bad) {
    case GALITZAF_NONE_BAD: return "none";
    case GALITZAF_FIRST_BAD_HAW: return "HAW";
    case GALITZAF_FIRST_BAD_MGAW: return "MGAW";
    case GALITZAF_FIRST_BAD_LEVELS: return "levels";
    case GALITZAF_FIRST_BAD_ROOT_TABLE: return "root table";
    case GALITZAF_FIRST_BAD_INTERRUPT_TABLE: return "interrupt table";
    case GALITZAF_FIRST_BAD_S: return "S";
    default:
        return first_bad >= GALITZAF_FIRST_BAD_WINDOW && first_bad <= GALITZAF_FIRST_BAD_WINDOW + 4 ? "window" : "malformed";
    }
}

/* Why a list of pages was refused, in words, from the answer of galitzaf_build; the item without its index. */
static inline const char *galitzaf_build_text(uint32_t status)
{
    switch (status) {
    case GALITZAF_OK: return "done";
    case GALITZAF_REFUSED_1: return "bad registers or windows";
    case GALITZAF_BUILD_TE_OFF: return "translation is off";
    case GALITZAF_BUILD_CONTEXT: return "the context doesn't translate";
    case GALITZAF_BUILD_REGION: return "bad region";
    case GALITZAF_BUILD_TABLES: return "the tables aren't as built here";
    case GALITZAF_BUILD_BUFFERS: return "buffers that don't fit the region";
    case GALITZAF_ITEM_SIZE: return "bad or unsupported size";
    case GALITZAF_ITEM_ALIGNMENT: return "bad alignment";
    case GALITZAF_ITEM_PLACE: return "bad place";
    case GALITZAF_ITEM_RIGHTS: return "no rights";
    case GALITZAF_ITEM_FRAME: return "bad frame";
    case GALITZAF_ITEM_OVERLAP: return "overlap with a mapped page";
    case GALITZAF_ITEM_PAGES: return "too few free pages";
    case GALITZAF_ITEM_NOT_MAPPED: return "no such page is mapped";
    default: return "malformed";
    }
}

/* A line being written: length counts also what had no room. */
struct galitzaf_line {
    char *text;
    size_t size;
    size_t length;
};

static inline void galitzaf_line_text(struct galitzaf_line *line, const char *text)
{
    for (; *text != '\0'; text++, line->length++)
        if (line->length + 1 < line->size)
            line->text[line->length] = *text;
}

/* At least so many hexadecimal digits. */
static inline void galitzaf_line_hex(struct galitzaf_line *line, uint64_t number, int least, const char *digits)
{
    char text[17];
    int at = 16;

    text[16] = '\0';
    while (at > 16 - least || number != 0) {
        text[--at] = digits[number % 16];
        number /= 16;
    }
    galitzaf_line_text(line, text + at);
}

static inline uint64_t galitzaf_line_word(const uint8_t *bytes, int count)
{
    uint64_t word = 0;

    while (count-- > 0)
        word = word << 8 | bytes[count];
    return word;
}

/* The line of a BLOCKED answer into a lent buffer, as snprintf does it: never past text_len, with a NUL at the end where
 * text_len isn't 0; back comes the whole line's length without the NUL. Any other answer makes an empty line. */
static inline size_t galitzaf_fault_line(const uint8_t *answer, size_t answer_len, char *text, size_t text_len)
{
    struct galitzaf_line line = {text, text_len, 0};
    const char *lower = "0123456789abcdef";
    const char *upper = "0123456789ABCDEF";

    if (answer_len == GALITZAF_ANSWER_SIZE && answer[GALITZAF_KIND] == GALITZAF_BLOCKED) {
        const uint8_t *record = answer + GALITZAF_RECORD;
        uint8_t reason = answer[GALITZAF_REASON];
        int interrupt = reason >= 0x20 && reason < 0x30;

        galitzaf_line_text(&line, interrupt ? "[INTR-REMAP]"
                                  : (record[15] & 0x30) == 0x10 ? "[DMA Translation]"
                                  : record[15] & 0x40 ? "[DMA Read]" : "[DMA Write]");
        galitzaf_line_text(&line, " Request device [");
        galitzaf_line_hex(&line, record[9], 2, lower);
        galitzaf_line_text(&line, ":");
        galitzaf_line_hex(&line, record[8] >> 3, 2, lower);
        galitzaf_line_text(&line, ".");
        galitzaf_line_hex(&line, record[8] & 7, 1, lower);
        galitzaf_line_text(&line, interrupt ? "] fault index " : "] fault addr ");
        if (interrupt)
            galitzaf_line_hex(&line, galitzaf_line_word(record + 6, 2), 1, upper);
        else
            galitzaf_line_hex(&line, galitzaf_line_word(record, 8) / 4096 * 4096, 1, upper);
        galitzaf_line_text(&line, " [fault reason ");
        galitzaf_line_hex(&line, reason, 2, upper);
        galitzaf_line_text(&line, "h] ");
        galitzaf_line_text(&line, galitzaf_reason_text(reason));
        if (answer[GALITZAF_HAS_ENTRY] == 1) {
            galitzaf_line_text(&line, ", entry ");
            galitzaf_line_hex(&line, galitzaf_line_word(answer + GALITZAF_ENTRY, 8), 1, upper);
        }
    }
    if (text_len > 0)
        text[line.length < text_len ? line.length : text_len - 1] = '\0';
    return line.length;
}

#ifdef __cplusplus
}
#endif

#endif
