/* Galitzaf: Intel's VT-d remapping unit in software, proved.
 *
 * Link with target/staticlib/libgalitzaf.a, which `packaging/archive` makes. No function allocates, blocks,
 * keeps a pointer or reads anything but its arguments, and each may be called from any thread. Every
 * length is checked: a call with a malformed argument answers GALITZAF_BAD_... and changes nothing; records
 * and a recorder's state of another length are GALITZAF_REFUSED_3.
 *
 * What a call assumes:
 *
 * - Pointers are not null, and each has as many elements behind it as its length says; a length of 0 may
 *   come with any such pointer. Buffers of one call don't overlap where one of them is written.
 * - Bytes need no alignment: registers, answers, records, traces and guest memory may begin anywhere. Arrays of
 *   numbers, such as windows and what meters take, are aligned as C has it for their type.
 * - Nobody else changes what is lent, guest memory among it, while the call runs, and nobody reads what it
 *   writes. Stop the virtual processors and devices that share this memory, or keep them off it by a lock.
 * - So a post is no atomic operation, and neither is a take: each reads and writes plain bytes.
 * - The caller is a program of an operating system. The archive's code keeps data below the stack pointer
 *   (the red zone of the System V ABI), which an interrupt on the same stack would overwrite: don't link it
 *   into a kernel or into firmware.
 */
#ifndef GALITZAF_H
#define GALITZAF_H

#include <stddef.h>
#include <stdint.h>

#ifdef __cplusplus
extern "C" {
#endif

/* The version. Before 1.0 a minor version may change the interface. */
#define GALITZAF_VERSION_MAJOR 0
#define GALITZAF_VERSION_MINOR 1
#define GALITZAF_VERSION_PATCH 0
#define GALITZAF_VERSION "0.1.0"

/* Stands before a call whose answer has to be looked at: the compiler warns where it isn't. */
#ifndef GALITZAF_CHECK
#if defined(__GNUC__) || defined(__clang__)
#define GALITZAF_CHECK __attribute__((warn_unused_result))
#else
#define GALITZAF_CHECK
#endif
#endif

/* Registers: 24 bytes, numbers little-endian.
 *
 *   byte 0       HAW, host address width
 *   byte 1       MGAW, guest address width
 *   byte 2       supported: bits 0, 1, 2 for 3, 4, 5 levels; bit 3 for 2 MiB and bit 4 for 1 GiB pages;
 *                bit 5 for posting; bits 7:6 zero
 *   byte 3       switches: bit 0 TE, bit 1 IRE, bit 2 EIME, bit 3 CFIS; bits 7:4 zero
 *   byte 4       S, the interrupt table has 2^(S+1) entries
 *   bytes 7:5    zero
 *   bytes 15:8   root table address
 *   bytes 23:16  interrupt remapping table address
 *
 * A value out of VT-d's range (HAW 35, say) is refusal 1 and not a malformed buffer: HAW is 36 to 52, MGAW 39 to 57,
 * at least one number of levels is supported, both tables are multiples of 4096 below 2^HAW, and S is 0 to 15. A guest
 * that writes the address of a table can bring refusal 1 about; galitzaf_first_bad names the register.
 */
#define GALITZAF_REGISTERS_SIZE 24
#define GALITZAF_HAW 0
#define GALITZAF_MGAW 1
#define GALITZAF_SUPPORTED 2
#define GALITZAF_SWITCHES 3
#define GALITZAF_S 4
#define GALITZAF_ROOT_TABLE 8       /* 8 bytes */
#define GALITZAF_INTERRUPT_TABLE 16 /* 8 bytes */

/* Bits of byte SUPPORTED. */
#define GALITZAF_LEVELS_3 0x01
#define GALITZAF_LEVELS_4 0x02
#define GALITZAF_LEVELS_5 0x04
#define GALITZAF_PAGES_2M 0x08
#define GALITZAF_PAGES_1G 0x10
#define GALITZAF_POSTING 0x20

/* Bits of byte SWITCHES. */
#define GALITZAF_TE 0x01
#define GALITZAF_IRE 0x02
#define GALITZAF_EIME 0x04
#define GALITZAF_CFIS 0x08

/* Guest memory: one run of bytes, and none to four windows, which say at which host addresses parts of it
 * stand. Bytes of the run that no window shows play no part.
 *
 * Windows are sorted by start and overlap neither in host addresses nor in the run; touching is no overlap,
 * and their places in the run may have any order. An entry is fetched exactly if it lies whole in a single
 * window. Windows that aren't so are refusal 1: more than four, a start that is no multiple of 4096, a
 * length of 0, an end past the run or past 2^64.
 *
 * A call takes windows as numbers, three for each, with their count; another count than a multiple of three
 * is malformed.
 */
struct galitzaf_window {
    uint64_t start;  /* host address of its first byte, a multiple of 4096 */
    uint64_t offset; /* place of that byte in the run */
    uint64_t length; /* its bytes, at least 1 */
};

static inline const uint64_t *galitzaf_numbers(const struct galitzaf_window *windows)
{
    return (const uint64_t *)windows;
}

/* The two arguments windows, windows_len of a call, from an array of windows. */
#define GALITZAF_WINDOWS(windows, count) galitzaf_numbers(windows), 3 * (size_t)(count)

/* The same for a plain image: byte n of the run is host address n. length, which is the run's, is evaluated
 * twice. */
#ifdef __cplusplus
}
struct galitzaf_flat {
    uint64_t all[3];
    explicit galitzaf_flat(uint64_t length) : all() { all[2] = length; }
    const uint64_t *numbers() const { return all; }
};
extern "C" {
#define GALITZAF_FLAT(length) galitzaf_flat(length).numbers(), (size_t)((length) > 0 ? 3 : 0)
#else
#define GALITZAF_FLAT(length) (const uint64_t[]){0, 0, (length)}, (size_t)((length) > 0 ? 3 : 0)
#endif

/* Answers: 32 bytes. Byte 0 is the kind; bytes that a kind doesn't name are zero. No kind is 0, so that a
 * zeroed buffer that no call filled is no answer.
 *
 *   GRANTED   bytes 15:8 host address                        (memory requests, requests in scalable mode)
 *   BLOCKED   byte 1 reason, byte 2 1 where the fault may be recorded, else 0;
 *             bytes 23:8 the 16 record bytes; byte 3 1 where bytes 31:24 are the host address of the
 *             entry concerned, else 0 (20h, 21h and 25h have none); galitzaf_text.h makes a line of it
 *   REFUSED   byte 1 refusal number (1 bad registers or windows, 2 address of the wrong kind, 4 a request
 *             whose walk ended with a page that has a byte in FEE00000h to FEEFFFFFh, 6 a PASID of more
 *             than 20 bits)
 *   PASSED    the request goes on unchanged; of a translation request bytes 15:8 are its address
 *                                                                (interrupts, translation requests)
 *   REMAPPED  byte 1 vector, byte 2 delivery mode, byte 3 bit 0 destination mode, bit 1 redirection
 *             hint, bit 2 trigger mode; bytes 7:4 destination                    (interrupts)
 *   POSTED    byte 1 1 where a notification is due (ON clear, and URG set or SN clear), else 0; then
 *             byte 2 its vector and bytes 7:4 its destination; byte 3 the posted vector and bytes 15:8
 *             the host address of the descriptor that was written                (interrupts)
 *   TRANSLATED  bytes 15:8 the frame of a page, bytes 23:16 its size (1000h, 200000h or 40000000h);
 *             byte 1 1 where it may be read, else 0; byte 2 1 where it may be written, else 0; one
 *             of the two is set                                        (translation requests)
 *   EMPTY     no right is left, or the address is too wide: no page, no fault and no record
 *                                                                      (translation requests)
 */
#define GALITZAF_ANSWER_SIZE 32
#define GALITZAF_NO_ANSWER 0
#define GALITZAF_BLOCKED 1
#define GALITZAF_REFUSED 2
#define GALITZAF_PASSED 3
#define GALITZAF_REMAPPED 4
#define GALITZAF_POSTED 5
#define GALITZAF_GRANTED 6
#define GALITZAF_TRANSLATED 7
#define GALITZAF_EMPTY 8

/* Where a part of an answer begins, by its bytes. */
#define GALITZAF_KIND 0
#define GALITZAF_REASON 1           /* BLOCKED */
#define GALITZAF_REFUSAL 1          /* REFUSED */
#define GALITZAF_VECTOR 1           /* REMAPPED */
#define GALITZAF_NOTIFIES 1         /* POSTED */
#define GALITZAF_MAY_READ 1         /* TRANSLATED */
#define GALITZAF_RECORDABLE 2       /* BLOCKED */
#define GALITZAF_DELIVERY_MODE 2    /* REMAPPED */
#define GALITZAF_NOTIFICATION 2     /* POSTED: its vector */
#define GALITZAF_MAY_WRITE 2        /* TRANSLATED */
#define GALITZAF_HAS_ENTRY 3        /* BLOCKED */
#define GALITZAF_MODES 3            /* REMAPPED */
#define GALITZAF_POSTED_VECTOR 3    /* POSTED */
#define GALITZAF_DESTINATION 4      /* 4 bytes: REMAPPED, POSTED */
#define GALITZAF_HOST_ADDRESS 8     /* 8 bytes: GRANTED, PASSED of a translation request */
#define GALITZAF_FRAME 8            /* 8 bytes: TRANSLATED */
#define GALITZAF_RECORD 8           /* 16 bytes: BLOCKED */
#define GALITZAF_DESCRIPTOR 8       /* 8 bytes: POSTED */
#define GALITZAF_PAGE_SIZE 16       /* 8 bytes: TRANSLATED */
#define GALITZAF_ENTRY 24           /* 8 bytes: BLOCKED */

/* Bits of byte MODES of a REMAPPED answer. */
#define GALITZAF_LOGICAL 0x01          /* destination mode */
#define GALITZAF_REDIRECTION_HINT 0x02
#define GALITZAF_LEVEL_TRIGGERED 0x04

/* Fault reasons, byte 1 of a BLOCKED answer: VT-d's numbers. */
#define GALITZAF_REASON_ROOT_NOT_PRESENT 0x01
#define GALITZAF_REASON_CONTEXT_NOT_PRESENT 0x02
#define GALITZAF_REASON_CONTEXT_INVALID 0x03
#define GALITZAF_REASON_ADDRESS_OVERFLOW 0x04
#define GALITZAF_REASON_WRITE_DENIED 0x05
#define GALITZAF_REASON_READ_DENIED 0x06
#define GALITZAF_REASON_PAGE_ENTRY_ACCESS 0x07
#define GALITZAF_REASON_ROOT_ACCESS 0x08
#define GALITZAF_REASON_CONTEXT_ACCESS 0x09
#define GALITZAF_REASON_ROOT_RESERVED 0x0A
#define GALITZAF_REASON_CONTEXT_RESERVED 0x0B
#define GALITZAF_REASON_PAGE_ENTRY_RESERVED 0x0C
#define GALITZAF_REASON_TRANSLATION_BLOCKED 0x0D
#define GALITZAF_REASON_REQUEST_RESERVED 0x20
#define GALITZAF_REASON_INDEX_OUT_OF_RANGE 0x21
#define GALITZAF_REASON_IRTE_NOT_PRESENT 0x22
#define GALITZAF_REASON_IRTE_ACCESS 0x23
#define GALITZAF_REASON_IRTE_RESERVED 0x24
#define GALITZAF_REASON_COMPATIBILITY_BLOCKED 0x25
#define GALITZAF_REASON_SOURCE_REJECTED 0x26
#define GALITZAF_REASON_DESCRIPTOR_ACCESS 0x27
#define GALITZAF_REASON_DESCRIPTOR_RESERVED 0x28
/* Of requests in scalable mode. */
#define GALITZAF_REASON_SCALABLE_ROOT_ACCESS 0x38
#define GALITZAF_REASON_SCALABLE_ROOT_NOT_PRESENT 0x39
#define GALITZAF_REASON_SCALABLE_ROOT_RESERVED 0x3A
#define GALITZAF_REASON_SCALABLE_CONTEXT_ACCESS 0x40
#define GALITZAF_REASON_SCALABLE_CONTEXT_NOT_PRESENT 0x41
#define GALITZAF_REASON_SCALABLE_CONTEXT_RESERVED 0x42
#define GALITZAF_REASON_SCALABLE_CONTEXT_INVALID 0x43
#define GALITZAF_REASON_SCALABLE_PASID_DISABLED 0x45
#define GALITZAF_REASON_SCALABLE_PASID_OUT_OF_RANGE 0x46
#define GALITZAF_REASON_SCALABLE_DIRECTORY_ACCESS 0x50
#define GALITZAF_REASON_SCALABLE_DIRECTORY_NOT_PRESENT 0x51
#define GALITZAF_REASON_SCALABLE_DIRECTORY_RESERVED 0x52
#define GALITZAF_REASON_SCALABLE_TABLE_ACCESS 0x58
#define GALITZAF_REASON_SCALABLE_TABLE_NOT_PRESENT 0x59
#define GALITZAF_REASON_SCALABLE_TABLE_RESERVED 0x5A
#define GALITZAF_REASON_SCALABLE_TABLE_INVALID 0x5B
#define GALITZAF_REASON_SCALABLE_SUPERVISOR_DENIED 0x5D
#define GALITZAF_REASON_SCALABLE_FIRST_LEVEL_ACCESS 0x70
#define GALITZAF_REASON_SCALABLE_FIRST_LEVEL_NOT_PRESENT 0x71
#define GALITZAF_REASON_SCALABLE_FIRST_LEVEL_RESERVED 0x72
#define GALITZAF_REASON_SCALABLE_FIRST_LEVEL_TOP_ACCESS 0x73
#define GALITZAF_REASON_SCALABLE_INTERMEDIATE_OVERFLOW 0x74
#define GALITZAF_REASON_SCALABLE_SECOND_LEVEL_ACCESS 0x78
#define GALITZAF_REASON_SCALABLE_SECOND_LEVEL_NOT_PRESENT 0x79
#define GALITZAF_REASON_SCALABLE_SECOND_LEVEL_RESERVED 0x7A
#define GALITZAF_REASON_SCALABLE_SECOND_LEVEL_TOP_ACCESS 0x7B
#define GALITZAF_REASON_SCALABLE_FLAGS_NOT_SNOOPED 0x7C
#define GALITZAF_REASON_SCALABLE_NOT_CANONICAL 0x80
#define GALITZAF_REASON_SCALABLE_USER_DENIED 0x81
#define GALITZAF_REASON_SCALABLE_ADDRESS_OVERFLOW 0x84
#define GALITZAF_REASON_SCALABLE_WRITE_DENIED 0x85
#define GALITZAF_REASON_SCALABLE_READ_DENIED 0x86

/* Refusals, byte 1 of a REFUSED answer. None is a fault: nothing was changed and nothing is to be recorded, so drop the
 * request. What else to do:
 *
 *   1  Log it, with what galitzaf_first_bad names. A register is the guest's doing where the guest wrote it, and every
 *      request is refused until it writes a good one; windows are the caller's own mistake.
 *   2  An access in FEE00000h to FEEFFFFFh is an interrupt and goes to galitzaf_interrupt_request, any other to the
 *      other calls. Where that was so, log the device: it read from that range, or its message lies outside.
 *   4  Log the device and its address: its tables map a page onto the interrupt range.
 *   6  No device can send such a PASID: the caller's own mistake.
 *
 * Refusals 3 and 5 are no answers of requests: the recorder and a take answer GALITZAF_REFUSED_3 and _5, below. */
#define GALITZAF_REFUSAL_BAD_REGISTERS 1            /* a register outside its list, or windows that aren't as said above */
#define GALITZAF_REFUSAL_WRONG_ADDRESS 2            /* an address of the other kind of request */
#define GALITZAF_REFUSAL_PAGE_IN_INTERRUPT_RANGE 4  /* a walk that ended on FEE00000h to FEEFFFFFh */
#define GALITZAF_REFUSAL_PASID_TOO_WIDE 6           /* a PASID of more than 20 bits */

/* Fault records: 8, 16, 32, 64, 128 or 256 slots of 16 bytes; the buffer's length says how many. The
 * recorder's state: byte 0 the next slot, byte 1 overflow (0 or 1). */
#define GALITZAF_RECORDS_SIZE 128      /* 8 slots, the fewest */
#define GALITZAF_RECORDS_MAX_SIZE 4096 /* 256 slots, the most */
#define GALITZAF_RECORDER_SIZE 2
#define GALITZAF_NEXT_SLOT 0
#define GALITZAF_OVERFLOW 1

/* What a call answers. */
#define GALITZAF_OK 0x00             /* a request: the answer buffer holds its answer */
#define GALITZAF_REFUSED_1 0x01      /* take, list, build: bad registers or windows, as for requests; nothing was done */
#define GALITZAF_REFUSED_3 0x03      /* recorder: length of records or state, next slot or slot out of range; the caller's
                                        own mistake, and no record was changed */
#define GALITZAF_REFUSED_5 0x05      /* take: the descriptor isn't 64-aligned, or not whole in one window; no interrupt is
                                        to be delivered from it: log it */
#define GALITZAF_NO_FAULT 0x10       /* record: the answer holds no fault */
#define GALITZAF_NOT_RECORDABLE 0x11 /* record: FPD silenced the fault */
#define GALITZAF_DROPPED 0x12        /* record: overflow was set already */
#define GALITZAF_OVERFLOWED 0x13     /* record: the next slot is taken, so overflow is set now */
#define GALITZAF_WRITTEN 0x14        /* record: the fault stands in the buffer */
#define GALITZAF_SLOT_CLEAR 0x20     /* clear a slot: no record stood there */
#define GALITZAF_SLOT_CLEARED 0x21   /* clear a slot: a record stood there */
#define GALITZAF_OVERFLOW_CLEAR 0x30 /* clear overflow: it was clear */
#define GALITZAF_OVERFLOW_CLEARED 0x31 /* clear overflow: it was set */
#define GALITZAF_NONE_STANDS 0x40    /* take: no request bit stands */
#define GALITZAF_TRACE_BLOCK 0x50    /* trace: the buffer holds a block, to be taken before the next call */
#define GALITZAF_TRACE_ENTRY 0x51    /* trace: an entry is handed out */
#define GALITZAF_TRACE_DAMAGED 0x52  /* trace: the block at this place is damaged */
#define GALITZAF_TRACE_END 0x53      /* trace: there is no more */
#define GALITZAF_TRACE_SAME 0x54     /* replay: the answer is the one that was traced */
#define GALITZAF_TRACE_DIFFERS 0x55  /* replay: the answer differs */
#define GALITZAF_METERS_REFUSED 0x60 /* meters: something in row, counts or bytes is bad */
#define GALITZAF_NONE_BAD 0x70       /* first bad: no register and no window */
#define GALITZAF_FIRST_BAD_HAW 0x71  /* first bad: this register, 71h to 76h */
#define GALITZAF_FIRST_BAD_MGAW 0x72
#define GALITZAF_FIRST_BAD_LEVELS 0x73
#define GALITZAF_FIRST_BAD_ROOT_TABLE 0x74
#define GALITZAF_FIRST_BAD_INTERRUPT_TABLE 0x75
#define GALITZAF_FIRST_BAD_S 0x76
#define GALITZAF_FIRST_BAD_WINDOW 0x78 /* first bad: 78h to 7Ch, the window's place in the array is added */
#define GALITZAF_LISTING_FAULT 0x80  /* list: 80h to 8Fh, the reason of the root or context entry is added */
#define GALITZAF_LISTING_PASSED 0x90 /* list: TE is off, or the context passes through */
#define GALITZAF_BUILD_TE_OFF 0xA1   /* build: refused with no item, A1h to A5h: TE is off */
#define GALITZAF_BUILD_CONTEXT 0xA2  /* build: the context doesn't translate: none is found, or it passes through */
#define GALITZAF_BUILD_REGION 0xA3   /* build: the region isn't whole pages of the windows below 2^HAW, or shares a byte with a
                                        table or descriptor of the unit */
#define GALITZAF_BUILD_TABLES 0xA4   /* build: the context's tables aren't in the region as built here */
#define GALITZAF_BUILD_BUFFERS 0xA5  /* build: copy isn't the region's size, or marks not a byte for each of its pages */
#define GALITZAF_ITEM_SIZE 0xB1      /* build: refused at an item, B1h to B8h: neither 4 KiB nor 2 MiB, or 2 MiB unsupported */
#define GALITZAF_ITEM_ALIGNMENT 0xB2 /* build: place, or a map's frame, is no multiple of the size */
#define GALITZAF_ITEM_PLACE 0xB3     /* build: at or above 2^X, or a byte in FEE00000h to FEEFFFFFh */
#define GALITZAF_ITEM_RIGHTS 0xB4    /* build: a map without a right */
#define GALITZAF_ITEM_FRAME 0xB5     /* build: at or above 2^HAW, or a byte in FEE00000h to FEEFFFFFh */
#define GALITZAF_ITEM_OVERLAP 0xB6   /* build: a mapped page meets this one */
#define GALITZAF_ITEM_PAGES 0xB7     /* build: fewer free pages than tables that are missing */
#define GALITZAF_ITEM_NOT_MAPPED 0xB8 /* build: an unmap where no page of this start and size is mapped */
#define GALITZAF_BAD_REGISTERS 0x101 /* not 24 bytes, or a bit set that has to be zero */
#define GALITZAF_BAD_ANSWER 0x102    /* not 32 bytes, or, to be recorded, of no kind above, or, to be traced, no
                                        answer to a request of this kind */
#define GALITZAF_BAD_KIND 0x103      /* write is neither 0 nor 1, or kind is above 3 */
#define GALITZAF_BAD_RECORDER 0x104  /* overflow is neither 0 nor 1 */
#define GALITZAF_BAD_WINDOWS 0x105   /* the count of numbers is no multiple of three */
#define GALITZAF_BAD_METERS 0x106    /* parts of different lengths, or a kind above 2 */
#define GALITZAF_BAD_TRACE 0x107     /* trace: a writer or a place that isn't two numbers in range, or a block that
                                        isn't 512 bytes */
#define GALITZAF_BAD_CACHE 0x108     /* not 776 numbers */
#define GALITZAF_BAD_ITEMS 0x109     /* build: the count of numbers is no multiple of four, or item isn't one number */
#define GALITZAF_TAKEN 0x200         /* take: 200h to 2FFh, the vector handed out is added */
#define GALITZAF_LISTED 0x2000       /* list: 2000h to 3000h, the count of spans is added */
#define GALITZAF_LISTED_MORE 0x6000  /* list: the same, and there are more spans */

/* Requests and takes tell what is malformed in this order: registers (with capabilities), windows, answer, write
 * or kind; then comes refusal 1, and all else after it. image is the run, and image_len its length. */

/* Where an untranslated request may go. source has the bus in 15:8, device and function in 7:0; write
 * is 1 for a write, 0 for a read. */
GALITZAF_CHECK
uint32_t galitzaf_memory_request(const uint8_t *registers, size_t registers_len,
                                 const uint64_t *windows, size_t windows_len,
                                 const uint8_t *image, size_t image_len,
                                 uint16_t source, uint64_t address, uint8_t write,
                                 uint8_t *answer, size_t answer_len);

/* The page that a device with a translation cache of its own asks for: frame, size and the rights joined over
 * all levels, which memory requests of that source at every address of the page outside FEE00000h to
 * FEEFFFFFh have too. */
GALITZAF_CHECK
uint32_t galitzaf_translation_request(const uint8_t *registers, size_t registers_len,
                                      const uint64_t *windows, size_t windows_len,
                                      const uint8_t *image, size_t image_len,
                                      uint16_t source, uint64_t address,
                                      uint8_t *answer, size_t answer_len);

/* Where an untranslated request may go in scalable mode. The registers are as above, with levels and page sizes those of the
 * second level; capabilities has a bit for what else the unit supports, and any other bit is a malformed register. kind
 * tells a write and whether the request has a PASID; without one the number isn't looked at. A granted request sets the
 * accessed and dirty flags of the page table entries that it went through, in the run; any other answer leaves it as it
 * came. Reasons 38h to 86h, refusals 1, 2, 4 and 6. */
#define GALITZAF_FLTS 0x001   /* first-level translation */
#define GALITZAF_SLTS 0x002   /* second-level translation */
#define GALITZAF_NEST 0x004   /* nested translation */
#define GALITZAF_PT 0x008     /* pass-through */
#define GALITZAF_FL5LP 0x010  /* 5 levels in the first level */
#define GALITZAF_FL1GP 0x020  /* 1 GiB pages in the first level */
#define GALITZAF_SLADS 0x040  /* accessed and dirty flags in the second level */
#define GALITZAF_EAFS 0x080   /* extended accessed flags in the first level */
#define GALITZAF_SRS 0x100    /* supervisor requests */
#define GALITZAF_SMPWC 0x200  /* coherent page walks */

#define GALITZAF_KIND_WRITE 0x01
#define GALITZAF_KIND_PASID 0x02

GALITZAF_CHECK
uint32_t galitzaf_scalable_request(const uint8_t *registers, size_t registers_len, uint32_t capabilities,
                                   const uint64_t *windows, size_t windows_len,
                                   uint8_t *image, size_t image_len,
                                   uint16_t source, uint64_t address, uint8_t kind, uint32_t pasid,
                                   uint8_t *answer, size_t answer_len);

/* What becomes of an interrupt message. A posted one changes two bits of the run at most, in the window that
 * holds the descriptor; any other answer leaves it as it came. */
GALITZAF_CHECK
uint32_t galitzaf_interrupt_request(const uint8_t *registers, size_t registers_len,
                                    const uint64_t *windows, size_t windows_len,
                                    uint8_t *image, size_t image_len,
                                    uint16_t source, uint64_t address, uint32_t data,
                                    uint8_t *answer, size_t answer_len);

/* The same as galitzaf_memory_request through a cache of 64 translations: cache is 776 numbers that the caller lends and
 * leaves alone between calls. All zero is an empty one. A page that a walk reached and that was granted is held, with the
 * request's source and kind and the domain of its context entry (87:72), until it is invalidated or pushed out: the oldest
 * goes at a 65th. What is held answers the requests for its page, source and kind that refusals 1 and 2 and TE let past,
 * the newest where two could, and no table is read for them. So each write to a table entry that a held translation went
 * through, by the guest, a post, a take or whatever else, has to be followed by an invalidation before the next request:
 * then every answer is that of galitzaf_memory_request. With other registers or windows, invalidate all. Any numbers get
 * an answer: nothing is read or written outside the buffers. A malformed cache is told after windows. */
#define GALITZAF_CACHE_WORDS 776

GALITZAF_CHECK
uint32_t galitzaf_cached_request(const uint8_t *registers, size_t registers_len,
                                 const uint64_t *windows, size_t windows_len,
                                 const uint8_t *image, size_t image_len,
                                 uint64_t *cache, size_t cache_len,
                                 uint16_t source, uint64_t address, uint8_t write,
                                 uint8_t *answer, size_t answer_len);

/* Takes all translations out: it makes an empty cache of any numbers. */
uint32_t galitzaf_invalidate_all(uint64_t *cache, size_t cache_len);

/* Takes those of a domain out, as it was when they were cached. */
uint32_t galitzaf_invalidate_domain(uint64_t *cache, size_t cache_len, uint16_t domain);

/* Takes from the posted interrupt descriptor at a host address: its highest request bit is cleared and the
 * vector answered, or that none stands; the ON bit is cleared either way. A refused call leaves the run
 * as it came. Of the descriptor nothing but its place and alignment is looked at. */
GALITZAF_CHECK
uint32_t galitzaf_take(const uint8_t *registers, size_t registers_len,
                       const uint64_t *windows, size_t windows_len,
                       uint8_t *image, size_t image_len,
                       uint64_t descriptor);

/* Which register or window refusal 1 is for: the first in the order of the list, HAW, MGAW, levels, root table, interrupt
 * table, S, then the windows from the first; GALITZAF_NONE_BAD exactly where no call with these arguments answers refusal
 * 1. A window is named where those up to it are refused: by itself, beside one before it, or as the fifth. Malformed
 * registers are told before malformed windows. No byte of guest memory is read: image_len is the length of the run. */
GALITZAF_CHECK
uint32_t galitzaf_first_bad(const uint8_t *registers, size_t registers_len,
                            const uint64_t *windows, size_t windows_len,
                            size_t image_len);

/* Lists what is mapped for a source, in address order: four numbers a span, as many as spans has room for and at most 4,096.
 * They are the first address, the size in bytes, the frame of a page or the reason of a fault or the number of a refusal,
 * and in the last bits 1:0 the joined rights (1 read, 2 write) with the kind in 3:2: 0 a page, 1 a fault (07h or 0Ch), 2
 * refused (4). A fault's rights are those of the entries above it. Numbers behind the last span stay as they were.
 *
 * known is lent to remember tables in: with GALITZAF_KNOWN numbers no table that lists nothing is gone through twice, so
 * that no tables take long. With fewer, or none, the answer is the same. All of it is zero afterwards.
 *
 * Answers LISTED or LISTED_MORE with the count; refusal 1 as GALITZAF_REFUSED_1; LISTING_PASSED; LISTING_FAULT with the
 * reason; or malformed registers or windows, and then neither buffer is written. */
#define GALITZAF_SPANS 4096
#define GALITZAF_KNOWN(image_len) (((image_len) / 4096 + 1) * 16)
GALITZAF_CHECK
uint32_t galitzaf_list_spans(const uint8_t *registers, size_t registers_len,
                             const uint64_t *windows, size_t windows_len,
                             const uint8_t *image, size_t image_len,
                             uint16_t source,
                             uint64_t *known, size_t known_len,
                             uint64_t *spans, size_t spans_len);

/* A page to map or unmap. */
struct galitzaf_item {
    uint64_t what;  /* GALITZAF_MAP_READ, GALITZAF_MAP_WRITE or both to map it; GALITZAF_UNMAP to unmap it. Bits 63:3
                       aren't looked at */
    uint64_t place; /* its first address, a multiple of the size */
    uint64_t size;  /* 1000h or 200000h */
    uint64_t frame; /* of a map: the host address that it goes to, a multiple of the size */
};
#define GALITZAF_MAP_READ 1
#define GALITZAF_MAP_WRITE 2
#define GALITZAF_UNMAP 4

static inline const uint64_t *galitzaf_item_numbers(const struct galitzaf_item *items)
{
    return (const uint64_t *)items;
}

/* The two arguments items, items_len of a call, from an array of items. */
#define GALITZAF_ITEMS(items, count) galitzaf_item_numbers(items), 4 * (size_t)(count)

/* How many bytes of marks a region needs. */
#define GALITZAF_MARKS(size) ((size) / 4096)

/* Maps and unmaps a list of pages in the page tables of a source's context, whole or not at all. The tables lie in a region
 * of guest memory, size bytes from the host address start on, and begin as an empty top table, all zero, anywhere in it. All
 * other pages of the region are free: they become tables as they are needed, the lowest first, zeroed then, and are free
 * again when nothing is mapped through them. No other byte of guest memory is written.
 *
 * Items are taken in order, each over what those before it left. At the first with a reason against it the whole list is
 * refused: its index, from 0, is put into the one number of item, the reason is the status, and no byte of guest memory is
 * changed. After GALITZAF_OK the requests of every source whose context this is are answered as the list leaves its pages,
 * where no other context has a table in the region; translations that a cache holds are to be invalidated.
 *
 * copy and marks are lent to work in, size bytes and GALITZAF_MARKS(size): what they hold before and after doesn't matter.
 * image is the run, in which only bytes that the windows show from start on may change; item stays as it was where no item
 * is refused. Malformed registers are told first, then windows and items; then refusal 1, and the rest in the order of
 * its numbers, GALITZAF_BUILD_BUFFERS before GALITZAF_BUILD_TABLES. */
GALITZAF_CHECK
uint32_t galitzaf_build(const uint8_t *registers, size_t registers_len,
                        const uint64_t *windows, size_t windows_len,
                        uint8_t *image, size_t image_len,
                        uint16_t source, uint64_t start, uint64_t size,
                        const uint64_t *items, size_t items_len,
                        uint8_t *copy, size_t copy_len,
                        uint8_t *marks, size_t marks_len,
                        uint64_t *item, size_t item_len);

/* Records the fault of a request's answer. Every recorder call tells refusal 3 first: records or a state
 * of another length, a next slot or a slot to clear above the last. Here a malformed answer comes next, then
 * a malformed recorder, then that the answer holds no fault. A byte 2 other than 1 counts as not recordable. */
GALITZAF_CHECK
uint32_t galitzaf_record(const uint8_t *answer, size_t answer_len,
                         uint8_t *records, size_t records_len,
                         uint8_t *recorder, size_t recorder_len);

/* Clears bit 127 of the record in a slot. */
GALITZAF_CHECK
uint32_t galitzaf_clear_slot(uint8_t *records, size_t records_len,
                             const uint8_t *recorder, size_t recorder_len,
                             uint8_t slot);

/* Clears the overflow flag. */
GALITZAF_CHECK
uint32_t galitzaf_clear_overflow(const uint8_t *records, size_t records_len,
                                 uint8_t *recorder, size_t recorder_len);

/* Kinds of gates. */
#define GALITZAF_METER_OFF 0
#define GALITZAF_METER_LIMIT 1 /* trips above its high */
#define GALITZAF_METER_BAND 2  /* trips below its low and above its high */

/* Storm meters: a load for each device, halved on each tick before the tick's count is added, and a gate that it may
 * trip. A meter is a place in each of four arrays of one length: its kind, its low, its high and its load. Kind 0 is off
 * and looks at no limit, kind 1 trips above its high, kind 2 outside low and high, always strictly. Arrays of different
 * lengths or another kind are malformed: GALITZAF_BAD_METERS.
 *
 * bytes[i] becomes 1 where the new load trips gate i, else 0. The tick is GALITZAF_METERS_REFUSED, with loads and bytes
 * as they came, where counts or bytes aren't one per meter, a count is above 65,535, a load isn't from 0 to 131,070, a
 * limit that the kind looks at isn't finite or is below zero, or a low is over its high. */
GALITZAF_CHECK
uint32_t galitzaf_tick_meters(const uint8_t *kinds, size_t kinds_len,
                              const double *lows, size_t lows_len,
                              const double *highs, size_t highs_len,
                              double *loads, size_t loads_len,
                              const uint32_t *counts, size_t counts_len,
                              uint8_t *bytes, size_t bytes_len);

/* Makes all loads 0. */
uint32_t galitzaf_reset_meters(double *loads, size_t loads_len);

/* Traces: requests with their answers in blocks of 512 bytes, each with its number and a sum, so that every block
 * changed by one byte is named as damaged. docs/TRACE.md has blocks and entries byte by byte. An entry has 32 bytes:
 *
 *   byte 0       kind of the request
 *   byte 1       answer: 1 refused, 2 a fault, 3 granted (a translation request with TE off too), 4 passed on,
 *                5 remapped, 6 posted, 7 posted with a notification, 8 a page or the empty answer
 *   byte 2       number: of a refusal, a fault's reason; of a page 12, 21 or 30
 *   byte 3       flags: of a fault bit 0 it may be recorded, bit 1 the value is an entry's address; of a remapped
 *                interrupt bits 2:0 as its answer's byte 3, bits 5:3 delivery mode; of a page bit 0 read, bit 1 write
 *   bytes 5:4    source
 *   byte 6       vector, of a remapped interrupt or of the notification
 *   byte 7       posted vector
 *   bytes 15:8   address of the request
 *   bytes 19:16  data of an interrupt
 *   bytes 23:20  destination, of a remapped interrupt or of the notification
 *   bytes 31:24  value: host address, frame, descriptor or entry's address
 */
#define GALITZAF_TRACE_BLOCK_SIZE 512
#define GALITZAF_TRACE_ENTRY_SIZE 32
#define GALITZAF_TRACE_NUMBERS 2 /* of a writer, and of a place */

/* Kinds of traced requests. */
#define GALITZAF_TRACE_READ 1
#define GALITZAF_TRACE_WRITE 2
#define GALITZAF_TRACE_INTERRUPT 3
#define GALITZAF_TRACE_TRANSLATION 4

/* Appends the entry of a request with its answer to the block, to be put behind a request's call. writer is two numbers,
 * 0 and 0 for a new trace, and only these calls change it; block is the buffer of the block that is being filled, whose
 * bytes nobody else writes meanwhile. GALITZAF_OK, or GALITZAF_TRACE_BLOCK with the 15th entry: then the 512 bytes are
 * the trace's next block. data is 0 but for interrupts. A malformed writer or block is told first, then a malformed
 * answer, and nothing is changed. */
GALITZAF_CHECK
uint32_t galitzaf_trace_append(uint64_t *writer, size_t writer_len,
                               uint8_t *block, size_t block_len,
                               uint8_t kind, uint16_t source, uint64_t address, uint32_t data,
                               const uint8_t *answer, size_t answer_len);

/* Ends a trace: GALITZAF_TRACE_BLOCK with the last block, of fewer than 15 entries, or GALITZAF_OK where none waits. */
GALITZAF_CHECK
uint32_t galitzaf_trace_close(uint64_t *writer, size_t writer_len,
                              uint8_t *block, size_t block_len);

/* Whether the block at a place of a trace, which is a run of blocks from place 0 on, is laid out well: GALITZAF_OK or
 * GALITZAF_TRACE_DAMAGED. A short last block is damaged. */
GALITZAF_CHECK
uint32_t galitzaf_trace_check(const uint8_t *trace, size_t trace_len, uint64_t place);

/* Reads on: place is two numbers, a block's place and an entry's in it, 0 and 0 at first, and becomes the next one.
 * GALITZAF_TRACE_ENTRY with the entry there; GALITZAF_TRACE_DAMAGED, and nothing of that block is handed out;
 * GALITZAF_TRACE_END. A malformed place is told first, then an entry's buffer that isn't 32 bytes. */
GALITZAF_CHECK
uint32_t galitzaf_trace_next(const uint8_t *trace, size_t trace_len,
                             uint64_t *place, size_t place_len,
                             uint8_t *entry, size_t entry_len);

/* Replays on: asks the request of the entry at a place again, a post made as by galitzaf_interrupt_request, and compares.
 * GALITZAF_TRACE_SAME; GALITZAF_TRACE_DIFFERS with the entry of the answer now; GALITZAF_TRACE_DAMAGED, and nothing
 * of that block is asked; GALITZAF_TRACE_END. Malformed registers are told first, then windows, place and entry. */
GALITZAF_CHECK
uint32_t galitzaf_trace_replay(const uint8_t *registers, size_t registers_len,
                               const uint64_t *windows, size_t windows_len,
                               uint8_t *image, size_t image_len,
                               const uint8_t *trace, size_t trace_len,
                               uint64_t *place, size_t place_len,
                               uint8_t *entry, size_t entry_len);

#ifdef __cplusplus
}
#endif

#endif
