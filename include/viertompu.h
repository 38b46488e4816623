/*
 * Viertompu: the loading of Multiboot 0.6.93 kernels, proved.
 *
 *     tools/staticlib                                                           # target/staticlib/libviertompu.a
 *     gcc -std=c99 -Iinclude samples/load.c target/staticlib/libviertompu.a     # x86-64, System V calls
 *
 * docs/RULES.md tells every rule; the two formats that are lent stand below.
 */
#ifndef VIERTOMPU_H
#define VIERTOMPU_H

#include <stddef.h>
#include <stdint.h>

#ifdef __cplusplus
extern "C" {
#endif

/*
 * The answers: name, number, and when it is given. The checks of a load are made in this order, 9 to 13 for address fields alone
 * and 18 to 20 for an ELF image alone; the first that applies is the answer. 26 is a mend's alone, which returns 0 where it does
 * not refuse.
 * What the sentences speak of:
 *
 *     the map, a pair           the memory map, below; the addresses from base up to base + length
 *     usable                    below 2^32, in a pair of type 1 and in no pair of another type
 *     the window                the addresses from `first` on that the buffer `window` stands for
 *     open                      usable, in the window, and not below 0x500, where the interrupt vectors and the BIOS data area lie
 *     the top                   0xFFFFF000
 *     the header                Multiboot's: magic 0x1BADB002, flags and checksum, which add up to 0 in 32 bits, at the lowest
 *                               multiple of 4 where they stand inside the image's first 8,192 bytes
 *     a false header            the same at any multiple of 4 inside the image's first 8,192 bytes, but with another sum
 *     header_addr, load_addr,   the address fields, from offset 12 of the header on; flag bit 16 announces them
 *     load_end_addr,
 *     bss_end_addr, entry_addr
 *     the load offset           in the image: the header's offset - (header_addr - load_addr)
 *     the load end              load_end_addr; where that is 0, load_addr plus the bytes of the image from the load offset on
 *     a segment                 a stretch of the kernel: load bytes, and zeros behind them. With address fields there is one: the
 *                               load bytes go from load_addr up to the load end, the zeros up to bss_end_addr. In an ELF image it
 *                               is a loadable program header (type 1) whose memory size is not 0: its file bytes go to its
 *                               physical address, zeros follow up to its memory size
 *     the ELF mark              the bytes 7F 45 4C 46, with which an ELF image begins; where flag bit 16 is set, the address fields
 *                               decide in an ELF image too
 *     the table, an entry       the program headers of an ELF image, of every type; one of them
 *     the entry                 entry_addr, or the ELF header's e_entry as a physical address
 *     the kernel's extents      the addresses of its segments, zeros included
 *     room                      an address from 0x100000 up, on a boundary of 4 (for modules 4,096 where flag bit 0 is set), from
 *                               which a module ends at or below its ceiling, if it has one, and from which on all is open and
 *                               apart from the kernel and from what was placed before
 */
#define VIERTOMPU_ANSWERS(ANSWER) \
    ANSWER(VIERTOMPU_LOAD, 0, "no check applies: a load") \
    ANSWER(VIERTOMPU_NOT_A_SUBMISSION, 1, "the submission is under 12 bytes, or its mark or version is wrong") \
    ANSWER(VIERTOMPU_BAD_SUBMISSION, 2, "the submission breaks another rule of its format") \
    ANSWER(VIERTOMPU_BAD_OPERATOR_LINE, 3, "the operator's line is over 255 bytes or holds a zero byte") \
    ANSWER(VIERTOMPU_WINDOW_PAST_TOP, 4, "the window's first address plus its length is above the top") \
    ANSWER(VIERTOMPU_BAD_MEMORY_MAP, 5, "the map is empty, over 4,096 bytes, has over 32 pairs, or a pair has a size under 20 or runs past the map's end") \
    ANSWER(VIERTOMPU_NO_HEADER, 6, "the image has no header; the item is how many false headers it has") \
    ANSWER(VIERTOMPU_UNKNOWN_REQUEST, 7, "one of the header's flag bits 2 to 15 is set") \
    ANSWER(VIERTOMPU_UNDEFINED_BITS, 25, "one of the header's flag bits 17 to 31 is set") \
    ANSWER(VIERTOMPU_NO_ADDRESS_FIELDS, 8, "the header's flag bit 16 is clear, and the image does not begin with the ELF mark") \
    ANSWER(VIERTOMPU_HEADER_CUT_OFF, 9, "the 32 bytes of header and address fields do not lie inside both the image and its first 8,192 bytes") \
    ANSWER(VIERTOMPU_LOAD_BEFORE_IMAGE, 10, "load_addr is above header_addr, or their difference is above the header's offset") \
    /* 11 is not given */ \
    ANSWER(VIERTOMPU_LOAD_PAST_IMAGE, 12, "load_end_addr is not 0 and below load_addr, or the load ends beyond the image") \
    ANSWER(VIERTOMPU_BSS_BELOW_LOAD_END, 13, "bss_end_addr is not 0 and below the load end") \
    ANSWER(VIERTOMPU_BAD_ELF, 18, "the ELF image is under 52 bytes, is not of class 1, data 1, type 2, machine 3 and entry size 32, has its table beyond the image or over 16 entries in it, or has no segment") \
    ANSWER(VIERTOMPU_BAD_PROGRAM_HEADER, 19, "a loadable program header has file bytes outside the image, or a file size above its memory size") \
    ANSWER(VIERTOMPU_SEGMENTS_OVERLAP, 20, "two segments share an address") \
    ANSWER(VIERTOMPU_ENTRY_OUTSIDE_LOAD, 14, "the entry lies in no segment's load bytes") \
    ANSWER(VIERTOMPU_KERNEL_NOT_OPEN, 15, "an address of the kernel's extents is not open") \
    ANSWER(VIERTOMPU_NO_ROOM_FOR_MODULE, 16, "there is no room for a module; the item is its index, counted from 0") \
    ANSWER(VIERTOMPU_NO_ROOM_FOR_BLOCK, 17, "there is no room for the information block") \
    ANSWER(VIERTOMPU_NO_MAGIC, 26, "the image has neither a header nor a false header")

#define VIERTOMPU_ANSWER_NUMBER(name, number, reason) name = number,
enum viertompu_answer { VIERTOMPU_ANSWERS(VIERTOMPU_ANSWER_NUMBER) };
#undef VIERTOMPU_ANSWER_NUMBER

/* When an answer of this number is given, in a sentence. */
static inline const char *viertompu_reason(uint32_t number)
{
    switch (number) {
#define VIERTOMPU_ANSWER_REASON(name, number, reason) case number: return reason;
        VIERTOMPU_ANSWERS(VIERTOMPU_ANSWER_REASON)
#undef VIERTOMPU_ANSWER_REASON
    default: return "there is no such answer";
    }
}

/*
 * The words that a load writes: number and item of the answer, and then the plan, which is all zeros in a refusal. The address a
 * stands at window[a - first]; ends are exclusive.
 */
#define VIERTOMPU_PLAN_WORDS 96

#define VIERTOMPU_NUMBER 0          /* the number that is also returned */
#define VIERTOMPU_ITEM 1            /* how many false headers there are for 6, the module's index for 16, else 0 */
#define VIERTOMPU_HEADER 2          /* the header's offset in the image */
#define VIERTOMPU_ENTRY 3           /* the address at which the kernel is entered */
#define VIERTOMPU_EAX 4             /* the number handed over in EAX */
#define VIERTOMPU_EBX 5             /* the number handed over in EBX: the information block's address */
#define VIERTOMPU_BLOCK_START 6     /* the information block's start */
#define VIERTOMPU_BLOCK_END 7       /* its end */
#define VIERTOMPU_SEGMENTS 8        /* the segments of the kernel, of three words each; zeros past the last */
#define VIERTOMPU_MODULES 56        /* the modules, of two words each; zeros past the last */
#define VIERTOMPU_FALSE_HEADERS 88  /* how many false headers stand below the header */
#define VIERTOMPU_ZEROS 89          /* from here on the words are zero */

#define VIERTOMPU_SEGMENT_WORDS 3
#define VIERTOMPU_MODULE_WORDS 2
#define VIERTOMPU_MAX_SEGMENTS 16
#define VIERTOMPU_MAX_MODULES 16

/* The words of segment i and of module i, from 0 up to the maximum. A place is empty where its last word is 0. */
#define VIERTOMPU_SEGMENT_START(i) (VIERTOMPU_SEGMENTS + VIERTOMPU_SEGMENT_WORDS * (i))
#define VIERTOMPU_SEGMENT_LOAD_END(i) (VIERTOMPU_SEGMENT_START(i) + 1)
#define VIERTOMPU_SEGMENT_EXTENT_END(i) (VIERTOMPU_SEGMENT_START(i) + 2)
#define VIERTOMPU_MODULE_START(i) (VIERTOMPU_MODULES + VIERTOMPU_MODULE_WORDS * (i))
#define VIERTOMPU_MODULE_END(i) (VIERTOMPU_MODULE_START(i) + 1)

/* So many bytes from the image's start are searched for a header; a mend needs no others. */
#define VIERTOMPU_SEARCH_LIMIT 8192

/* The words that a mend writes. Where nothing was mended all of them are 0. */
#define VIERTOMPU_MEND_WORDS 4

#define VIERTOMPU_MENDED 0          /* 1 where a checksum was mended */
#define VIERTOMPU_MENDED_HEADER 1   /* the offset in the image of the header that it belongs to */
#define VIERTOMPU_OLD_CHECKSUM 2    /* the checksum before */
#define VIERTOMPU_NEW_CHECKSUM 3    /* the checksum now, which stands 8 bytes behind that offset */

/*
 * The submission: a kernel image with its modules. All numbers are little-endian.
 *
 *      at   size   meaning
 *       0      3   the bytes KSB
 *       3      2   version: 1 or 2
 *       5      1   how many modules: 0 to 16
 *       6      4   length of the image
 *      10      2   length of the command line: 0 to 255
 *      12   8 for each module: length of its data (4 bytes, 1 or more), length of its string (2 bytes, 0 to 127), its ceiling in
 *                  MiB (2 bytes), at or below which it ends; 0 is none, and version 1 has 0 here
 *
 * Then, without gaps and up to the submission's end: the image, the command line, and for each module its data and its
 * string. Command line and strings hold no zero byte; the information block puts one behind each.
 *
 * The memory map: 1 to 32 pairs in at most 4,096 bytes.
 *
 *      at   size   meaning
 *       0      4   size: how many bytes of the pair follow, 20 or more; the next pair begins at 4 + size
 *       4      8   base
 *      12      8   length
 *      20      4   type: 1 is usable memory; a pair of another type takes what it covers out of the usable memory
 */

/* Calls are System V's, also where the compiler's own are others, as for UEFI. */
#if defined(__GNUC__) || defined(__clang__)
#define VIERTOMPU_CALL __attribute__((sysv_abi))
#else
#define VIERTOMPU_CALL
#endif

/*
 * Loads a submission into the window, which stands for physical memory from the address `first` on, and returns
 * VIERTOMPU_LOAD; or returns the number of the first check that applies, and leaves the window as it was. No byte of the window
 * below 0x500 is ever written. All words of the plan are. Where the operator's line is empty, the submission's command line is
 * in force. A buffer may be empty; no pointer may be null. Window and plan must overlap nothing else.
 */
VIERTOMPU_CALL
uint32_t viertompu_load(const uint8_t *submission, size_t submission_len,
                        const uint8_t *operator_line, size_t operator_len,
                        const uint8_t *map, size_t map_len,
                        uint8_t *window, size_t window_len,
                        uint32_t first, uint32_t plan[VIERTOMPU_PLAN_WORDS]);

/*
 * Mends a checksum: where the image has no header, the lowest false header gets the checksum that makes it a header, and no other
 * byte changes. Returns 0, also where the image has a header already; or VIERTOMPU_NO_MAGIC, and leaves the image as it was. All
 * words of the report are written. The flags are not judged. Only the first VIERTOMPU_SEARCH_LIMIT bytes of the image count, so
 * that these alone may be lent. The image may be empty; no pointer may be null. Image and report must not overlap.
 */
VIERTOMPU_CALL
uint32_t viertompu_mend(uint8_t *image, size_t image_len, uint32_t report[VIERTOMPU_MEND_WORDS]);

/*
 * For boot code (samples/boot.c is an example without a C library):
 *
 * - The archive has code and a table of constants (.text, .rodata) for x86-64, in long mode, in ELF and independent of their
 *   place. It needs memcpy and memset from you, by System V's calls, and nothing else: no other symbol, no heap, no thread-local
 *   storage, no system call. It keeps no state.
 * - Where the window is the memory itself, code, stack, plan and all that is lent must lie outside it: the library knows of
 *   the map, the kernel and its modules alone. A window at address 0 needs another mapping, since a pointer to it is null; one
 *   from 0x500 up to the same end gives the same answer and plan, as nothing below 0x500 is open.
 * - It uses the SSE registers, so that CR4.OSFXSR must be set, and CR0.EM and CR0.TS clear; it uses neither x87, MMX nor AVX.
 * - A load takes about 7.7 KB of stack, a mend far less; the stack must be aligned to 16 bytes where the call is made, as the
 *   System V calls ask. Nothing is written below the stack pointer (no red zone), so that interrupts may run on the same stack
 *   if it has room for them.
 */
#define VIERTOMPU_STACK 8192        /* bytes of stack that are enough for a call, with room for memcpy and memset */

#ifdef __cplusplus
}
#endif

#endif
