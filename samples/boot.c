/*
 * Loads a submission as boot code does, without a C library: memcpy, memset and the stack are its own. It runs under Linux,
 * where three system calls stand for the hardware: it reads the first 64 KiB of standard input, loads them as a submission on
 * the board of the review program, and prints the plan.
 *
 *     gcc -std=gnu99 -O2 -ffreestanding -nostdlib -static -fno-stack-protector -mno-red-zone \
 *         -Iinclude samples/boot.c target/staticlib/libviertompu.a -o boot
 */
#include "viertompu.h"

/* What the library needs. */
void *memcpy(void *to, const void *from, size_t n)
{
    void *at = to;
    __asm__ volatile("rep movsb" : "+D"(at), "+S"(from), "+c"(n) : : "memory");
    return to;
}

void *memset(void *to, int byte, size_t n)
{
    void *at = to;
    __asm__ volatile("rep stosb" : "+D"(at), "+c"(n) : "a"(byte) : "memory");
    return to;
}

/* The stack: enough for a call of the library, and some for the functions below. */
#define OWN_STACK 512
uint8_t stack[VIERTOMPU_STACK + OWN_STACK] __attribute__((aligned(16)));

#define QUOTED(x) #x
#define STACK_END(library, own) "stack + " QUOTED(library) " + " QUOTED(own)
__asm__("    .pushsection .text\n"
        "    .globl _start\n"
        "_start:\n"
        "    leaq " STACK_END(VIERTOMPU_STACK, OWN_STACK) "(%rip), %rsp\n"
        "    call boot\n"
        "    .popsection\n");

static long system_call(long number, long a, const void *b, size_t c)
{
    long result;
    __asm__ volatile("syscall" : "=a"(result) : "a"(number), "D"(a), "S"(b), "d"(c) : "rcx", "r11", "memory");
    return result;
}

/* What is printed. */
static char text[2048];
static size_t text_length;

static void put(const char *s)
{
    while (*s)
        text[text_length++] = *s++;
}

/* A blank and a number of so many digits in a base. */
static void put_number(uint32_t x, uint32_t base, int digits)
{
    text[text_length++] = ' ';
    for (int i = digits - 1; i >= 0; i--, x /= base)
        text[text_length + i] = "0123456789ABCDEF"[x % base];
    text_length += digits;
}

static void put_decimal(uint32_t x)
{
    int digits = 1;
    for (uint32_t rest = x; rest >= 10; rest /= 10)
        digits++;
    put_number(x, 10, digits);
}

static void put_address(uint32_t x)
{
    put_number(x, 16, 8);
}

static void put_plan(const uint32_t *plan)
{
    for (int i = 0; i < VIERTOMPU_MAX_SEGMENTS && plan[VIERTOMPU_SEGMENT_EXTENT_END(i)] != 0; i++) {
        put("kernel");
        put_address(plan[VIERTOMPU_SEGMENT_START(i)]);
        put_address(plan[VIERTOMPU_SEGMENT_LOAD_END(i)]);
        put_address(plan[VIERTOMPU_SEGMENT_EXTENT_END(i)]);
        put_address(plan[VIERTOMPU_ENTRY]);
        put("\n");
    }
    for (int i = 0; i < VIERTOMPU_MAX_MODULES && plan[VIERTOMPU_MODULE_END(i)] != 0; i++) {
        put("module");
        put_decimal(i);
        put_address(plan[VIERTOMPU_MODULE_START(i)]);
        put_address(plan[VIERTOMPU_MODULE_END(i)]);
        put("\n");
    }
    put("info");
    put_address(plan[VIERTOMPU_BLOCK_START]);
    put_address(plan[VIERTOMPU_BLOCK_END]);
    put("\n");
}

/* Usable memory from 0 on (0x9FC00 bytes) and from 0x100000 on (0x700000 bytes): pairs of six words. */
static const uint32_t map[12] = {20, 0, 0, 0x9FC00, 0, 1, 20, 0x100000, 0, 0x700000, 0, 1};

static uint8_t submission[65536];
/* Boot code has the memory itself here: (uint8_t *)0x100000. */
static uint8_t window[49152];
static uint32_t plan[VIERTOMPU_PLAN_WORDS];

void boot(void)
{
    size_t length = 0;
    long got;
    while ((got = system_call(0, 0, submission + length, sizeof submission - length)) > 0)
        length += got;
    uint32_t number = viertompu_load(submission, length, (const uint8_t *)"", 0, (const uint8_t *)map, sizeof map,
                                     window, sizeof window, 0x100000, plan);
    if (number == VIERTOMPU_LOAD) {
        put_plan(plan);
    } else {
        put("refused");
        put_decimal(number);
        put_decimal(plan[VIERTOMPU_ITEM]);
        put("\n");
    }
    system_call(1, 1, text, text_length);
    system_call(60, 0, NULL, 0);
}
