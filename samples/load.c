/*
 * Loads the submission named on the command line on the board of the review program, and prints its plan; a refusal's
 * sentence goes to standard error, and so does, with a load, how many false headers stand below the header, if any do.
 *
 *     gcc -std=c99 -Iinclude samples/load.c target/staticlib/libviertompu.a -o load
 */
#include <stdio.h>
#include <stdlib.h>
#include "viertompu.h"

/* Usable memory from 0 on (0x9FC00 bytes) and from 0x100000 on (0x700000 bytes). */
static const uint8_t map[48] = {
    20, 0, 0, 0, 0, 0, 0, 0,    0, 0, 0, 0, 0, 0xFC, 9, 0, 0, 0, 0, 0, 1, 0, 0, 0,
    20, 0, 0, 0, 0, 0, 0x10, 0, 0, 0, 0, 0, 0, 0,    0x70, 0, 0, 0, 0, 0, 1, 0, 0, 0,
};

static uint8_t window[49152];

/* The bytes of a file of any length, or NULL where it cannot be read or is too long for the memory. */
static uint8_t *read_file(const char *name, size_t *length)
{
    FILE *file = fopen(name, "rb");
    uint8_t *bytes = NULL;
    size_t room = 0, got = 0;
    while (file && got == room) {
        uint8_t *more = realloc(bytes, room += room + 4096);
        if (!more)
            break;
        bytes = more;
        got += fread(bytes + got, 1, room - got, file);
    }
    int whole = file && got < room && !ferror(file);
    if (file)
        fclose(file);
    *length = got;
    if (whole)
        return bytes;
    free(bytes);
    return NULL;
}

static void print_plan(const uint32_t *plan)
{
    for (int i = 0; i < VIERTOMPU_MAX_SEGMENTS && plan[VIERTOMPU_SEGMENT_EXTENT_END(i)] != 0; i++)
        printf("kernel %08X %08X %08X %08X\n", (unsigned)plan[VIERTOMPU_SEGMENT_START(i)],
               (unsigned)plan[VIERTOMPU_SEGMENT_LOAD_END(i)], (unsigned)plan[VIERTOMPU_SEGMENT_EXTENT_END(i)],
               (unsigned)plan[VIERTOMPU_ENTRY]);
    for (int i = 0; i < VIERTOMPU_MAX_MODULES && plan[VIERTOMPU_MODULE_END(i)] != 0; i++)
        printf("module %d %08X %08X\n", i, (unsigned)plan[VIERTOMPU_MODULE_START(i)], (unsigned)plan[VIERTOMPU_MODULE_END(i)]);
    printf("info %08X %08X\n", (unsigned)plan[VIERTOMPU_BLOCK_START], (unsigned)plan[VIERTOMPU_BLOCK_END]);
}

int main(int argc, char **argv)
{
    uint32_t plan[VIERTOMPU_PLAN_WORDS];
    size_t length;
    if (argc != 2) {
        fprintf(stderr, "usage: load SUBMISSION\n");
        return 2;
    }
    uint8_t *submission = read_file(argv[1], &length);
    if (!submission) {
        fprintf(stderr, "load: %s cannot be read\n", argv[1]);
        return 2;
    }
    uint32_t number = viertompu_load(submission, length, (const uint8_t *)"", 0, map, sizeof map, window, sizeof window, 0x100000, plan);
    free(submission);
    if (number == VIERTOMPU_LOAD) {
        print_plan(plan);
        if (plan[VIERTOMPU_FALSE_HEADERS] != 0)
            fprintf(stderr, "false headers below the header: %u\n", (unsigned)plan[VIERTOMPU_FALSE_HEADERS]);
    } else {
        printf("refused %u %u\n", (unsigned)number, (unsigned)plan[VIERTOMPU_ITEM]);
        fprintf(stderr, "%s\n", viertompu_reason(number));
    }
    return 0;
}
