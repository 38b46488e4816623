/*
 * Mends the checksum in the image named on the command line, in place, and prints what it did; a refusal's sentence goes to
 * standard error.
 *
 *     gcc -std=c99 -Iinclude samples/mend.c target/staticlib/libviertompu.a -o mend
 */
#include <stdio.h>
#include "viertompu.h"

/* Where the checksum stands in a header. */
#define CHECKSUM 8

/* The image's first bytes; no others count. */
static uint8_t image[VIERTOMPU_SEARCH_LIMIT];

/* Mends the file, of which at most the four bytes of a checksum are written; says whether it could be read and written. */
static int mend(FILE *file, uint32_t *number, uint32_t *report)
{
    size_t length = fread(image, 1, sizeof image, file);
    if (ferror(file))
        return 0;
    *number = viertompu_mend(image, length, report);
    if (report[VIERTOMPU_MENDED] == 0)
        return 1;
    long place = (long)report[VIERTOMPU_MENDED_HEADER] + CHECKSUM;
    return fseek(file, place, SEEK_SET) == 0 && fwrite(image + place, 1, 4, file) == 4;
}

static void print_answer(uint32_t number, const uint32_t *report)
{
    if (report[VIERTOMPU_MENDED] == 1) {
        printf("mended %08X old %08X new %08X\n", (unsigned)report[VIERTOMPU_MENDED_HEADER],
               (unsigned)report[VIERTOMPU_OLD_CHECKSUM], (unsigned)report[VIERTOMPU_NEW_CHECKSUM]);
    } else if (number == 0) {
        printf("has a header\n");
    } else {
        printf("refused %u 0\n", (unsigned)number);
        fprintf(stderr, "%s\n", viertompu_reason(number));
    }
}

int main(int argc, char **argv)
{
    uint32_t report[VIERTOMPU_MEND_WORDS], number;
    if (argc != 2) {
        fprintf(stderr, "usage: mend IMAGE\n");
        return 2;
    }
    FILE *file = fopen(argv[1], "r+b");
    int done = file && mend(file, &number, report);
    if (file && fclose(file) != 0)
        done = 0;
    if (!done) {
        fprintf(stderr, "mend: %s cannot be read and written\n", argv[1]);
        return 2;
    }
    print_answer(number, report);
    return 0;
}
