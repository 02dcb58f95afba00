/* Makes calls of libmassey.a whose input and output lie in one region of bytes,
 * where they may overlap. Standard input has one question after the other, all
 * numbers 4 bytes, high byte first: the call's letter (D, L, A or R), the
 * region's length, where the input begins and its length, where the output
 * begins and its length, the region's bytes. For each, standard output gets the call's
 * answer, 8 bytes, and the region as the call left it. */
#include "massey.h"

#include <stdio.h>
#include <stdlib.h>

static void fail(const char *why) {
    fprintf(stderr, "driver: %s\n", why);
    exit(2);
}

static size_t number(void) {
    uint8_t bytes[4];
    if (fread(bytes, 1, 4, stdin) != 4)
        fail("a number is cut");
    return (size_t)bytes[0] << 24 | (size_t)bytes[1] << 16 | (size_t)bytes[2] << 8 | bytes[3];
}

static int64_t call(int letter, const uint8_t *in, size_t in_len, uint8_t *out,
                    size_t out_len) {
    switch (letter) {
    case 'D':
        if (in_len != 2)
            fail("a word has two bytes");
        return massey_disassemble((uint16_t)(in[0] << 8 | in[1]), out, out_len);
    case 'L':
        return massey_listing(in, in_len, out, out_len);
    case 'A':
        return massey_assemble(in, in_len, out, out_len);
    case 'R':
        return massey_report(in, in_len, out, out_len);
    }
    fail("there is no such call");
    return 0;
}

static void put_answer(int64_t answer) {
    for (int shift = 56; shift >= 0; shift -= 8)
        putchar((int)((uint64_t)answer >> shift & 0xFF));
}

int main(void) {
    int letter;
    while ((letter = getchar()) != EOF) {
        size_t length = number();
        size_t in_at = number(), in_len = number();
        size_t out_at = number(), out_len = number();
        uint8_t *region = malloc(length);
        if (!region || fread(region, 1, length, stdin) != length)
            fail("a region is cut");
        put_answer(call(letter, region + in_at, in_len, region + out_at, out_len));
        if (fwrite(region, 1, length, stdout) != length)
            fail("an answer cannot be written");
        free(region);
    }
    return fflush(stdout) ? 2 : 0;
}
