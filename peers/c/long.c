/* Checks Huffman encodings of 275 MB, whose number of bits doesn't fit in 32 bits, and offsets and lengths of 2^32
 * and more, or near 2^31 if size_t has 32 bits. It prints the line of each check that fails, and then how many checks
 * passed and failed. It needs 1.2 GB of memory. */
#include <stdio.h>
#include <stdlib.h>
#include <string.h>

#include "octets.h"

/* The lengths of the value and of its encoding. Each code has five bits, so eight bytes are encoded as five. */
#define VALUE ((size_t)440000000)
#define TEXT ((size_t)275000000)

static int passed, failed;
static uint8_t *value, *text, *back;

static void check(bool holds, int line) {
    if (holds) {
        passed++;
    } else {
        failed++;
        printf("long.c:%d differs\n", line);
    }
}

#define CHECK(holds) check(holds, __LINE__)

static void whole(void) {
    size_t off = 0, len = 0;
    CHECK(octets_huffman_text_len(value, VALUE, false, &len) == OCTETS_DONE && len == TEXT);
    CHECK(octets_huffman_encoding_len(value, VALUE, false, &len) == OCTETS_DONE && len == TEXT);
    CHECK(octets_put_huffman_encoded(text, TEXT - 1, &off, value, VALUE, false) == OCTETS_SHORT);
    off = 0;
    CHECK(octets_put_huffman_encoded(text, TEXT, &off, value, VALUE, false) == OCTETS_DONE);
    CHECK(off == TEXT);
    off = 0;
    CHECK(octets_get_huffman_decoded(text, TEXT, &off, back, VALUE, &len) == OCTETS_DONE);
    CHECK(off == TEXT && len == VALUE && memcmp(value, back, VALUE) == 0);
}

/* In the first case the last byte of the value doesn't fit. In the second, ten bytes before the end, where a code
 * begins, is the code of the end, which has 30 one bits. */
static void refused(void) {
    size_t off = 0, len = 0;
    CHECK(octets_get_huffman_decoded(text, TEXT, &off, back, VALUE - 1, &len) == OCTETS_NO_ROOM);
    CHECK(off == TEXT && len == VALUE - 1);
    memset(text + TEXT - 10, 0xff, 4);
    off = 0;
    CHECK(octets_get_huffman_decoded(text, TEXT, &off, back, VALUE, &len) == OCTETS_NOT_TEXT);
    CHECK(off == TEXT - 6 && len == VALUE - 16 && memcmp(value, back, len) == 0);
}

/* The code of a line feed has 30 bits, so VALUE of them are encoded as 1650000000 bytes, and 1200000000 of them as
 * 4500000000 bytes. */
static void feeds(void) {
    const size_t many = 1200000000;
    size_t len = 0;
    memset(value, '\n', VALUE);
    CHECK(octets_huffman_text_len(value, VALUE, false, &len) == OCTETS_DONE && len == 1650000000);
    CHECK(octets_huffman_encoding_len(value, VALUE, false, &len) == OCTETS_SHORT &&
          len == 1650000000);
    free(back);
    free(text);
    free(value);
    value = (uint8_t *)malloc(many);
    if (value == NULL) {
        exit(1);
    }
    memset(value, '\n', many);
#if SIZE_MAX > UINT32_MAX
    CHECK(octets_huffman_text_len(value, many, false, &len) == OCTETS_DONE && len == 4500000000);
#else
    CHECK(octets_huffman_text_len(value, many, false, &len) == OCTETS_LONG && len == 1650000000);
#endif
    CHECK(octets_huffman_encoding_len(value, many, false, &len) == OCTETS_SHORT);
}

/* The longest value that a literal may have, and a value that is one byte longer. The values are zeros, and no page
 * of them is written. */
static void longest(void) {
#if SIZE_MAX > UINT32_MAX
    uint8_t out[16] = {0};
    const size_t most = 4294967295;
    size_t off = 0;
    uint8_t *zeros = (uint8_t *)calloc(most + 1, 1);
    if (zeros == NULL) {
        exit(1);
    }
    CHECK(octets_put_string(out, 16, &off, zeros, most, false) == OCTETS_SHORT && off == 0);
    CHECK(octets_put_string(out, 16, &off, zeros, most + 1, false) == OCTETS_LONG && off == 0);
    free(zeros);
#endif
}

#if SIZE_MAX > UINT32_MAX
#define FAR ((size_t)4294967296)
#else
#define FAR ((size_t)2147483500)
#endif
#define END (FAR + 64)

/* Writes numbers at this offset, where few bytes are left, and reads them again. */
static void numbers(uint8_t *bytes, size_t from) {
    const size_t end = from + 18;
    size_t off = from;
    uint8_t one = 0;
    uint16_t two = 0;
    uint32_t three = 0, four = 0;
    uint64_t eight = 0;
    CHECK(octets_put_u8(bytes, end, &off, 0x11) == OCTETS_DONE && off == from + 1);
    CHECK(octets_put_u16(bytes, end, &off, 0x2122) == OCTETS_DONE && off == from + 3);
    CHECK(octets_put_u24(bytes, end, &off, 0x313233) == OCTETS_DONE && off == from + 6);
    CHECK(octets_put_u32(bytes, end, &off, 0x41424344) == OCTETS_DONE && off == from + 10);
    CHECK(octets_put_varint(bytes, end, &off, 0x3fffffffffffffff) == OCTETS_DONE && off == end);
    CHECK(octets_put_u8(bytes, end, &off, 0) == OCTETS_SHORT && off == end);
    off = from;
    CHECK(octets_get_u8(bytes, end, &off, &one) == OCTETS_DONE && one == 0x11);
    CHECK(octets_get_u16(bytes, end, &off, &two) == OCTETS_DONE && two == 0x2122);
    CHECK(octets_get_u24(bytes, end, &off, &three) == OCTETS_DONE && three == 0x313233);
    CHECK(octets_get_u32(bytes, end, &off, &four) == OCTETS_DONE && four == 0x41424344);
    CHECK(octets_get_u64(bytes, end, &off, &eight) == OCTETS_DONE && eight == 0xffffffffffffffff);
    CHECK(off == end && octets_get_u8(bytes, end, &off, &one) == OCTETS_SHORT);
    off = end - 8;
    CHECK(octets_put_bytes(bytes, end, &off, (const uint8_t *)"abcdefgh", 8) == OCTETS_DONE && off == end);
    off = end - 8;
    CHECK(octets_put_varint_with_len(bytes, end, &off, 1, 8) == OCTETS_DONE && off == end);
    off = end - 8;
    CHECK(octets_get_varint_shortest(bytes, end, &off, &eight) == OCTETS_OVERLONG && off == end - 8);
}

/* Reads and writes at a large offset, and reads many bytes at once. The buffer has zeros, and few pages of it are
 * written. */
static void distant(void) {
    uint8_t *bytes = (uint8_t *)calloc(END, 1), out[3] = {0};
    size_t off = 0, len = 0, from;
    octets_run run = {9, 9};
    uint64_t number = 0;
    if (bytes == NULL) {
        exit(1);
    }
    CHECK(octets_put_varint_with_len(bytes, END, &off, FAR, 8) == OCTETS_DONE && off == 8);
    CHECK(octets_skip(bytes, END, &off, FAR - 8) == OCTETS_DONE && off == FAR);
    CHECK(octets_put_u64(bytes, END, &off, 0x0102030405060708) == OCTETS_DONE);
    CHECK(octets_put_varint_with_len(bytes, END, &off, FAR, 8) == OCTETS_DONE);
    CHECK(octets_put_string(bytes, END, &off, (const uint8_t *)"abc", 3, false) == OCTETS_DONE);
    CHECK(off == FAR + 19);
    off = 0;
    CHECK(octets_get_bytes_with_varint_length(bytes, END, &off, &run) == OCTETS_DONE);
    CHECK(run.from == 8 && run.len == FAR && off == FAR + 8);
    CHECK(octets_get_bytes_with_varint_length(bytes, END, &off, &run) == OCTETS_SHORT && off == FAR + 16);
    CHECK(octets_get_string(bytes, END, &off, out, 3, &len) == OCTETS_DONE && off == FAR + 19);
    CHECK(len == 3 && memcmp(out, "abc", 3) == 0);
    off = FAR;
    CHECK(octets_get_u64(bytes, END, &off, &number) == OCTETS_DONE && number == 0x0102030405060708);
    CHECK(octets_get_varint(bytes, END, &off, &number) == OCTETS_DONE && number == FAR && off == FAR + 16);
    off = 1;
    CHECK(octets_get_bytes(bytes, END, &off, END, &run) == OCTETS_SHORT && off == 1 && run.len == FAR);
    CHECK(octets_get_bytes(bytes, END, &off, END - 1, &run) == OCTETS_DONE && off == END);
    CHECK(run.from == 1 && run.len == END - 1 && octets_skip(bytes, END, &off, 1) == OCTETS_SHORT);
    off = 1;
    CHECK(octets_put_bytes(bytes, 64, &off, bytes + 64, FAR) == OCTETS_SHORT && off == 1);
    CHECK(octets_put_bytes(bytes, 64, &off, bytes + 64, FAR - 64) == OCTETS_SHORT && off == 1);
    CHECK(octets_put_bytes(bytes, END, &off, (const uint8_t *)"xyz", 3) == OCTETS_DONE && off == 4);
    for (from = 100; from < FAR / 3; from *= 3) {
        numbers(bytes, from);
    }
    numbers(bytes, FAR);
    free(bytes);
}

int main(void) {
    value = (uint8_t *)malloc(VALUE);
    text = (uint8_t *)calloc(TEXT, 1);
    back = (uint8_t *)malloc(VALUE);
    if (value == NULL || text == NULL || back == NULL) {
        return 1;
    }
    for (size_t i = 0; i < VALUE; i++) {
        value[i] = (uint8_t) "012aceiost"[i % 10];
    }
    whole();
    refused();
    feeds();
    free(value);
    longest();
    distant();
    printf("%d passed, %d failed\n", passed, failed);
    return failed != 0;
}
