/* Each call writes into memory of malloc that nobody initialized, and the program branches on what was written. Valgrind's
 * memcheck reports a branch that depends on such memory, so it finds a call that reads what it overwrites, or writes fewer
 * bytes than it says. What a call writes also has to be what it writes into memory of zeros. gate/linked runs this. */
#include <stdio.h>
#include <stdlib.h>

#include "octets.h"

static int passed, failed;

/* Some memory of a call, fresh and of zeros. Both are freed by `same`. */
typedef struct memory {
    uint8_t *fresh, *zeros;
    size_t len, fresh_off, zeros_off;
} memory;

static memory some(size_t len, size_t off) {
    memory one = {malloc(len + 1), calloc(len + 1, 1), len, off, off};
    if (!one.fresh || !one.zeros) {
        abort();
    }
    return one;
}

/* Whether both calls wrote the same bytes from `from` up to the offset. */
static void same(memory one, size_t from, bool agree, const char *what, size_t of) {
    bool holds = agree && one.fresh_off == one.zeros_off;
    for (size_t at = from; holds && at < one.fresh_off; at++) {
        holds = one.fresh[at] == one.zeros[at];
    }
    if (holds) {
        passed++;
    } else {
        failed++;
        printf("fresh.c: %s of %zu bytes writes something else\n", what, of);
    }
    free(one.fresh);
    free(one.zeros);
}

#define FRESH one.fresh, one.len, &one.fresh_off
#define ZEROS one.zeros, one.len, &one.zeros_off
#define TRY(call, room, from, of, ...) \
    do { \
        memory one = some(room, from); \
        const octets_status wanted = call(ZEROS, __VA_ARGS__); \
        same(one, from, call(FRESH, __VA_ARGS__) == wanted, #call, of); \
    } while (0)

static void numbers(uint64_t number) {
    TRY(octets_put_u8, 1, 0, 1, (uint8_t)number);
    TRY(octets_put_u16, 3, 1, 2, (uint16_t)number);
    TRY(octets_put_u24, 6, 2, 3, (uint32_t)number);
    TRY(octets_put_u32, 4, 0, 4, (uint32_t)number);
    TRY(octets_put_u64, 9, 1, 8, number);
    for (size_t room = 0; room < 9; room++) {
        TRY(octets_put_varint, room, 0, room, number);
        TRY(octets_put_varint_with_len, room, 0, room, number, 8);
    }
}

/* Puts the value into fresh memory with more room than it needs, with exactly as much, and with less. */
static void value(const uint8_t *bytes, size_t len, bool lower_case) {
    size_t text = 0;
    octets_status status = octets_huffman_text_len(bytes, len, lower_case, &text);
    for (size_t less = 0; less < 14; less++) {
        if (less <= text + 12 && status == OCTETS_DONE) {
            TRY(octets_put_huffman_encoded, text + 12 - less, less % 3, len, bytes, len, lower_case);
        }
        if (less <= len + 8) {
            TRY(octets_put_string, len + 8 - less, 0, len, bytes, len, lower_case);
            TRY(octets_put_bytes, len + 8 - less, 0, len, bytes, len);
            TRY(octets_put_bytes_with_varint_length, len + 8 - less, 0, len, bytes, len);
        }
    }
}

/* Takes the encoding of the value in pieces, decodes it, in one call and in two, and reads it as a literal, into fresh memory
 * each time. */
static void back(const uint8_t *bytes, size_t len) {
    memory text = some(OCTETS_TEXT_MOST(len), 0), literal = some(OCTETS_LITERAL_MOST(len), 0);
    octets_place place = {0, 0, 0, 0};
    size_t size = 0;
    do {
        uint8_t(*piece)[8] = malloc(8);
        if (!piece || octets_next_piece(bytes, len, false, &place, piece, &size) != OCTETS_DONE ||
            octets_put_bytes(text.fresh, text.len, &text.fresh_off, *piece, size) != OCTETS_DONE) {
            abort();
        }
        free(piece);
    } while (size > 0);
    if (octets_put_huffman_encoded(text.zeros, text.len, &text.zeros_off, bytes, len, false) != OCTETS_DONE ||
        octets_put_string(literal.zeros, literal.len, &literal.zeros_off, bytes, len, false) != OCTETS_DONE) {
        abort();
    }
    for (int how = 0; how < 3; how++) {
        memory out = some(2 * len + 2, 0);
        octets_decoder decoder = {0};
        octets_status status = OCTETS_DONE;
        size_t off = 0, cut = text.zeros_off / 2;
        if (how == 0) {
            status = octets_get_huffman_decoded(text.zeros, text.zeros_off, &off, out.fresh, out.len, &out.fresh_off);
        } else if (how == 1) {
            status = octets_get_string(literal.zeros, literal.zeros_off, &off, out.fresh, out.len, &out.fresh_off);
        } else if (octets_decode_piece(text.zeros, cut, &off, &decoder, out.fresh, out.len, &out.fresh_off) == OCTETS_DONE) {
            status = octets_decode_piece(text.zeros, text.zeros_off, &off, &decoder, out.fresh + out.fresh_off,
                                         out.len - out.fresh_off, &size);
            out.fresh_off += size;
        }
        for (size_t at = 0; at < len; at++) {
            out.zeros[at] = bytes[at];
        }
        out.zeros_off = len;
        same(out, 0, status == OCTETS_DONE, "a decode", len);
    }
    same(text, 0, true, "octets_next_piece", len);
    free(literal.fresh);
    free(literal.zeros);
}

int main(void) {
    const char *header = "GET https://www.Example.com/Index.html?id=1234 :method accept-encoding: gzip, br; theme=dark";
    uint8_t bytes[3][90];
    for (size_t at = 0; at < 90; at++) {
        bytes[0][at] = (uint8_t)header[at];
        bytes[1][at] = (uint8_t)(at * 37 + 11);
        bytes[2][at] = 'A';
    }
    for (int bits = 0; bits < 62; bits++) {
        numbers((UINT64_C(1) << bits) + 5);
    }
    for (int kind = 0; kind < 3; kind++) {
        for (size_t len = 0; len <= 90; len += len < 40 ? 1 : 7) {
            value(bytes[kind], len, false);
            value(bytes[kind], len, true);
            back(bytes[kind], len);
        }
    }
    printf("%d passed, %d failed\n", passed, failed);
    return failed != 0;
}
