/** @file
 * Reads and writes packets: integers in network byte order, variable-length integers (varints; RFC 9000,
 * section 16), byte ranges (runs), and the Huffman code and string literals of HPACK (RFC 7541, section 5.2).
 *
 *     #include <stdio.h>
 *     #include "octets.h"
 *
 *     int main(void) {
 *         const uint8_t packet[] = {0x07, 0x03, 'a', 'b', 'c'};
 *         size_t off = 0;
 *         uint8_t kind = 0;
 *         octets_run name = {0, 0};
 *         if (octets_get_u8(packet, sizeof packet, &off, &kind) != OCTETS_DONE ||
 *             octets_get_bytes_with_u8_length(packet, sizeof packet, &off, &name) != OCTETS_DONE) {
 *             return 1;
 *         }
 *         printf("kind %d name %.*s\n", kind, (int)name.len, (const char *)OCTETS_RUN_START(packet, name));
 *         return 0;
 *     }
 *
 * A call that reads from or writes to a buffer takes the buffer (a pointer and a length) and a pointer to an
 * offset into it. It starts at the offset, and moves the offset past what it reads or writes. To peek, pass a
 * pointer to a copy of the offset; to go back, assign an earlier value to the offset.
 *
 * A call returns for every offset and every number. If the offset is past the end of the buffer, or a number is
 * out of the call's range, it returns the status of an error. For octets_put_u24 every number is in range: it
 * writes the low 24 bits. (octets_next_piece takes a state, the struct octets_place below, and doesn't detect
 * every wrong state.) The library keeps no pointer after a call, has no global state, and allocates no memory.
 *
 * Memory that a call only writes (the buffer of a put, the output buffer of a decode, and each result) needn't
 * be initialized: the library reads none of it. The library that cargo builds needs more, which its README says.
 *
 * A call that fails returns a status other than OCTETS_DONE. It then has written nothing through its pointers
 * and has left the offset unchanged, except for what its comment says under `On error`. If the offset is past
 * the end of the buffer, a call returns OCTETS_SHORT and changes nothing. There are two exceptions. A put whose
 * value or width is invalid returns OCTETS_UNFIT or OCTETS_LONG instead, because it checks these first. And
 * octets_get_huffman_decoded, octets_decode_piece and octets_get_string set *len to 0. Most comments below leave
 * out the case of an offset past the end. In that case a call returns OCTETS_SHORT even if it gets or puts no
 * bytes.
 *
 * A pointer that comes with a length has to point to that many objects, and any other pointer to one object.
 * Each pointer has to be aligned for the type of its object. The length of a pointer must not exceed
 * PTRDIFF_MAX. (The number of bytes to get or to skip may, since it belongs to no pointer.) If the length of a
 * pointer is 0, the pointer may be NULL, as data() of an empty std::vector may be, or point anywhere. No other
 * pointer may be NULL: passing NULL is undefined behavior. UBSan reports a NULL at run time.
 *
 * Memory that a call may write (the buffer of a put, the output buffer of a decode, the offset, the
 * octets_place or octets_decoder, and each result) must not overlap any other memory that is passed to the same
 * call. Buffers that are only read may overlap each other.
 *
 * The library is thread-safe: threads may call it at the same time, as long as no thread accesses memory that
 * another thread's call may write. This memory is the offset, the octets_place or octets_decoder, each result,
 * the whole buffer of a put, and the whole output buffer of a decode, including bytes that the call leaves
 * unchanged. Threads may read the same bytes at the same time. */
#ifndef OCTETS_H
#define OCTETS_H

#include <stdbool.h>
#include <stddef.h>
#include <stdint.h>

/** This header has the version number of the Rust crate octets whose API it has. Most of its calls are calls of
 * that crate. These calls of that crate have no counterpart here: peek_.., rewind, slice, slice_last, split_at,
 * get_bytes_mut, as_ref, as_mut, to_vec, and those that create or describe a cursor, such as with_slice and cap.
 * These calls of this header have no counterpart in that crate: octets_get_bytes_u64, octets_get_varint_shortest,
 * octets_put_bytes_with_varint_length, octets_huffman_text_len, octets_next_piece, octets_decode_piece,
 * octets_decode_end, octets_get_string, octets_put_string, octets_version, octets_status_text and
 * octets_status_name. octets_get_huffman_decoded is the counterpart of get_huffman_decoded and of
 * get_huffman_decoded_with_max_length.
 *
 * OCTETS_VERSION is the version of this header as a number, and octets_version() returns that of the linked library:
 * 1000000 * major + 10000 * minor + 100 * patch + release. The first three numbers are the version of octets. Each
 * release has a greater number of its own, also if it only adds a call, so that `#if OCTETS_VERSION >= 30703` asks
 * for the calls that release 3 added: octets_get_bytes_u64, octets_varint_len, octets_varint_parse_len,
 * octets_put_bytes_with_varint_length, octets_decode_piece, octets_decode_end and octets_status_name. Before release 3
 * the number was 307. */
#define OCTETS_VERSION 30703
/** The version of this header as text. pkg-config and meson compare it in this form, and CMake with a period in
 * place of the plus sign. */
#define OCTETS_RELEASE "0.3.7+3"
/** In a package, the commit of the sources. */
#define OCTETS_COMMIT "unknown"
/** In a package, the Rattle kit whose compiler built the libraries in its folder lib. Installed beside a library
 * that cargo built, "cargo". */
#define OCTETS_KIT "unknown"

#ifdef __cplusplus
#define OCTETS_SIZE(n) (static_cast<size_t>(n))
#define OCTETS_NO_BYTES (reinterpret_cast<uint8_t *>(OCTETS_SIZE(1)))
#else
/** n converted to size_t. */
#define OCTETS_SIZE(n) ((size_t)(n))
/** A pointer that isn't NULL. Pass it with a length of 0 if your tools reject NULL. It must not be
 * dereferenced. */
#define OCTETS_NO_BYTES ((uint8_t *)OCTETS_SIZE(1))
#endif

/** The pointer to the first byte of an octets_run of the buffer bytes: bytes + run.from, and NULL for the run of
 * no bytes in a buffer whose pointer is NULL, where C doesn't define NULL + 0. Both arguments may be evaluated
 * twice. */
#define OCTETS_RUN_START(bytes, run) ((run).from == 0 ? (bytes) : (bytes) + (run).from)

/** The greatest number that a varint holds, 2^62 - 1. */
#define OCTETS_VARINT_MAX UINT64_C(4611686018427387903)
/** The greatest number of bytes of the value in a string literal, 2^32 - 1. */
#define OCTETS_LITERAL_MAX UINT32_C(4294967295)

/* The next three macros compute buffer sizes that always suffice. It is proved that the sizes suffice, and tested
 * that the macros compute them. They are of type size_t, may evaluate n more than once, and are valid for each n
 * for which 4 * n doesn't overflow size_t. */
/** A size that suffices for the Huffman encoding of a value of n bytes. */
#define OCTETS_TEXT_MOST(n) (4 * OCTETS_SIZE(n))
/** A size that suffices for the value of a Huffman encoding of n bytes, and for the value of a string literal of at
 * most n bytes. */
#define OCTETS_VALUE_MOST(n) (OCTETS_SIZE(n) / 5 * 8 + OCTETS_SIZE(n) % 5 * 8 / 5)
/** A size that suffices for the string literal of a value of n bytes. */
#define OCTETS_LITERAL_MOST(n) (OCTETS_SIZE(n) + 6)

/* OCTETS_CHECKED(..) marks a function whose status must not be ignored. Its arguments are the positions of the
 * parameters that must not be NULL. OCTETS_RESTRICT marks a parameter whose memory must not overlap other
 * memory that is passed. gcc -Wall warns if a status is ignored, if a NULL constant is passed for a parameter
 * that must not be NULL, or if arguments overlap; clang warns about the status and NULL. */
#if defined(__GNUC__)
#define OCTETS_NOT_NULL(...) __attribute__((nonnull(__VA_ARGS__)))
#else
#define OCTETS_NOT_NULL(...)
#endif
#if defined(__cplusplus) && __cplusplus >= 201703L
#define OCTETS_CHECKED(...) [[nodiscard]] OCTETS_NOT_NULL(__VA_ARGS__)
#elif !defined(__cplusplus) && defined(__STDC_VERSION__) && __STDC_VERSION__ >= 202311L
#define OCTETS_CHECKED(...) [[nodiscard]] OCTETS_NOT_NULL(__VA_ARGS__)
#elif defined(__GNUC__)
#define OCTETS_CHECKED(...) __attribute__((warn_unused_result)) OCTETS_NOT_NULL(__VA_ARGS__)
#else
#define OCTETS_CHECKED(...)
#endif
#if !defined(__cplusplus) && defined(__STDC_VERSION__) && __STDC_VERSION__ >= 199901L
#define OCTETS_RESTRICT restrict
#elif defined(__GNUC__) || defined(_MSC_VER)
#define OCTETS_RESTRICT __restrict
#else
#define OCTETS_RESTRICT
#endif

#ifdef __cplusplus
extern "C" {
#endif

/** What a call returns, in one byte. */
#if defined(__cplusplus)
enum octets_status : uint8_t
#else
typedef uint8_t octets_status;
enum
#endif
{
    /** Success. */
    OCTETS_DONE = 0,
    /** Too few bytes remain to read or to write, or the offset is past the end of the buffer.
     * octets_huffman_encoding_len: the encoding is longer than the value. */
    OCTETS_SHORT = 1,
    /** octets_get_varint_shortest: the varint is wider than its value needs. */
    OCTETS_OVERLONG = 2,
    /** octets_put_varint, octets_put_varint_with_len: the number is above OCTETS_VARINT_MAX, or is too large for the
     * width, or no varint has that width. octets_next_piece: the octets_place isn't a valid state. */
    OCTETS_UNFIT = 3,
    /** octets_get_string: the length is encoded in more than six bytes, or is greater than OCTETS_LITERAL_MAX.
     * octets_put_string: the value has more than OCTETS_LITERAL_MAX bytes. octets_huffman_text_len: size_t can't
     * hold the length of the encoding. */
    OCTETS_LONG = 4,
    /** The bytes aren't a valid Huffman encoding. HTTP/2 treats this as a connection error of type
     * COMPRESSION_ERROR, and HTTP/3 as one of type QPACK_DECOMPRESSION_FAILED, or on QPACK's encoder stream of
     * type QPACK_ENCODER_STREAM_ERROR. */
    OCTETS_NOT_TEXT = 5,
    /** The value is longer than the output buffer that the caller passed. octets_decode_piece: the byte at the
     * offset completes more bytes than the output buffer has space for. */
    OCTETS_NO_ROOM = 6
};

/** A byte range of a buffer: the len bytes that begin at OCTETS_RUN_START(bytes, run). */
typedef struct octets_run {
    /** The index of its first byte. */
    size_t from;
    /** Its number of bytes. */
    size_t len;
} octets_run;

/** The state of an encode by octets_next_piece, which returns an encoding in pieces. Zero-initialize the state,
 * and then let only that call change it. */
typedef struct octets_place {
    /** How many bytes of the value have been encoded. */
    size_t at;
    /** The bits of the codes of the first `at` bytes of the value, without those that pieces of eight bytes have
     * returned. The first bit that is left is the most significant bit of the field. The less significant
     * bits, which aren't used, are zero. */
    uint64_t bits;
    /** How many bits the field `bits` holds, at most 63. */
    uint32_t count;
    /** The last pieces of an encoding have four bytes or one byte. They are copied from the field `bits`, which
     * stays as it is. The field `given` counts the bytes that such pieces have returned so far. It is 0 before
     * the first of them. */
    uint32_t given;
} octets_place;

/** The state of a decode by octets_decode_piece, which takes an encoding in pieces. Zero-initialize the state, and
 * then let only that call change it. You may copy it, and store it: a copy continues from the same place. */
typedef struct octets_decoder {
    /** A number for the bits that were read since the last complete code, of which there are at most 29. Each
     * value of the type is such a number. 0 is that of no bits. */
    uint8_t state;
} octets_decoder;

/** octets_status_text: returns an English description of a status, such as "length is too great", or "unknown
 * status" for any other number, as a static string that the caller must not free. The description is the same
 * whichever call returned the status. */
const char *octets_status_text(octets_status status);

/** octets_status_name: returns the name of a status, such as "OCTETS_LONG", or "unknown status" for any other
 * number, as a static string that the caller must not free. */
const char *octets_status_name(octets_status status);

/* The exports. tools/erase writes what follows from their doc comments. */

/** octets_version: returns the version of the linked library as a number: 30703 is 0.3.7+3.
 * Returns OCTETS_VERSION if the linked library has the version of this header. */
uint32_t octets_version(void);

/** octets_get_u8, octets_get_u16, octets_get_u24, octets_get_u32, octets_get_u64: read an integer of 1, 2, 3, 4
 * or 8 bytes, the most significant byte first, and set *value to it.
 * Returns OCTETS_SHORT if and only if fewer bytes remain than the integer has, otherwise OCTETS_DONE. */
OCTETS_CHECKED(3, 4)
octets_status octets_get_u8(const uint8_t *bytes, size_t bytes_len, size_t *OCTETS_RESTRICT off,
    uint8_t *OCTETS_RESTRICT value);
/** @copydoc octets_get_u8 */
OCTETS_CHECKED(3, 4)
octets_status octets_get_u16(const uint8_t *bytes, size_t bytes_len, size_t *OCTETS_RESTRICT off,
    uint16_t *OCTETS_RESTRICT value);
/** @copydoc octets_get_u8 */
OCTETS_CHECKED(3, 4)
octets_status octets_get_u24(const uint8_t *bytes, size_t bytes_len, size_t *OCTETS_RESTRICT off,
    uint32_t *OCTETS_RESTRICT value);
/** @copydoc octets_get_u8 */
OCTETS_CHECKED(3, 4)
octets_status octets_get_u32(const uint8_t *bytes, size_t bytes_len, size_t *OCTETS_RESTRICT off,
    uint32_t *OCTETS_RESTRICT value);
/** @copydoc octets_get_u8 */
OCTETS_CHECKED(3, 4)
octets_status octets_get_u64(const uint8_t *bytes, size_t bytes_len, size_t *OCTETS_RESTRICT off,
    uint64_t *OCTETS_RESTRICT value);

/** octets_get_varint: reads a varint of any width, even if a smaller width could hold its value.
 * Returns OCTETS_SHORT if and only if the buffer ends before the varint does, otherwise OCTETS_DONE. If at least
 * eight bytes remain, the buffer never ends before the varint. */
OCTETS_CHECKED(3, 4)
octets_status octets_get_varint(const uint8_t *bytes, size_t bytes_len, size_t *OCTETS_RESTRICT off,
    uint64_t *OCTETS_RESTRICT value);

/** octets_get_varint_shortest: reads a varint, and fails if it is wider than its value needs.
 * Returns OCTETS_SHORT if and only if the buffer ends before the varint does, OCTETS_OVERLONG if and only if the
 * varint is complete and wider than its value needs, otherwise OCTETS_DONE. */
OCTETS_CHECKED(3, 4)
octets_status octets_get_varint_shortest(const uint8_t *bytes, size_t bytes_len,
    size_t *OCTETS_RESTRICT off, uint64_t *OCTETS_RESTRICT value);

/** octets_varint_len: returns the smallest width of a varint that holds value: 1, 2, 4 or 8 bytes; or 0 if value
 * is above OCTETS_VARINT_MAX. */
size_t octets_varint_len(uint64_t value);

/** octets_varint_parse_len: returns the width of a varint whose first byte is first: 1, 2, 4 or 8 bytes. Every
 * byte is the first byte of a varint. */
size_t octets_varint_parse_len(uint8_t first);

/** octets_skip: moves the offset past len bytes.
 * Returns OCTETS_SHORT if and only if fewer than len bytes remain, otherwise OCTETS_DONE.
 * If size_t has 32 bits, C cuts a len of 64 bits to its low 32 bits without a warning. To skip as many bytes as
 * a varint says, call octets_get_bytes_u64. */
OCTETS_CHECKED(3)
octets_status octets_skip(const uint8_t *bytes, size_t bytes_len, size_t *OCTETS_RESTRICT off,
    size_t len);

/** octets_get_bytes: sets *run to the next len bytes, and moves the offset past them. It copies no byte.
 * Returns OCTETS_SHORT if and only if fewer than len bytes remain, otherwise OCTETS_DONE.
 * If size_t has 32 bits, C cuts a len of 64 bits to its low 32 bits without a warning: a length of 2^32 + 5
 * becomes 5. For a length that was read as a varint, call octets_get_bytes_u64. */
OCTETS_CHECKED(3, 5)
octets_status octets_get_bytes(const uint8_t *bytes, size_t bytes_len, size_t *OCTETS_RESTRICT off,
    size_t len, octets_run *OCTETS_RESTRICT run);

/** octets_get_bytes_u64: does what octets_get_bytes does, with a len of 64 bits. */
OCTETS_CHECKED(3, 5)
octets_status octets_get_bytes_u64(const uint8_t *bytes, size_t bytes_len,
    size_t *OCTETS_RESTRICT off, uint64_t len, octets_run *OCTETS_RESTRICT run);

/** octets_get_bytes_with_u8_length, octets_get_bytes_with_u16_length, octets_get_bytes_with_varint_length: read a
 * length, set *run to that many bytes after the length, and move the offset past these bytes. The length is an
 * integer of one or two bytes (the most significant first), or a varint of any width. They copy no byte.
 * Returns OCTETS_SHORT if and only if the length is incomplete or fewer bytes follow than it says, otherwise
 * OCTETS_DONE.
 * On error: the offset is after the length if the length is complete, and unchanged if it isn't; *run is
 * unchanged. To try again with more bytes, assign to the offset what it was before the call. */
OCTETS_CHECKED(3, 4)
octets_status octets_get_bytes_with_u8_length(const uint8_t *bytes, size_t bytes_len,
    size_t *OCTETS_RESTRICT off, octets_run *OCTETS_RESTRICT run);
/** @copydoc octets_get_bytes_with_u8_length */
OCTETS_CHECKED(3, 4)
octets_status octets_get_bytes_with_u16_length(const uint8_t *bytes, size_t bytes_len,
    size_t *OCTETS_RESTRICT off, octets_run *OCTETS_RESTRICT run);
/** @copydoc octets_get_bytes_with_u8_length */
OCTETS_CHECKED(3, 4)
octets_status octets_get_bytes_with_varint_length(const uint8_t *bytes, size_t bytes_len,
    size_t *OCTETS_RESTRICT off, octets_run *OCTETS_RESTRICT run);

/** octets_put_bytes: copies all bytes of value to the buffer.
 * Returns OCTETS_SHORT if and only if fewer than value_len bytes remain, otherwise OCTETS_DONE. */
OCTETS_CHECKED(3)
octets_status octets_put_bytes(uint8_t *OCTETS_RESTRICT bytes, size_t bytes_len,
    size_t *OCTETS_RESTRICT off, const uint8_t *value, size_t value_len);

/** octets_put_u8, octets_put_u16, octets_put_u24, octets_put_u32, octets_put_u64: write value as 1, 2, 3, 4 or 8
 * bytes, the most significant byte first. octets_put_u24 writes the low 24 bits of value.
 * Returns OCTETS_SHORT if and only if fewer bytes remain than are to be written, otherwise OCTETS_DONE. */
OCTETS_CHECKED(3)
octets_status octets_put_u8(uint8_t *OCTETS_RESTRICT bytes, size_t bytes_len,
    size_t *OCTETS_RESTRICT off, uint8_t value);
/** @copydoc octets_put_u8 */
OCTETS_CHECKED(3)
octets_status octets_put_u16(uint8_t *OCTETS_RESTRICT bytes, size_t bytes_len,
    size_t *OCTETS_RESTRICT off, uint16_t value);
/** @copydoc octets_put_u8 */
OCTETS_CHECKED(3)
octets_status octets_put_u24(uint8_t *OCTETS_RESTRICT bytes, size_t bytes_len,
    size_t *OCTETS_RESTRICT off, uint32_t value);
/** @copydoc octets_put_u8 */
OCTETS_CHECKED(3)
octets_status octets_put_u32(uint8_t *OCTETS_RESTRICT bytes, size_t bytes_len,
    size_t *OCTETS_RESTRICT off, uint32_t value);
/** @copydoc octets_put_u8 */
OCTETS_CHECKED(3)
octets_status octets_put_u64(uint8_t *OCTETS_RESTRICT bytes, size_t bytes_len,
    size_t *OCTETS_RESTRICT off, uint64_t value);

/** octets_put_varint: writes value as a varint of the smallest width that holds it.
 * Returns OCTETS_UNFIT if value is above OCTETS_VARINT_MAX; otherwise OCTETS_SHORT if fewer bytes remain than
 * the varint has; otherwise OCTETS_DONE. */
OCTETS_CHECKED(3)
octets_status octets_put_varint(uint8_t *OCTETS_RESTRICT bytes, size_t bytes_len,
    size_t *OCTETS_RESTRICT off, uint64_t value);

/** octets_put_varint_with_len: writes value as a varint of width bytes.
 * Returns OCTETS_UNFIT if width isn't 1, 2, 4 or 8, or if value isn't below 2^(8 * width - 2); otherwise
 * OCTETS_SHORT if fewer than width bytes remain; otherwise OCTETS_DONE. */
OCTETS_CHECKED(3)
octets_status octets_put_varint_with_len(uint8_t *OCTETS_RESTRICT bytes, size_t bytes_len,
    size_t *OCTETS_RESTRICT off, uint64_t value, size_t width);

/** octets_put_bytes_with_varint_length: writes value_len as a varint of the smallest width that holds it, and
 * then all bytes of value.
 * Returns OCTETS_LONG if value_len is above OCTETS_VARINT_MAX; otherwise OCTETS_SHORT if fewer bytes remain than
 * the varint and value have together; otherwise OCTETS_DONE. */
OCTETS_CHECKED(3)
octets_status octets_put_bytes_with_varint_length(uint8_t *OCTETS_RESTRICT bytes, size_t bytes_len,
    size_t *OCTETS_RESTRICT off, const uint8_t *value, size_t value_len);

/** octets_huffman_encoding_len: sets *len to the number of bytes of the Huffman encoding of value. If lower_case
 * is true, A to Z are encoded as a to z.
 * Returns OCTETS_SHORT if and only if the encoding is longer than value, otherwise OCTETS_DONE. After
 * OCTETS_SHORT, send value itself, which is shorter than the encoding; if lower_case is true, convert value to
 * lower case yourself. */
OCTETS_CHECKED(4)
octets_status octets_huffman_encoding_len(const uint8_t *value, size_t value_len, bool lower_case,
    size_t *OCTETS_RESTRICT len);

/** octets_huffman_text_len: sets *len as octets_huffman_encoding_len does, but succeeds also if the encoding is
 * longer than value.
 * Returns OCTETS_LONG if and only if size_t can't hold the length, otherwise OCTETS_DONE. */
OCTETS_CHECKED(4)
octets_status octets_huffman_text_len(const uint8_t *value, size_t value_len, bool lower_case,
    size_t *OCTETS_RESTRICT len);

/** octets_put_huffman_encoded: writes the Huffman encoding of value. If lower_case is true, A to Z are encoded as
 * a to z. OCTETS_TEXT_MOST(value_len) bytes always suffice.
 * Returns OCTETS_SHORT if and only if fewer bytes remain than the encoding has, otherwise OCTETS_DONE.
 * On error: unless the offset was past the end of the buffer, a prefix of the encoding was written, and the
 * offset is after it. The encoding is divided into pieces: one of eight bytes for each full 64 bits of the
 * codes. The remaining bits are padded to whole bytes. If there are at least four of these bytes, the first four
 * are one piece. Each other byte is a piece of its own. The prefix ends before the first piece that doesn't fit.
 * To write the rest elsewhere, call octets_next_piece from the start of the encoding until its pieces have as
 * many bytes as the prefix. The next calls return the rest. */
OCTETS_CHECKED(3)
octets_status octets_put_huffman_encoded(uint8_t *OCTETS_RESTRICT bytes, size_t bytes_len,
    size_t *OCTETS_RESTRICT off, const uint8_t *value, size_t value_len, bool lower_case);

/** octets_get_huffman_decoded: decodes all bytes from the offset to the end of the buffer, writes the value to
 * the first *len bytes of out, and leaves the other bytes of out unchanged. If other bytes follow the encoding,
 * pass as bytes_len only the number of bytes from the start of the buffer to the end of the encoding. An out_len
 * of OCTETS_VALUE_MOST(bytes_len - *off) always suffices.
 * Returns OCTETS_SHORT if and only if the offset is past the end of the buffer. Otherwise it returns OCTETS_DONE
 * if the encoding has no error, and else its first error: OCTETS_NO_ROOM if out has no space for the next byte
 * of the value; OCTETS_NOT_TEXT if the next code is that of the symbol EOS, or if the last bits are neither a
 * code nor a padding of at most seven one bits.
 * On error: the first *len bytes of out are what was decoded before the error. If out has no space for a symbol,
 * or the symbol is EOS, the offset is now after the byte of the buffer in which the code of this symbol ends. If
 * the last bits are the error, the offset is at the end of the buffer. Decoding can't be resumed at either
 * offset, since a code may begin within a byte. An offset that was past the end of the buffer is unchanged. */
OCTETS_CHECKED(3, 6)
octets_status octets_get_huffman_decoded(const uint8_t *bytes, size_t bytes_len,
    size_t *OCTETS_RESTRICT off, uint8_t *OCTETS_RESTRICT out, size_t out_len,
    size_t *OCTETS_RESTRICT len);

/** octets_next_piece: writes the next piece of the encoding of value to the first *len bytes of *piece. The
 * pieces are those into which octets_put_huffman_encoded divides the encoding. *len is the size of the piece: 8,
 * 4 or 1, or 0 if no piece was left. The other bytes of *piece are unchanged. Zero-initialize *place before the
 * first call, and pass the same value, lower_case and place to each call.
 * Returns OCTETS_UNFIT if and only if at least one of these is true: `count` is 64 or more; `bits` has a 1 after
 * its first `count` bits; `at` is above value_len; `at` is below value_len while `given` isn't 0. Otherwise it
 * returns OCTETS_DONE. A zero-initialized state, and every state that a call with the same value left, is
 * accepted. A wrong state that meets none of these conditions isn't detected, for example if value was changed.
 * The call then continues with the contents of `bits`, and with the bytes of value from index `at` on, whatever
 * these are. */
OCTETS_CHECKED(4, 5, 6)
octets_status octets_next_piece(const uint8_t *value, size_t value_len, bool lower_case,
    octets_place *OCTETS_RESTRICT place, uint8_t (*OCTETS_RESTRICT piece)[8],
    size_t *OCTETS_RESTRICT len);

/** octets_decode_piece: decodes the bytes from the offset to the end of the buffer, which continue the encoding
 * that earlier calls with the same decoder have read, writes the bytes whose codes they complete to the first
 * *len bytes of out, and leaves the other bytes of out unchanged. The offset moves past the bytes that were
 * read. Zero-initialize *decoder before the first piece. However an encoding is cut into pieces, the bytes that
 * were written are the value that octets_get_huffman_decoded decodes of the whole encoding. An out_len of twice
 * the number of bytes of the piece always suffices.
 * Returns OCTETS_DONE if it read all bytes; OCTETS_NO_ROOM if the byte at the offset completes more bytes than
 * out has space for, which are at most two; OCTETS_NOT_TEXT if the code of the symbol EOS ends in the byte at
 * the offset, so that the encoding has an error; OCTETS_SHORT if and only if the offset was past the end of the
 * buffer.
 * On error: after OCTETS_NO_ROOM or OCTETS_NOT_TEXT, the bytes before the offset were read, and *len bytes were
 * written. After OCTETS_NO_ROOM, decoding continues if you call again at this offset with space for two bytes;
 * after OCTETS_NOT_TEXT, each such call fails again. */
OCTETS_CHECKED(3, 4, 7)
octets_status octets_decode_piece(const uint8_t *bytes, size_t bytes_len,
    size_t *OCTETS_RESTRICT off, octets_decoder *OCTETS_RESTRICT decoder, uint8_t *OCTETS_RESTRICT out,
    size_t out_len, size_t *OCTETS_RESTRICT len);

/** octets_decode_end: returns OCTETS_DONE if the encoding that a decoder has read may end here: the bits after
 * its last code are a padding of at most seven one bits, or there are none. Otherwise it returns
 * OCTETS_NOT_TEXT. */
OCTETS_CHECKED(1)
octets_status octets_decode_end(const octets_decoder *decoder);

/** octets_get_string: reads a string literal of HPACK (RFC 7541, section 5.2): a length, which need not be
 * encoded in its shortest form, and then a value or the Huffman encoding of a value. The literal is read from
 * bytes, of bytes_len bytes, at *off. The value is written to out, which has space for out_len bytes; *len is
 * the length of the value. The other bytes of out are unchanged, and the offset moves past the literal. An
 * out_len of OCTETS_VALUE_MOST(bytes_len - *off) always suffices.
 * Returns the first of these that applies:
 * - OCTETS_LONG if the length is encoded in more than six bytes, or is greater than OCTETS_LITERAL_MAX;
 * - OCTETS_SHORT if the buffer ends before the length does, or fewer bytes follow the length than it says;
 * - OCTETS_NO_ROOM or OCTETS_NOT_TEXT for the first error in the value, as from octets_get_huffman_decoded;
 * - OCTETS_DONE.
 * On error: the offset is unchanged. After OCTETS_SHORT or OCTETS_LONG, nothing was written to out, and *len is
 * 0. After OCTETS_NOT_TEXT or OCTETS_NO_ROOM, the first *len bytes of out are what was decoded before the error
 * if the value is Huffman-encoded; otherwise nothing was written to out, and *len is 0. */
OCTETS_CHECKED(3, 6)
octets_status octets_get_string(const uint8_t *bytes, size_t bytes_len, size_t *OCTETS_RESTRICT off,
    uint8_t *OCTETS_RESTRICT out, size_t out_len, size_t *OCTETS_RESTRICT len);

/** octets_put_string: writes the string literal of value: its length in the shortest form, and then the Huffman
 * encoding of value if that is shorter than value, or else value itself. If lower_case is true, A to Z are
 * written as a to z, in both forms. OCTETS_LITERAL_MOST(value_len) bytes always suffice.
 * Returns OCTETS_LONG if value_len exceeds OCTETS_LITERAL_MAX; otherwise OCTETS_SHORT if fewer bytes remain than
 * the literal has; otherwise OCTETS_DONE. */
OCTETS_CHECKED(3)
octets_status octets_put_string(uint8_t *OCTETS_RESTRICT bytes, size_t bytes_len,
    size_t *OCTETS_RESTRICT off, const uint8_t *value, size_t value_len, bool lower_case);

#ifdef __cplusplus
}
#endif

#endif
