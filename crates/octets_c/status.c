/* What each status means, in English, and its name in octets.h, which declares these functions. They return pointers,
 * which an export of Rattle can't. This file includes nothing, since the kit's clang has no headers.
 * rust/octets_c/src/status.rs is the same for the library that cargo builds. */
const char *octets_status_text(unsigned char status);
const char *octets_status_name(unsigned char status);

static const char texts[][64] = {
    "done",
    "too few bytes remain, or the encoding is longer than the value",
    "varint is wider than its value needs",
    "number, width or place is out of range",
    "length is too great",
    "bytes are no Huffman encoding",
    "value is longer than its buffer",
    "unknown status",
};
static const char names[][32] = {
    "OCTETS_DONE",
    "OCTETS_SHORT",
    "OCTETS_OVERLONG",
    "OCTETS_UNFIT",
    "OCTETS_LONG",
    "OCTETS_NOT_TEXT",
    "OCTETS_NO_ROOM",
    "unknown status",
};

const char *octets_status_text(unsigned char status) { return texts[status < 7 ? status : 7]; }

const char *octets_status_name(unsigned char status) { return names[status < 7 ? status : 7]; }
