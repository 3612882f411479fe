/* Reads a packet: a kind of one byte, a number of two bytes, and a payload that follows its length,
 * which is a varint. Every result is initialized before the call that writes it, as octets.h
 * requires with the library that cargo builds. */
#include <stdio.h>

#include "octets.h"

int main(void) {
    const uint8_t packet[] = {0x07, 0x01, 0x02, 0x03, 0x61, 0x62, 0x63};
    size_t off = 0;
    uint8_t kind = 0;
    uint16_t number = 0;
    octets_run payload = {0, 0};

    if (octets_get_u8(packet, sizeof packet, &off, &kind) != OCTETS_DONE ||
        octets_get_u16(packet, sizeof packet, &off, &number) != OCTETS_DONE ||
        octets_get_bytes_with_varint_length(packet, sizeof packet, &off, &payload) != OCTETS_DONE) {
        printf("the packet is too short (offset %zu)\n", off);
        return 1;
    }
    printf("kind %u number %u payload ", kind, number);
    for (size_t i = 0; i < payload.len; i++) {
        printf("%02x", packet[payload.from + i]);
    }
    printf("\n");
    return 0;
}
