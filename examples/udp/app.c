/* Reads the ports of a UDP header with the verified function of udp_c.h, and checks that it returns UDP_SHORT for an
 * empty datagram. */
#include "udp_c.h"
#include <stdio.h>

int main(void) {
    const uint8_t datagram[] = {0x30, 0x39, 0, 53, 0, 8, 0, 0};
    UdpHeader header = {0, 0, 0, 0};

    if (udp_read_header(NULL, 0, &header) != UDP_SHORT || header.source != 0) {
        return 1;
    }
    if (udp_read_header(datagram, sizeof datagram, &header) != UDP_DONE) {
        return 1;
    }
    printf("from %u to %u\n", header.source, header.destination);
    return 0;
}
