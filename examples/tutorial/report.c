#include "reports.h"
#include <stdio.h>

int main(void) {
    const uint8_t report[] = {0xc5, 0, 0, 1, 2, 7, 1, 0xaa, 8, 0};
    ReportHeader header = {0};

    if (report_read_header(report, sizeof report, &header) != REPORTS_DONE) {
        return 1;
    }
    printf("station %u sensor %u\n", header.station, header.sensor);
    return 0;
}
