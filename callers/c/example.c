/*
 * Offsets a corner whose second line is too short, and says which segment is invalid and which
 * source segment it comes from.
 */
#include <stdio.h>

#include "blidrosk.h"

enum { SEGMENTS = 2, ROOM = 2 * SEGMENTS };

int main(void)
{
    const double source[] = {
        0, 0, 0, /* x, y, bulge */
        4, 0, 0,
        4, 1, 0,
    };
    double vertices[3 * ROOM] = {0};
    uint8_t flags[ROOM] = {0};
    uint32_t indexes[ROOM] = {0};
    uint32_t origins[ROOM] = {0};
    uint32_t answer[5] = {0};

    uint32_t number = blidrosk_raw_offset(source, sizeof source / sizeof *source, false, 2, 1e-5,
                                          vertices, 3 * ROOM, flags, ROOM, indexes, ROOM, origins,
                                          ROOM, answer);
    if (number != BLIDROSK_DONE) {
        printf("refused: number %u, place %u\n", (unsigned)number, (unsigned)answer[BLIDROSK_PLACE]);
        return 1;
    }

    uint32_t count = answer[BLIDROSK_VERTICES];
    bool closed = answer[BLIDROSK_CLOSED] == 1;
    printf("%u vertices, %s\n", (unsigned)count, closed ? "closed" : "open");
    for (uint32_t i = 0; i < count; i++) {
        const double *v = vertices + 3 * i;
        printf("(%g, %g) bulge %g", v[0], v[1], v[2]);
        if (closed || i + 1 < count)
            printf(", flag %u", (unsigned)flags[i]);
        printf("\n");
    }
    for (uint32_t i = 0; i < answer[BLIDROSK_INDEXES]; i++) {
        uint32_t origin = origins[indexes[i]];
        printf("segment %u is invalid: the %s source segment %u\n", (unsigned)indexes[i],
               blidrosk_origin_is_connector(origin) ? "connector after" : "span of",
               (unsigned)blidrosk_origin_source(origin));
    }
    return 0;
}
