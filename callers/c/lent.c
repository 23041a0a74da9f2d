/*
 * Lends buffers full of NaNs, and tests that each place that has to stay keeps its bits: each job
 * with round corners, and with pointed ones.
 */
#include <stdio.h>

#include "modes.h"

enum { PLACES = 18, MOST = 3 * 4097 };

/* Signalling and quiet, of either sign, with payloads; an infinity, -0, 1.5. */
static const uint64_t NUMBERS[] = {
    0x7ff0000000000001, 0xfff5555555555555, 0x7ff8000000000001, 0xffffffffffffffff,
    0x7ff7ffffffffffff, 0xfff0000000000000, 0x8000000000000000, 0x3ff8000000000000,
};

union numbers {
    uint64_t bits[3 * PLACES];
    double values[3 * PLACES];
};

/* Which buffer is lent one element less than the others. */
enum shorter { NONE, VERTICES, FLAGS, INDEXES, ORIGINS, ALL };

/* A job of the first `len` numbers of `source`, and the answer wanted. */
struct lent_job {
    const double *source;
    size_t len;
    bool closed;
    double offset, eps;
    size_t lent; /* the segments whose room is lent */
    uint32_t number;
    size_t set; /* the segments whose room may change */
    enum shorter shorter;
};

static uint64_t number_at(size_t start, size_t i) { return NUMBERS[(start + i) % 8]; }

/* What stands among the origins: spans and connectors of no drawing. */
static uint32_t origin_at(size_t start, size_t i) { return 0xfffffff0 + (uint32_t)(start ^ i); }

static size_t lent_of(const struct lent_job *job, size_t count, enum shorter buffer)
{
    return count - (job->shorter == buffer || job->shorter == ALL);
}

/* How many places changed that have to stay, or -1 for another answer than wanted. */
static int changed(const struct lent_job *job, size_t start)
{
    union numbers vertices;
    uint8_t flags[PLACES];
    uint32_t indexes[PLACES];
    uint32_t origins[PLACES];
    uint32_t answer[5] = {0};
    int count = 0;
    for (size_t i = 0; i < 3 * PLACES; i++)
        vertices.bits[i] = number_at(start, i);
    for (size_t i = 0; i < PLACES; i++) {
        flags[i] = 0xa5;
        indexes[i] = 0xdeadbeef;
        origins[i] = origin_at(start, i);
    }
    const struct job drawn = {"", job->source, job->len, job->closed, job->offset, job->eps};
    size_t places = room_for(job->lent), set = room_for(job->set);
    const struct buffers lent = {
        vertices.values, lent_of(job, 3 * places, VERTICES), flags,   lent_of(job, places, FLAGS),
        indexes,         lent_of(job, places, INDEXES),      origins, lent_of(job, places, ORIGINS),
    };
    if (offset_job(&drawn, &lent, answer) != job->number)
        return -1;
    for (size_t i = 3 * set; i < 3 * PLACES; i++)
        count += vertices.bits[i] != number_at(start, i);
    for (size_t i = set; i < PLACES; i++)
        count += (flags[i] != 0xa5) + (indexes[i] != 0xdeadbeef) +
                 (origins[i] != origin_at(start, i));
    return count;
}

int main(void)
{
    static const double none[MOST];
    const double corner[] = {0, 0, 0, 4, 0, 0.5, 4, 1, 0, 4, 1, 0};
    const double far_off[] = {5, 0, 0.6180339887498949, -3, 4, 0, 5, 4, 0};
    const double zeros[] = {0, 0, 0, -0.0, 0, 0, 4, 0, 0};
    const double circle[] = {10, 5e-7, 4e7, 10, -5e-7, 0};
    const double short_line[] = {0, 0, 0, 1e-200, 0, 0};
    union numbers bad = {.values = {0, 0, 0, 4, 0, 0}};
    const struct lent_job jobs[] = {
        {corner, 9, false, 2, 1e-5, 4, BLIDROSK_DONE, 2, NONE},
        {corner, 9, false, 2, 1e-5, 2, BLIDROSK_DONE, 2, NONE}, /* as many as are needed */
        {corner, 9, true, -0.0, 1e-5, 4, BLIDROSK_DONE, 3, NONE},
        {corner, 3, true, 2, 1e-5, 4, BLIDROSK_DONE, 0, NONE},
        {corner, 3, true, 2, 1e-5, 0, BLIDROSK_DONE, 0, NONE},
        {circle, 6, false, -1, 1e-5, 4, BLIDROSK_DONE, 1, NONE}, /* ends within eps: empty */
        {circle, 6, false, -1, 1e-7, 4, BLIDROSK_DONE, 1, NONE},
        {corner, 8, false, 2, 1e-5, 4, BLIDROSK_RAGGED, 0, NONE},
        {none, MOST, false, 2, 1e-5, 4, BLIDROSK_TOO_MANY, 0, NONE},
        {corner, 9, false, 2, 1, 4, BLIDROSK_BAD_NUMBER, 0, NONE},
        {bad.values, 9, false, 2, 1e-5, 4, BLIDROSK_BAD_NUMBER, 0, NONE},
        {corner, 9, false, 2, 1, 2, BLIDROSK_BAD_NUMBER, 0, ORIGINS}, /* before the room */
        {corner, 9, false, 2, 1e-5, 2, BLIDROSK_NO_ROOM, 0, ALL},
        {corner, 9, false, 2, 1e-5, 2, BLIDROSK_NO_ROOM, 0, VERTICES},
        {corner, 9, false, 2, 1e-5, 2, BLIDROSK_NO_ROOM, 0, FLAGS},
        {corner, 9, false, 2, 1e-5, 2, BLIDROSK_NO_ROOM, 0, INDEXES},
        {corner, 9, false, 2, 1e-5, 2, BLIDROSK_NO_ROOM, 0, ORIGINS},
        {corner, 9, true, 0, 1e-5, 3, BLIDROSK_NO_ROOM, 0, ORIGINS},
        {corner, 12, false, 2, 1e-5, 3, BLIDROSK_NO_ROOM, 0, ORIGINS}, /* before repeated */
        {corner, 12, false, 2, 1e-5, 4, BLIDROSK_REPEATED, 0, NONE},
        {zeros, 9, false, 2, 1e-5, 4, BLIDROSK_REPEATED, 0, NONE},
        {far_off, 9, false, 0.5000002384185791, 4.7683715820312495e-7, 4, BLIDROSK_NOT_FINITE, 2,
         NONE},
        {short_line, 6, false, 1, 1e-5, 4, BLIDROSK_NOT_FINITE, 1, NONE},
    };
    const struct corners modes[] = {{false, 0}, {true, 2}};
    int failed = 0;
    for (size_t i = 0; i < 2 * (sizeof jobs / sizeof *jobs); i++) {
        const struct lent_job *job = jobs + i / 2;
        int worst = 0;
        corners = modes[i % 2];
        for (size_t start = 0; start < 8; start++) {
            bad.bits[6] = number_at(start & 4, 0); /* a signalling NaN in the source */
            int count = changed(job, start);
            if (count != 0)
                worst = count;
        }
        printf("%s, answer %u: ", corners.pointed ? "pointed" : "round", (unsigned)job->number);
        if (worst < 0)
            printf("another was given\n");
        else
            printf("%d places changed that have to stay\n", worst);
        failed |= worst != 0;
    }
    return failed;
}
