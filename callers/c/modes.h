/*
 * Both modes, round and pointed corners, behind one call each: so a test runs in both. Jobs can be
 * lent in rows, in columns, and vertex by vertex.
 */
#ifndef MODES_H
#define MODES_H

#include "blidrosk.h"

/* How the calls below draw outer corners. */
static struct corners {
    bool pointed;
    double ratio; /* where they are pointed */
} corners;

struct job {
    const char *name;
    const double *source;
    size_t len;
    bool closed;
    double offset, eps;
};

/* The segments of its source. */
static inline uint32_t segments_of(const struct job *job)
{
    uint32_t vertices = (uint32_t)(job->len / 3);
    if (vertices < 2)
        return 0;
    return job->closed ? vertices : vertices - 1;
}

/* Buffers with a length each. */
struct buffers {
    double *vertices;
    size_t vertices_len;
    uint8_t *flags;
    size_t flags_len;
    uint32_t *indexes;
    size_t indexes_len;
    uint32_t *origins;
    size_t origins_len;
};

/* The places that so many source segments need in each of them. */
static inline size_t room_for(size_t segments) { return (corners.pointed ? 3 : 2) * segments; }

static inline uint32_t offset_job(const struct job *job, const struct buffers *lent,
                                  uint32_t answer[5])
{
    if (corners.pointed)
        return blidrosk_raw_offset_pointed(
            job->source, job->len, job->closed, job->offset, job->eps, corners.ratio,
            lent->vertices, lent->vertices_len, lent->flags, lent->flags_len, lent->indexes,
            lent->indexes_len, lent->origins, lent->origins_len, answer);
    return blidrosk_raw_offset(job->source, job->len, job->closed, job->offset, job->eps,
                               lent->vertices, lent->vertices_len, lent->flags, lent->flags_len,
                               lent->indexes, lent->indexes_len, lent->origins, lent->origins_len,
                               answer);
}

/* A job in columns: x, y and bulge, with a length each. */
struct columns {
    const char *name;
    const double *numbers[3];
    size_t lens[3];
    bool closed;
    double offset, eps;
};

/* The six buffers that it is lent. */
struct column_buffers {
    double *numbers[3];
    uint8_t *flags;
    uint32_t *indexes, *origins;
    size_t lens[6]; /* of the three columns, of flags, of indexes, of origins */
};

static inline uint32_t offset_columns(const struct columns *job, const struct column_buffers *lent,
                                      uint32_t answer[5])
{
    if (corners.pointed)
        return blidrosk_raw_offset_columns_pointed(
            job->numbers[0], job->lens[0], job->numbers[1], job->lens[1], job->numbers[2],
            job->lens[2], job->closed, job->offset, job->eps, corners.ratio, lent->numbers[0],
            lent->lens[0], lent->numbers[1], lent->lens[1], lent->numbers[2], lent->lens[2],
            lent->flags, lent->lens[3], lent->indexes, lent->lens[4], lent->origins, lent->lens[5],
            answer);
    return blidrosk_raw_offset_columns(
        job->numbers[0], job->lens[0], job->numbers[1], job->lens[1], job->numbers[2], job->lens[2],
        job->closed, job->offset, job->eps, lent->numbers[0], lent->lens[0], lent->numbers[1],
        lent->lens[1], lent->numbers[2], lent->lens[2], lent->flags, lent->lens[3], lent->indexes,
        lent->lens[4], lent->origins, lent->lens[5], answer);
}

/* Begins a job whose vertices come by and by. */
static inline uint32_t start_job(struct blidrosk_drawing *drawing, double offset, double eps,
                                 uint32_t answer[5])
{
    if (corners.pointed)
        return blidrosk_draw_start_pointed(drawing, offset, eps, corners.ratio, answer);
    return blidrosk_draw_start(drawing, offset, eps, answer);
}

static inline uint32_t draw_vertices(struct blidrosk_drawing *drawing, const double *source,
                                     size_t len, const struct buffers *lent, uint32_t answer[5])
{
    return blidrosk_draw_vertices(drawing, source, len, lent->vertices, lent->vertices_len,
                                  lent->flags, lent->flags_len, lent->indexes, lent->indexes_len,
                                  lent->origins, lent->origins_len, answer);
}

static inline uint32_t end_job(struct blidrosk_drawing *drawing, const struct buffers *lent,
                               uint32_t answer[5])
{
    return blidrosk_draw_end(drawing, lent->vertices, lent->vertices_len, lent->flags,
                             lent->flags_len, lent->indexes, lent->indexes_len, lent->origins,
                             lent->origins_len, answer);
}

static inline uint32_t ask_job(const struct job *job, uint32_t segment, uint32_t answer[7],
                               double params[2])
{
    if (corners.pointed)
        return blidrosk_why_pointed(job->source, job->len, job->closed, job->offset, job->eps,
                                    corners.ratio, segment, answer, params);
    return blidrosk_why(job->source, job->len, job->closed, job->offset, job->eps, segment, answer,
                        params);
}

#endif
