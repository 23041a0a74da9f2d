/*
 * Blidrosk: the raw offset of a drawing of lines and arcs, for cutting tables.
 *
 * Twelve functions: blidrosk_raw_offset offsets a drawing, flags the invalid segments of the output
 * and names the origin of each; blidrosk_why tells of one output segment what it is and why its
 * flag is set or clear. Both draw outer corners round; blidrosk_raw_offset_pointed and
 * blidrosk_why_pointed draw those between two lines with a point. These four take drawings in rows,
 * three numbers a vertex; blidrosk_raw_offset_columns and blidrosk_raw_offset_columns_pointed
 * offset one that is lent in columns, all x, all y, all bulges, and write columns.
 * blidrosk_draw_start or blidrosk_draw_start_pointed, blidrosk_draw_vertices and blidrosk_draw_end
 * offset an open drawing while its vertices come. blidrosk_part finds the segments of any of these
 * outputs that belong to a source segment, and blidrosk_compare tells where two outputs in rows
 * differ. They keep nothing between calls but what stands in the record of a drawing that comes by
 * and by, which is the caller's; they allocate nothing, and end at any numbers, NaN and infinities
 * included. Link libblidrosk.a, which tools/archive makes. Of the C library it takes memset, and
 * nothing else.
 */
#ifndef BLIDROSK_H
#define BLIDROSK_H

#include <stdbool.h>
#include <stddef.h>
#include <stdint.h>

#ifdef __cplusplus
extern "C" {
#endif

/*
 * What became of a job or a question. Where several refusals apply, the one with the lowest number
 * is given, save that drawings that come by and by and blidrosk_compare have orders of their own.
 * blidrosk_raw_offset refuses with 1 to 6, blidrosk_why with these but 4 and with 8, the pointed
 * ones as these two, those in columns as the first, blidrosk_part with 1 and 13, blidrosk_compare
 * with 1, 2 and 4, a start of a drawing that comes by and by with 3, its vertices with 1 to 6 and
 * 9, and its end with all of these but 1.
 */
enum blidrosk_number {
    BLIDROSK_DONE = 0,       /* done */
    BLIDROSK_RAGGED = 1,     /* source_len is no multiple of 3; in columns, two of the source's
                                differ in length; in blidrosk_part, flags_len and origins_len
                                differ; in blidrosk_compare, numbers are left over, or flags are not
                                one a segment */
    BLIDROSK_TOO_MANY = 2,   /* more than 4096 vertices; in blidrosk_compare, more than 12288 */
    BLIDROSK_BAD_NUMBER = 3, /* a NaN, an infinity, or a number out of its range, at `place` */
    BLIDROSK_NO_ROOM = 4,    /* one of the buffers is too short */
    BLIDROSK_REPEATED = 5,   /* joined vertices equal in x and in y, the earlier at `place`; in
                                blidrosk_draw_vertices the later */
    BLIDROSK_NOT_FINITE = 6, /* the drawing came out with a NaN or an infinity */
    /* 7 is the program rawoffset's own */
    BLIDROSK_NO_SUCH_SEGMENT = 8, /* the output has no segment of that number */
    BLIDROSK_NO_OPEN_JOB = 9,     /* the record has none: it has ended, or was never begun */
    /* 10 to 12 are none of these functions' */
    BLIDROSK_NO_SUCH_SOURCE_SEGMENT = 13 /* the source has no segment of that number */
};

/* Where the five entries of `answer` stand, of each function that offsets a whole drawing. */
enum blidrosk_entry {
    BLIDROSK_NUMBER = 0,   /* an enum blidrosk_number */
    BLIDROSK_PLACE = 1,    /* for numbers 3 and 5; 0 otherwise */
    BLIDROSK_VERTICES = 2, /* count of vertices written; 0 unless done */
    BLIDROSK_INDEXES = 3,  /* count of indexes written; 0 unless done */
    BLIDROSK_CLOSED = 4    /* 1 where the output is closed, else 0; 0 unless done */
};

/*
 * Offsets a drawing. Returns the number of the answer, which is answer[0] too.
 *
 *   source, source_len    three numbers a vertex: x, y, bulge. A bulge is the tangent of a quarter
 *                         of the sweep to the next vertex, positive counterclockwise. x and y lie
 *                         in +-1000000, bulges in +-1000000000, limits included.
 *   closed                whether the last vertex is joined to the first
 *   offset                in +-1000000; positive moves to the left of the way drawn. Either zero
 *                         copies the source.
 *   eps                   the tolerance, 1e-9 to 0.01
 *   vertices, .._len      receives three numbers a vertex, as in source
 *   flags, .._len         receives a byte for each output segment: 1 where it is invalid, else 0.
 *                         Segment i leaves vertex i; an open output has one segment fewer.
 *   indexes, .._len       receives the numbers of the invalid output segments, rising
 *   origins, .._len       receives a number for each output segment, as under Origins
 *   answer                receives number, place, count of vertices, count of indexes, closed
 *
 * Lengths count elements, not bytes: vertices_len is in doubles.
 *
 * Room. Let n be the source's segments: its vertices where it is closed, one fewer where it is
 * open, none for fewer than two vertices. Needed are 2n vertices, thus 6n doubles, 2n flags, 2n
 * indexes and 2n origins.
 *
 * Origins. An output segment is a span, which is what is drawn of a source segment, or a connector.
 * Source segment i leaves source vertex i. A connector belongs to the segment before it; one that
 * belongs to the last segment closes the drawing. The origin of the span of segment i is the number
 * 2i, and that of the connector after it 2i + 1: blidrosk_origin_is_connector and
 * blidrosk_origin_source read it. Where the offset is zero, each segment is its own span.
 *
 * Place. Number 3: the first bad vertex, counted from 0; with v vertices, v stands for the offset
 * and v + 1 for eps. Number 5: the earlier vertex of the first such pair; v - 1 for last to first.
 * It is given where the offset is not zero and the two are equal by value, so that -0 equals 0;
 * vertices nearer than eps that differ are taken.
 *
 * Nearly full circles. An output segment that would end less than eps from where it starts, in x
 * and in y, is left out, without a flag. An arc that goes nearly all the way round may end so, and
 * the circle is then missing from a drawing that is done; where the arc was all there is, the
 * drawing is done and has 0 vertices. So draw such a circle open, and choose eps below the gap that
 * the offset leaves between the arc's ends, in x or in y, whichever is wider; half of it leaves a
 * margin. Cut d outside an arc of radius r, a gap g becomes g * (r + d) / r; inside it,
 * g * (r - d) / r. Closed, the short closing segment has joins of its own: cut inside, they are
 * often flagged, and the circle may be missing with any eps. With offset -1:
 *   - open (10, 5e-7, bulge 4e7) (10, -5e-7): the gap left is 1.1e-6. eps 1e-5 gives 0 vertices,
 *     eps 1e-7 the circle.
 *   - open (10, 4.75e-6, bulge 4210526.3) (10, -4.75e-6): the gap left is 1.045e-5. eps 1e-5 gives
 *     the circle.
 *   - the same closed: the joins with the closing segment leave 9.975e-6. eps 1e-5 gives 0
 *     vertices, eps 1e-6 the circle.
 *
 * Buffers. Refusals 1 to 5 change none of the four, and neither does a source of fewer than two
 * vertices, whose answer is an empty open drawing. Otherwise the first 2n vertices, flags, indexes
 * and origins are set: what is not drawn there is zero, and after refusal 6 all of it is. Places
 * from 2n on never change. A zero among the origins is the number of the span of segment 0, so only
 * the count of segments tells an origin from what is not drawn.
 *
 * What a caller owes, and no more:
 *   - each pointer is aligned for its type, and stays good for as many elements as its length says
 *     (five for answer) until the call returns: for source to read, for the others to read and
 *     write, with no other thread writing there. Every element holds a value when the call begins,
 *     as after calloc. No list takes more than PTRDIFF_MAX bytes.
 *   - vertices, flags, indexes, origins and answer overlap neither each other nor source
 *   - a list of length 0 may have any pointer, null too. answer has always five places.
 * Everything about the numbers is tested, and answered by a refusal.
 */
uint32_t blidrosk_raw_offset(const double *source, size_t source_len, bool closed, double offset,
                             double eps, double *vertices, size_t vertices_len, uint8_t *flags,
                             size_t flags_len, uint32_t *indexes, size_t indexes_len,
                             uint32_t *origins, size_t origins_len, uint32_t answer[5]);

/*
 * Offsets a drawing as blidrosk_raw_offset does, with pointed outer corners. Returns the number of
 * the answer, which is answer[0] too.
 *
 *   ratio                 how far a point may stand out: at most ratio times the offset's size from
 *                         the source's vertex. 1 to 10, limits included.
 *
 * All else is as there, with these differences.
 *
 * Corners. At an outer corner between two lines both offset lines are prolonged to the point where
 * they meet. If it is near enough, two straight connectors lead to it and on from it, in place of
 * the arc, without a flag; the spans stay as long as they are. With d the distance between the
 * point and the source's vertex, it is near enough where, as rounded,
 * d * d <= (ratio * offset) * (ratio * offset). So two lines at the angle a to each other are
 * pointed where 1 / sin(a / 2) is at most ratio: a right angle with 1.4143, angles wider than 60
 * degrees with 2, and those from 11.5 degrees on with 10. Every other corner stays as it is: one
 * whose point is farther off, one with an arc, one where the drawing turns back on itself, and one
 * whose offset lines have a cross product below eps in size, as nearly parallel lines and short
 * ones do. Of the two connectors, too, each is left out where it would end less than eps from where
 * it starts, in x and in y.
 *
 * Room. Needed are 3n vertices, thus 9n doubles, 3n flags, 3n indexes and 3n origins, with an
 * offset of zero too.
 *
 * Buffers. 3n stands for 2n here too: what is not drawn of the first 3n places is zero, after
 * refusal 6 all of them are, and places from 3n on never change. Refusals 1 to 5, a bad ratio among
 * them, and fewer than two vertices change no buffer.
 *
 * Origins. Both connectors of a point have the number 2i + 1: they belong to the segment before.
 *
 * Place. Number 3: v + 2 stands for the ratio, which is tested after eps, with fewer than two
 * vertices and with an offset of zero too: no vertex and a NaN for the ratio is number 3, place 2.
 *
 * Closed (0, 0) (4, 0) (4, 4) (0, 4), offset -1, eps 1e-5:
 *   - ratio 2: 12 vertices, (0, -1) (4, -1) (5, -1) (5, 0) (5, 4) (5, 5) (4, 5) and so on, with the
 *     origins 0 1 1 2 3 3 4 5 5 6 7 7 and no bulge
 *   - ratio 1.4: the 8 vertices of blidrosk_raw_offset, with an arc at each corner
 */
uint32_t blidrosk_raw_offset_pointed(const double *source, size_t source_len, bool closed,
                                     double offset, double eps, double ratio, double *vertices,
                                     size_t vertices_len, uint8_t *flags, size_t flags_len,
                                     uint32_t *indexes, size_t indexes_len, uint32_t *origins,
                                     size_t origins_len, uint32_t answer[5]);

/*
 * Offsets a drawing as blidrosk_raw_offset does, from three columns into three columns. Returns the
 * number of the answer, which is answer[0] too.
 *
 *   xs, ys, bulges, .._len       the source: vertex i is xs[i], ys[i], bulges[i], each in its range
 *                                there. The three have one length, v, the count of vertices.
 *   out_xs, out_ys, out_bulges,  receive the output's vertices in the same way: vertex i in place i
 *   .._len                       of each
 *
 * All else is as there: for the same drawing the same numbers come, in the same places of flags,
 * indexes, origins and answer, with these differences.
 *
 * Lengths count numbers, not bytes and not vertices of three: each column has its own.
 *
 * Refusals. Number 1: two of xs_len, ys_len and bulges_len differ. It comes before all others.
 * Number 3: its place is the first bad vertex, in whichever column its bad number stands; then v
 * for the offset and v + 1 for eps. Number 4: one of the six buffers is too short, however long the
 * others are.
 *
 * Room. Needed are 2n numbers in each output column, 2n flags, 2n indexes and 2n origins; nothing
 * for fewer than two vertices. The six need not be equally long.
 *
 * Buffers. Refusals 1 to 5 change none of the six, and neither does a source of fewer than two
 * vertices. Otherwise the first 2n places of each are set: what is not drawn there is zero, and
 * after refusal 6 all of it is. Places from 2n on never change, also where one column is longer
 * than another.
 *
 * What a caller owes is what blidrosk_raw_offset asks of each list and of answer, save that xs, ys
 * and bulges may share memory with each other, in part or in whole: one list of zeros can be ys and
 * bulges. The six buffers and answer overlap neither each other nor a column of the source, so no
 * job is done in place.
 *
 * blidrosk_part takes flags and origins of either layout. blidrosk_why takes a source in rows; what
 * it tells of segment i holds for segment i of the same drawing in columns.
 *
 * Open (0, 0) (4, 0) (4, 1), offset 2, eps 1e-5: xs is {0, 4, 4}, ys {0, 0, 1}, bulges {0, 0, 0},
 * and the room is 4. out_xs receives 0 4 2 2, out_ys 2 2 0 1, out_bulges 0 0 0 0, flags 0 1 0 0,
 * indexes 1 0 0 0, origins 0 1 2 0 and answer 0 0 4 1 0.
 */
uint32_t blidrosk_raw_offset_columns(const double *xs, size_t xs_len, const double *ys,
                                     size_t ys_len, const double *bulges, size_t bulges_len,
                                     bool closed, double offset, double eps, double *out_xs,
                                     size_t out_xs_len, double *out_ys, size_t out_ys_len,
                                     double *out_bulges, size_t out_bulges_len, uint8_t *flags,
                                     size_t flags_len, uint32_t *indexes, size_t indexes_len,
                                     uint32_t *origins, size_t origins_len, uint32_t answer[5]);

/*
 * The same with pointed outer corners, as blidrosk_raw_offset_pointed draws them: it takes the
 * ratio too, 3n stands for 2n in room and buffers, and for number 3 v + 2 stands for the ratio.
 */
uint32_t blidrosk_raw_offset_columns_pointed(
    const double *xs, size_t xs_len, const double *ys, size_t ys_len, const double *bulges,
    size_t bulges_len, bool closed, double offset, double eps, double ratio, double *out_xs,
    size_t out_xs_len, double *out_ys, size_t out_ys_len, double *out_bulges, size_t out_bulges_len,
    uint8_t *flags, size_t flags_len, uint32_t *indexes, size_t indexes_len, uint32_t *origins,
    size_t origins_len, uint32_t answer[5]);

/*
 * The record of an open drawing whose vertices come by and by, as from a pen that is still moving.
 * A start begins the job, blidrosk_draw_vertices takes vertices, as many at a time as there are,
 * and hands out each segment as soon as it is certain, and blidrosk_draw_end hands out the rest.
 * What is handed out, one piece after the other, is what blidrosk_raw_offset, or the pointed one,
 * draws of all the vertices at once, open, where it is done, however they are grouped into calls:
 * the same vertices, flags, indexes and origins, bit for bit.
 *
 * The record is the caller's. It is lent to each call, which moves it on; nothing is kept
 * elsewhere. It is opaque: of its contents nothing is promised but the size. It holds no pointer
 * and nothing that grows, so it may be copied, as by assignment, and each copy goes on by itself.
 *
 * Any contents are taken. A record of zeros, {{0}, {0}}, has no open job: every call but a start
 * answers number 9, as it does for contents whose counts no job can have. Contents that pass for a
 * job are that job. In each case a call ends, answers, and writes where it may alone.
 */
struct blidrosk_drawing {
    double numbers[40];
    uint32_t words[16];
};

/* Where the five entries of `answer` stand, of the four functions that take such a record. */
enum blidrosk_draw_entry {
    BLIDROSK_DRAW_NUMBER = 0,   /* an enum blidrosk_number */
    BLIDROSK_DRAW_PLACE = 1,    /* for numbers 2, 3, 5 and 6, the number of a vertex; 0 otherwise */
    BLIDROSK_DRAW_VERTICES = 2, /* count of vertices handed out, after a refusal too */
    BLIDROSK_DRAW_INDEXES = 3,  /* count of indexes handed out, after a refusal too */
    BLIDROSK_DRAW_SEGMENTS = 4  /* count of segments handed out, and so of flags and of origins */
};

/*
 * Begins a drawing with round corners, whatever the record holds: a job that is still open there is
 * given up. Returns the number of the answer, which is answer[0] too; no count is above 0.
 *
 *   offset, eps    as in blidrosk_raw_offset
 *   answer         receives number, place, and three counts, as enum blidrosk_draw_entry says
 *
 * Number 3, place 0: one of them is bad. The record then holds a job that is refused, and not the
 * one before.
 */
uint32_t blidrosk_draw_start(struct blidrosk_drawing *drawing, double offset, double eps,
                             uint32_t answer[5]);

/*
 * The same with pointed corners, as blidrosk_raw_offset_pointed draws them. A bad ratio is number
 * 3, place 0, too.
 */
uint32_t blidrosk_draw_start_pointed(struct blidrosk_drawing *drawing, double offset, double eps,
                                     double ratio, uint32_t answer[5]);

/*
 * Takes vertices of a drawing that was begun, and hands out what they make certain. Returns the
 * number of the answer, which is answer[0] too.
 *
 *   source, source_len    the next vertices, three numbers each, as in blidrosk_raw_offset; or none
 *   vertices .. origins   receive what is handed out, each from its first place on
 *   answer                receives number, place, count of vertices, count of indexes, and count of
 *                         segments, of this call alone
 *
 * What is handed out. Vertices have their numbers in the whole drawing, from 0. With vertex k, from
 * 2 on, come the span of source segment k - 2 and the connector after it, or both connectors of a
 * point, as far as they are drawn; the vertices 0 and 1 hand out nothing. A segment is handed out
 * as the vertex that it leaves, with its bulge; it ends where the next one starts, which may come
 * with a later call. So there are as many vertices as flags and origins. Indexes and origins are
 * numbers in the whole drawing too: the first segment of a call has the number of those handed out
 * before. An offset of zero copies: vertex k, from 1 on, hands out vertex k - 1 as it was given.
 *
 * Room. For m vertices 2m places in each buffer, thus 6m doubles, 2m flags, 2m indexes and 2m
 * origins, and 3m with pointed corners, whatever is handed out, and with an offset of zero too.
 * Numbers of vertices_len past a multiple of 3 do not count. No vertices need no room and change
 * nothing.
 *
 * Buffers. The places that the counts name are written, from the first on. No other place changes,
 * and nothing is set to zero.
 *
 * Refusals are tested in this order, and not by their numbers:
 *   - one that has ended the job: the same number and place again, with no counts
 *   - 9: there is no open job; the place is 0
 *   - 1: source_len is no multiple of 3; the place is 0
 *   - 4: a buffer is too short for all vertices lent, before any is taken; the place is 0
 *   - then vertex by vertex: 2, it would be the 4097th; 3, one of its numbers is bad; 5, it equals
 *     the vertex before it and the offset is not zero; 6, a number that it would hand out is not
 *     finite, where the offset is not zero. The place is the number of that vertex.
 * Each vertex is drawn before the next is looked at. So 2, 3, 5 and 6 come with the counts of what
 * the vertices before it in the call hand out, which are written as ever; of the refused vertex
 * nothing is, not a finite part either. They end the job. After 9, 1 and 4 and after a refusal that
 * is repeated the counts are 0, no place has changed, and the record has its bits of before. So
 * after 1 and 4 mend the call and go on; after all others a start alone begins anew.
 *
 * What a caller owes is what blidrosk_raw_offset asks of each list and of answer, and the same of
 * the record: it is aligned, holds values, and overlaps none of them.
 *
 * A pen draws by a loop; `cut` gets segments as they become certain:
 *
 *     struct blidrosk_drawing drawing = {{0}, {0}};
 *     uint32_t number = blidrosk_draw_start(&drawing, 1, 1e-5, answer);
 *     while (number == BLIDROSK_DONE && next_vertex(vertex)) {
 *         number = blidrosk_draw_vertices(&drawing, vertex, 3, vertices, 6, flags, 2, indexes, 2,
 *                                         origins, 2, answer);
 *         cut(vertices, answer[BLIDROSK_DRAW_VERTICES]);
 *     }
 *     if (number == BLIDROSK_DONE) {
 *         number = blidrosk_draw_end(&drawing, vertices, 6, flags, 2, indexes, 2, origins, 2,
 *                                    answer);
 *         cut(vertices, answer[BLIDROSK_DRAW_VERTICES]);
 *     }
 *
 * With (0, 0) (4, 0) (4, 4), one at a time, the first two hand out nothing, the third (0, 1) with
 * origin 0, and the end (3, 1) with origin 2 and the last point, (3, 4).
 */
uint32_t blidrosk_draw_vertices(struct blidrosk_drawing *drawing, const double *source,
                                size_t source_len, double *vertices, size_t vertices_len,
                                uint8_t *flags, size_t flags_len, uint32_t *indexes,
                                size_t indexes_len, uint32_t *origins, size_t origins_len,
                                uint32_t answer[5]);

/*
 * Ends the drawing and hands out the rest: the last span, if it is drawn, and then the last point
 * with bulge 0, if anything was drawn at all. That is 2 vertices, 1 or 0, and a segment or none. An
 * offset of zero hands out the last vertex with its own bulge, if there are two or more. Returns
 * the number of the answer, which is answer[0] too.
 *
 * Room is 2 places in each buffer, thus 6 doubles, always, with pointed corners too. Buffers,
 * answer and what a caller owes are as in blidrosk_draw_vertices.
 *
 * Refusals, in this order: one that has ended the job again; 9; 4; and 6 where a number that it
 * would hand out is not finite. This last one ends the job, with as many vertices as were taken for
 * its place, no counts, and no place changed. After an end that is done every call but a start
 * answers 9.
 */
uint32_t blidrosk_draw_end(struct blidrosk_drawing *drawing, double *vertices, size_t vertices_len,
                           uint8_t *flags, size_t flags_len, uint32_t *indexes, size_t indexes_len,
                           uint32_t *origins, size_t origins_len, uint32_t answer[5]);

/* Whether an origin is a connector's; otherwise it is a span's. */
static inline bool blidrosk_origin_is_connector(uint32_t origin) { return origin % 2 == 1; }

/* The source segment of an origin: its span, or the connector after it. */
static inline uint32_t blidrosk_origin_source(uint32_t origin) { return origin / 2; }

/* Why the flag of an output segment is set or clear. It is set for 2, 3 and 7 to 11. */
enum blidrosk_reason {
    BLIDROSK_IN_ORDER = 1,        /* a span that runs forward */
    BLIDROSK_TURNED_BACK = 2,     /* a span whose end is not past its start; `params` has both */
    BLIDROSK_COLLAPSED_ARC = 3,   /* the span of an arc that the offset shrinks to nothing */
    BLIDROSK_ROUND = 4,           /* a round connector at an outer corner */
    BLIDROSK_REVERSAL = 5,        /* a round connector where the drawing turns back on itself */
    BLIDROSK_MEETING = 6,         /* a connector where the spans meet: no output has one */
    BLIDROSK_COLLAPSED_SIDE = 7,  /* a gap at an inner corner: a side is a collapsed arc */
    BLIDROSK_NO_MEETING = 8,      /* a gap at an inner corner: the sides never meet */
    BLIDROSK_MISSED = 9,          /* a gap at an inner corner: the sides meet off a span */
    BLIDROSK_ZERO_TANGENT = 10,   /* a gap where a side is too small to have a direction */
    BLIDROSK_SAME_DIRECTION = 11, /* a gap where both sides run the same way */
    BLIDROSK_COPIED = 12,         /* the offset is zero: a segment of the source as it is */
    BLIDROSK_POINTED = 13         /* a straight connector to or from the point of an outer corner */
};

/* How an arc let in the point where its span was trimmed. */
enum blidrosk_rule {
    BLIDROSK_NO_RULE = 0,       /* not trimmed there, or no arc */
    BLIDROSK_START_MATCHED = 1, /* within eps of the arc's start */
    BLIDROSK_END_MATCHED = 2,   /* within eps of the arc's end */
    BLIDROSK_INSIDE = 3,        /* inside the arc's sweep */
    BLIDROSK_PAST_END = 4       /* past the arc's end by no more than eps */
};

/* Where the seven entries of `answer` stand, of blidrosk_why and of the pointed one. */
enum blidrosk_why_entry {
    BLIDROSK_WHY_NUMBER = 0,    /* an enum blidrosk_number */
    BLIDROSK_WHY_PLACE = 1,     /* for numbers 3 and 5; 0 otherwise */
    BLIDROSK_WHY_CONNECTOR = 2, /* 0 for a span, 1 for a connector */
    BLIDROSK_WHY_SOURCE = 3,    /* the source segment: its span, or the connector after it */
    BLIDROSK_WHY_REASON = 4,    /* an enum blidrosk_reason */
    BLIDROSK_WHY_START = 5,     /* an enum blidrosk_rule, at a span's start; else 0 */
    BLIDROSK_WHY_END = 6        /* an enum blidrosk_rule, at a span's end; else 0 */
};

/*
 * Tells of output segment `segment` of a job what it is and why its flag is set or clear. Returns
 * the number of the answer, which is answer[0] too. Source, closed, offset and eps are those of
 * blidrosk_raw_offset, which would store that segment's flag in flags[segment], and in
 * origins[segment] the same origin that is told here in two entries.
 *
 *   segment    the number of an output segment, from 0
 *   answer     receives seven numbers, as enum blidrosk_why_entry says
 *   params     receives, where the reason is 2, how far along its segment the span starts and ends:
 *              0 is the segment's start and 1 its end. Else both are 0.
 *
 * Refusals are those of blidrosk_raw_offset but 4, since no buffer is lent, and in the same order;
 * then 8 where the output has no such segment, as for a source of fewer than two vertices. After a
 * refusal all of answer and params but number and place is 0.
 *
 * A call walks the whole job once. A caller owes what blidrosk_raw_offset asks: source is good for
 * source_len numbers to read, answer for seven and params for two to read and write, and neither
 * overlaps the other or source.
 */
uint32_t blidrosk_why(const double *source, size_t source_len, bool closed, double offset,
                      double eps, uint32_t segment, uint32_t answer[7], double params[2]);

/*
 * The same of a job of blidrosk_raw_offset_pointed: it takes the ratio too, and refuses as that one
 * does but for 4, then with 8. The reason of both connectors of a point is 13, and 4 that of an
 * outer corner that stays round: of the square above, segment 1 has the reason 13 with ratio 2, and
 * 4 with ratio 1.4.
 */
uint32_t blidrosk_why_pointed(const double *source, size_t source_len, bool closed, double offset,
                              double eps, double ratio, uint32_t segment, uint32_t answer[7],
                              double params[2]);

/* Where the four entries of blidrosk_part's `answer` stand. */
enum blidrosk_part_entry {
    BLIDROSK_PART_NUMBER = 0, /* an enum blidrosk_number */
    BLIDROSK_PART_PLACE = 1,  /* 0 */
    BLIDROSK_PART_START = 2,  /* the part's first output segment; 0 where it is empty */
    BLIDROSK_PART_LENGTH = 3  /* count of its segments; 0 where it is empty */
};

/*
 * Finds the part of an output, round or pointed, that belongs to a source segment: its span and the
 * connector after it, or both connectors of a point, as far as they were drawn. Returns the number
 * of the answer, which is answer[0] too.
 *
 *   n                     the source's segments, as blidrosk_raw_offset counts them under Room
 *   flags, .._len         the flags of the output's segments. Their values are not looked at.
 *   origins, .._len       their origins. One that names a segment from n on is not refused.
 *   source_segment        the number of a source segment, from 0
 *   answer                receives four numbers, as enum blidrosk_part_entry says
 *
 * The part is the first unbroken row of lent segments whose origins name source_segment, or it is
 * empty: then start and length are 0. Over the segments of a job that is done no other row is such,
 * so the part is all that the source segment has; with an offset of zero it is one segment.
 *
 * Lend the output's own segments: as many as it has vertices where it is closed, one fewer where it
 * is open, and none where it has no vertices. What blidrosk_raw_offset leaves past them is zero,
 * which cannot be told from a span of segment 0. Of open (0, 0) (1e-6, 0) (4, 0), offset 1, eps
 * 1e-5, nothing is drawn of segment 0: over the output's one segment its part is empty; over all 2n
 * places it would be the three past that segment.
 *
 * Refusals: 1 where flags_len and origins_len differ; then 13 where source_segment is not below n,
 * so with n = 0 always. After either the part is empty. No origin has a source segment from
 * 2147483648 on: below n, its part is empty. Output segments are numbered by 32 bits: of longer
 * lists, the first 4294967295 are looked at.
 *
 * A caller owes what blidrosk_raw_offset asks: flags and origins are good for as many elements as
 * their lengths say to read, answer for four to read and write, and answer overlaps neither.
 */
uint32_t blidrosk_part(uint32_t n, const uint8_t *flags, size_t flags_len, const uint32_t *origins,
                       size_t origins_len, uint32_t source_segment, uint32_t answer[4]);

/* Where the five entries of blidrosk_compare's `answer` stand. */
enum blidrosk_compare_entry {
    BLIDROSK_COMPARE_NUMBER = 0,    /* an enum blidrosk_number */
    BLIDROSK_COMPARE_PLACE = 1,     /* 0 */
    BLIDROSK_COMPARE_COUNT = 2,     /* count of the vertices listed; 0 unless done */
    BLIDROSK_COMPARE_UNMATCHED = 3, /* count of those that only one output has; 0 unless done */
    BLIDROSK_COMPARE_CLOSED = 4     /* 1 where one is closed and the other not; 0 unless done */
};

/* What differs at a listed vertex: its entry in `fields` is the sum of one or more of these. */
enum blidrosk_field {
    BLIDROSK_FIELD_X = 1,
    BLIDROSK_FIELD_Y = 2,
    BLIDROSK_FIELD_BULGE = 4,
    BLIDROSK_FIELD_FLAG = 8 /* of the segment that leaves it */
};

/*
 * Tells where two outputs differ, as after a new build, bit for bit. Returns the number of the
 * answer, which is answer[0] too.
 *
 *   a, a_len              the first output's vertices, three numbers each: x, y, bulge
 *   a_closed              whether it is closed
 *   a_flags, .._len       the flags of its segments, a byte each: as many as it has vertices where
 *                         it is closed, one fewer where it is open, none for fewer than two
 *   b .. b_flags_len      the second output in the same way
 *   numbers, .._len       receives the list: the number of each vertex that differs, rising, from 0
 *   fields, .._len        receives what differs there, as enum blidrosk_field says: entry i is of
 *                         the vertex in numbers[i], and never 0
 *   answer                receives number, place, count of the list, vertices that only one has,
 *                         and whether the closed marks differ, as enum blidrosk_compare_entry says
 *
 * Lengths count elements, not bytes: a_len and b_len are in doubles.
 *
 * What is listed. Of the vertices that both outputs have, each where x, y, bulge or the flag of the
 * segment leaving it is not the same, by its bits: +0 and -0 differ, and so do the flags 1 and 2. A
 * vertex that no segment leaves, as the last of an open output, has the flag 0; its bulge is
 * compared as any other. Vertices that only one has are counted, and not listed. So the outputs are
 * equal where all three, count, vertices that only one has and closed marks, are 0. Indexes, which
 * the flags tell, and origins are not compared.
 *
 * NaNs. A NaN equals a NaN, whatever its bits, and differs from every number: the language of the
 * library has one NaN. No output of a job that is done has any.
 *
 * Refusals, tested in this order, each with place 0:
 *   - 1: a_len is no multiple of 3, or a_flags_len is not as above
 *   - 2: the first output has more than 12288 vertices, the most that a job draws
 *   - 1 and then 2 in the same way of the second output. So with 12289 vertices in the first and
 *     numbers left over in the second it is 2.
 *   - 4: numbers or fields is shorter than the list
 *
 * Room. As many places in numbers and in fields as there are vertices to list, so none where
 * nothing is listed; as many as the shorter output has vertices are always enough.
 *
 * Buffers. The list is written from the first place on; places past it never change. A refusal
 * changes neither, and its count, vertices and mark are 0.
 *
 * What a caller owes is what blidrosk_raw_offset asks of each list and of answer, save that a, b
 * and their flags may share memory with each other, in part or in whole. numbers, fields and answer
 * overlap neither each other nor any of these.
 *
 * Lend the output's own vertices and segments, and not all 2n places. Outputs in columns are put
 * into rows first.
 *
 * Closed (0, 0) (4, 0) with the flags 0 1 and open (0, -0) (4, 0) (4, 4) with the flags 0 0:
 * numbers receives 0 1, fields 2 8, and answer 0 0 2 1 1.
 */
uint32_t blidrosk_compare(const double *a, size_t a_len, bool a_closed, const uint8_t *a_flags,
                          size_t a_flags_len, const double *b, size_t b_len, bool b_closed,
                          const uint8_t *b_flags, size_t b_flags_len, uint32_t *numbers,
                          size_t numbers_len, uint8_t *fields, size_t fields_len,
                          uint32_t answer[5]);

#ifdef __cplusplus
}
#endif

#endif
