/*
 * Draws a corner vertex by vertex and prints what each call hands out. It tests drawings of both
 * modes, in calls of every size, over buffers full of a pattern: each call has to hand out its
 * piece of what blidrosk_raw_offset writes for the whole, in every place, and to leave every other
 * place as it was. Each refusal is tested at its border, and so is what it does to the record.
 */
#include <stdio.h>

#include "modes.h"
#include "numbers.h"

enum { MOST = 4096, GUARD = 3, MORE = 6, SPARE = 8, ALL = GUARD + 3 * (MOST + 1) + MORE + SPARE };
enum { VERTICES, FLAGS, INDEXES, ORIGINS, BUFFERS };
enum { ANSWER = 5, BYTES = sizeof(struct blidrosk_drawing), REST = 3 * MOST };

/* What is lent: a guard first, and places past the room. */
static union number vertices[3 * ALL];
static uint8_t flags[ALL];
static uint32_t indexes[ALL], origins[ALL];

/* A record by its bytes, and the one that is lent, between guards. */
union record {
    struct blidrosk_drawing drawing;
    uint8_t bytes[BYTES];
};
static struct {
    uint64_t before[2];
    union record record;
    uint64_t after[2];
} lent;

static const uint64_t BESIDE = 0x7ff40000deadbeef;

/* The same drawing as a whole. */
static struct {
    union number vertices[3 * ALL];
    uint8_t flags[ALL];
    uint32_t indexes[ALL], origins[ALL];
    size_t count, segments;
} whole;

/* One vertex more than is taken, and then some; a source that tests change; and what it held. */
static double spiral[3 * (MOST + 904)], source[3 * (MOST + 904)], kept[3 * (MOST + 904)];

static const double CORNER[] = {0, 0, 0, 4, 0, 0, 4, 4, 0};
static const double GAP[] = {0, 0, 0, 4, 0, 0, 4, 1, 0};
static const double STEPS[] = {0, 0, 0, 4, 0, 0.5, 5, 3, 0, 9, -2, -0.25, 9, -9, 0, 3, -9, 0};
static const double ZEROS[] = {-0.0, 0, -0.0, 4, -0.0, 0.0, -0.0, -3, -0.0};

static int failed;
static unsigned calls;
static const char *name = "";

static void test(bool holds, const char *words)
{
    if (!holds) {
        printf("%s, %s: %s\n", name, corners.pointed ? "pointed" : "round", words);
        failed = 1;
    }
}

static size_t least(size_t a, size_t b) { return a < b ? a : b; }

static bool same_record(const union record *a, const union record *b)
{
    bool same = true;
    for (size_t i = 0; i < BYTES; i++)
        same &= a->bytes[i] == b->bytes[i];
    return same;
}

/* A call that takes vertices, or ends the job, and what it is lent. */
struct call {
    const double *source;
    size_t len;
    bool ends;
    size_t lens[BUFFERS]; /* vertices in doubles */
};

/* What it has to answer: a number, a place, and a piece of the whole. */
struct wanted {
    uint32_t number, place;
    size_t start, end; /* of the whole's segments */
    bool last;         /* with the last vertex */
    bool stays;        /* the record has its bits of before */
};

static const struct wanted NOTHING = {0};

static struct wanted refused(uint32_t number, uint32_t place)
{
    struct wanted wanted = {.number = number, .place = place, .stays = true};
    return wanted;
}

static size_t filled_of(const struct call *call, size_t buffer)
{
    return GUARD + call->lens[buffer] + SPARE;
}

static void fill(const struct call *call, uint64_t pattern)
{
    for (size_t i = 0; i < filled_of(call, VERTICES); i++)
        vertices[i].bits = pattern_at(pattern, i);
    for (size_t i = 0; i < filled_of(call, FLAGS); i++)
        flags[i] = (uint8_t)pattern_at(pattern, 2 * i);
    for (size_t i = 0; i < filled_of(call, INDEXES); i++)
        indexes[i] = (uint32_t)pattern_at(pattern, 3 * i);
    for (size_t i = 0; i < filled_of(call, ORIGINS); i++)
        origins[i] = (uint32_t)pattern_at(pattern, 5 * i);
}

/* Whether every place past the guard and what was set holds the pattern, and the guard. */
static bool stays(const struct call *call, uint64_t pattern, const size_t set[BUFFERS])
{
    bool same = true;
    for (size_t i = 0; i < filled_of(call, VERTICES); i++)
        same &=
            (i >= GUARD && i < GUARD + set[VERTICES]) || vertices[i].bits == pattern_at(pattern, i);
    for (size_t i = 0; i < filled_of(call, FLAGS); i++)
        same &= (i >= GUARD && i < GUARD + set[FLAGS]) ||
                flags[i] == (uint8_t)pattern_at(pattern, 2 * i);
    for (size_t i = 0; i < filled_of(call, INDEXES); i++)
        same &= (i >= GUARD && i < GUARD + set[INDEXES]) ||
                indexes[i] == (uint32_t)pattern_at(pattern, 3 * i);
    for (size_t i = 0; i < filled_of(call, ORIGINS); i++)
        same &= (i >= GUARD && i < GUARD + set[ORIGINS]) ||
                origins[i] == (uint32_t)pattern_at(pattern, 5 * i);
    return same;
}

static struct buffers buffers_of(const struct call *call)
{
    struct buffers buffers = {
        &vertices[GUARD].value, call->lens[VERTICES], flags + GUARD,   call->lens[FLAGS],
        indexes + GUARD,        call->lens[INDEXES],  origins + GUARD, call->lens[ORIGINS],
    };
    return buffers;
}

/* Makes the call over a pattern, and tests what holds of every call. */
static void make(const struct call *call, uint64_t pattern, uint32_t answer[ANSWER])
{
    const struct buffers buffers = buffers_of(call);
    uint32_t guarded[1 + ANSWER + 1], *told = guarded + 1, returned;
    bool same = true;
    for (size_t i = 0; i < 1 + ANSWER + 1; i++)
        guarded[i] = (uint32_t)pattern;
    for (size_t i = 0; i < call->len; i++)
        kept[i] = call->source[i];
    lent.before[0] = lent.before[1] = lent.after[0] = lent.after[1] = BESIDE;
    fill(call, pattern);
    if (call->ends)
        returned = end_job(&lent.record.drawing, &buffers, told);
    else
        returned = draw_vertices(&lent.record.drawing, call->source, call->len, &buffers, told);
    calls++;
    test(returned == told[BLIDROSK_DRAW_NUMBER], "another number is returned than answered");
    for (size_t i = 0; i < call->len; i++)
        same &= same_bits(call->source[i], kept[i]);
    test(same, "the source changed");
    test(guarded[0] == (uint32_t)pattern && guarded[1 + ANSWER] == (uint32_t)pattern,
         "a place beside the answer changed");
    test(lent.before[0] == BESIDE && lent.before[1] == BESIDE && lent.after[0] == BESIDE &&
             lent.after[1] == BESIDE,
         "a place beside the record changed");
    for (size_t i = 0; i < ANSWER; i++)
        answer[i] = told[i];
}

/* Whether the first places of each buffer hold this piece of the whole. */
static bool holds_piece(const struct wanted *wanted, size_t marks)
{
    bool same = true;
    for (size_t i = wanted->start; i < wanted->end + wanted->last; i++)
        for (size_t c = 0; c < 3; c++)
            same &= vertices[GUARD + 3 * (i - wanted->start) + c].bits ==
                    whole.vertices[3 * i + c].bits;
    for (size_t i = wanted->start; i < wanted->end; i++) {
        same &= flags[GUARD + i - wanted->start] == whole.flags[i];
        same &= origins[GUARD + i - wanted->start] == whole.origins[i];
    }
    for (size_t i = wanted->start, k = 0; i < wanted->end && k < marks; i++)
        if (whole.flags[i] == 1)
            same &= indexes[GUARD + k++] == i;
    return same;
}

static void test_over(uint64_t pattern, const struct call *call, const struct wanted *wanted)
{
    const union record before = lent.record;
    uint32_t answer[ANSWER];
    size_t segments = wanted->end - wanted->start, marks = 0;
    for (size_t i = wanted->start; i < wanted->end; i++)
        marks += whole.flags[i] == 1;
    make(call, pattern, answer);
    test(answer[BLIDROSK_DRAW_NUMBER] == wanted->number, "another number was wanted");
    test(answer[BLIDROSK_DRAW_PLACE] == wanted->place, "another place was wanted");
    bool counted = answer[BLIDROSK_DRAW_VERTICES] == segments + wanted->last &&
                   answer[BLIDROSK_DRAW_INDEXES] == marks &&
                   answer[BLIDROSK_DRAW_SEGMENTS] == segments;
    test(counted, "another count was wanted");
    const size_t set[BUFFERS] = {3 * (segments + wanted->last), segments, marks, segments};
    test(holds_piece(wanted, marks), "another piece was wanted");
    test(stays(call, pattern, set), "a place changed that has to stay");
    test(!wanted->stays || same_record(&before, &lent.record), "the record changed");
}

/* The call, and before it the same on a copy: over both patterns, by turns the one or the other. */
static void test_call(const struct call *call, struct wanted wanted)
{
    const union record before = lent.record;
    const uint64_t *pattern = PATTERNS + calls / 2 % 2;
    test_over(pattern[0], call, &wanted);
    const union record after = lent.record;
    lent.record = before;
    test_over(pattern == PATTERNS ? PATTERNS[1] : PATTERNS[0], call, &wanted);
    test(same_record(&after, &lent.record), "a copy of the record goes on otherwise");
}

/* As many places in each buffer, and some more. */
static struct call lending(const double *numbers, size_t len, size_t places, size_t more)
{
    /* at most MORE */
    static const size_t over[][BUFFERS] = {{0, 0, 0, 0}, {2, 0, 0, 0}, {1, 3, 1, 2},
                                           {6, 1, 4, 0}, {5, 0, 2, 5}, {0, 2, 0, 1}};
    struct call call = {.source = numbers, .len = len};
    for (size_t b = 0; b < BUFFERS; b++)
        call.lens[b] = (b == VERTICES ? 3 : 1) * places + over[more % 6][b];
    return call;
}

/* A call that takes so many vertices with the room that they need. */
static struct call taking(const double *numbers, size_t count, size_t more)
{
    return lending(numbers, 3 * count, room_for(count), more);
}

static struct call ending(size_t more)
{
    struct call call = lending(0, 0, 2, more);
    call.ends = true;
    return call;
}

/* A record of the test's own: all zeros, all ones, or by chance. */
static uint64_t chance = 5;

static uint32_t by_chance(void)
{
    chance = chance * 6364136223846793005 + 1442695040888963407;
    return (uint32_t)(chance >> 33);
}

static void clear(void)
{
    for (size_t i = 0; i < BYTES; i++)
        lent.record.bytes[i] = 0;
}

/* Starts a job over whatever the record holds. */
static void start_over(double offset, double eps, uint32_t number)
{
    uint32_t guarded[1 + ANSWER + 1];
    const uint32_t pattern = (uint32_t)PATTERNS[calls % 2];
    for (size_t i = 0; i < 1 + ANSWER + 1; i++)
        guarded[i] = pattern;
    lent.before[0] = lent.before[1] = lent.after[0] = lent.after[1] = BESIDE;
    uint32_t returned = start_job(&lent.record.drawing, offset, eps, guarded + 1);
    calls++;
    test(returned == number && guarded[1 + BLIDROSK_DRAW_NUMBER] == number,
         "a start answers another number");
    for (size_t i = 1 + BLIDROSK_DRAW_PLACE; i < 1 + ANSWER; i++)
        test(guarded[i] == 0, "a start has a place or counts");
    test(guarded[0] == pattern && guarded[1 + ANSWER] == pattern,
         "a place beside the answer changed");
    test(lent.before[0] == BESIDE && lent.before[1] == BESIDE && lent.after[0] == BESIDE &&
             lent.after[1] == BESIDE,
         "a place beside the record changed");
}

/* Works the first vertices of a job as a whole; what is refused so has no segments. */
static void draw_whole(const struct job *job, size_t count)
{
    const struct buffers buffers = {&whole.vertices->value, 3 * ALL, whole.flags,   ALL,
                                    whole.indexes,          ALL,     whole.origins, ALL};
    struct job first = *job;
    uint32_t answer[ANSWER];
    first.len = 3 * count;
    offset_job(&first, &buffers, answer);
    whole.count = answer[BLIDROSK_VERTICES];
    whole.segments = whole.count - (whole.count > 0);
}

/* The segments of the whole that come before vertex k. The end comes as one vertex more. */
static size_t before_vertex(const struct job *job, size_t k)
{
    size_t i = 0, later = job->offset == 0 ? 1 : 2;
    while (i < whole.segments && blidrosk_origin_source(whole.origins[i]) + later < k)
        i++;
    return i;
}

/* What the vertices from `start` up to `end` hand out. */
static struct wanted piece(const struct job *job, size_t start, size_t end)
{
    struct wanted wanted = {.start = before_vertex(job, start), .end = before_vertex(job, end)};
    return wanted;
}

static struct wanted last_piece(const struct job *job, size_t count)
{
    struct wanted wanted = {
        .start = before_vertex(job, count), .end = whole.segments, .last = whole.count > 0};
    return wanted;
}

/* Sizes of calls, over and over; 0 is a call without vertices, and REST takes all that are left. */
struct groups {
    size_t count, sizes[4];
};

static const struct groups GROUPS[] = {
    {1, {1}},          {1, {REST}},    {1, {2}},          {1, {3}},          {2, {1, REST}},
    {2, {2, REST}},    {2, {0, 1}},    {3, {1, 2, 3}},    {2, {0, REST}},    {2, {3, 1}},
    {4, {0, 2, 0, 1}}, {2, {5, REST}}, {3, {4, 1, REST}}, {4, {1, 1, 0, 2}},
};
enum { GROUPINGS = sizeof GROUPS / sizeof *GROUPS };

/* Calls that change nothing in an open job: ragged, without room, and without vertices. */
static void disturb(const double *numbers, size_t count)
{
    const struct call nowhere = {.lens = {0}};
    test_call(&nowhere, refused(BLIDROSK_DONE, 0));
    for (size_t i = 1; i < 3; i++) {
        static const double not_one[3 * 9] = {1, 2};
        struct call ragged = lending(not_one, 3 * (count % 8) + i, room_for(count % 8 + 1), i);
        test_call(&ragged, refused(BLIDROSK_RAGGED, 0));
        for (size_t b = 0; b < BUFFERS; b++)
            ragged.lens[b] = 0;
        test_call(&ragged, refused(BLIDROSK_RAGGED, 0));
    }
    for (size_t b = 0; b < BUFFERS; b++) {
        struct call tight = ending(1 + b);
        tight.lens[b] = b == VERTICES ? 5 : 1;
        test_call(&tight, refused(BLIDROSK_NO_ROOM, 0));
        tight.lens[b] = 0;
        test_call(&tight, refused(BLIDROSK_NO_ROOM, 0));
        if (count == 0)
            continue;
        tight = taking(numbers, count, 4 + b);
        tight.lens[b] = b == VERTICES ? 3 * room_for(count) - 1 : room_for(count) - 1;
        test_call(&tight, refused(BLIDROSK_NO_ROOM, 0));
        tight.lens[b] = 0;
        test_call(&tight, refused(BLIDROSK_NO_ROOM, 0));
    }
}

/* Every call after a job was refused or has ended, whatever it is lent. */
static void test_shut(uint32_t number, uint32_t place)
{
    static const double bad[] = {0, 0, 0, 1, 0, 1e300};
    const size_t lens[] = {0, 3, 4, 6};
    for (size_t i = 0; i < 4; i++) {
        struct call call = lending(bad, lens[i], 6, i);
        test_call(&call, refused(number, place));
        call = lending(bad, lens[i], 0, 0);
        test_call(&call, refused(number, place));
        call = ending(i);
        test_call(&call, refused(number, place));
        call.lens[i] = 0;
        test_call(&call, refused(number, place));
    }
}

/* Vertices of a job that are one group. */
struct group {
    size_t start, size;
};

/* Draws a job in groups, as far as they have vertices before `end` alone, and returns the next. */
static struct group draw_groups(const struct job *job, const struct groups *groups, size_t end,
                                bool disturbed)
{
    const size_t count = job->len / 3;
    struct group group = {0, 0};
    for (size_t turn = 0; group.start < count; turn++) {
        group.size = least(groups->sizes[turn % groups->count], count - group.start);
        if (group.start + group.size > end)
            break;
        const double *numbers = job->source + 3 * group.start;
        if (disturbed)
            disturb(numbers, group.size);
        struct call call = taking(numbers, group.size, turn);
        struct wanted wanted = piece(job, group.start, group.start + group.size);
        wanted.stays = group.size == 0;
        test_call(&call, wanted);
        group.start += group.size;
    }
    return group;
}

/* A group whose vertex k is refused. */
static void test_refused_group(const struct job *job, struct group group, uint32_t number, size_t k)
{
    struct call call = taking(job->source + 3 * group.start, group.size, k);
    struct wanted wanted = piece(job, group.start, k);
    wanted.number = number;
    wanted.place = (uint32_t)k;
    test_call(&call, wanted);
    test_shut(number, (uint32_t)k);
}

/* Draws a job that is done, in groups, and ends it. */
static void test_drawn_by(const struct job *job, const struct groups *groups, bool disturbed)
{
    const size_t count = job->len / 3;
    draw_groups(job, groups, count, disturbed);
    if (disturbed)
        disturb(0, 0);
    struct call call = ending(count);
    test_call(&call, last_piece(job, count));
}

static void test_drawn(const struct job *job, bool disturbed)
{
    name = job->name;
    draw_whole(job, job->len / 3);
    for (size_t i = 0; i < GROUPINGS; i++) {
        start_over(job->offset, job->eps, BLIDROSK_DONE);
        test_drawn_by(job, GROUPS + i, disturbed);
        if (disturbed)
            test_shut(BLIDROSK_NO_OPEN_JOB, 0);
    }
}

/* Draws a job whose vertex k is refused, in groups, and goes on after it. */
static void test_refused_at(const struct job *job, uint32_t number, size_t k)
{
    name = job->name;
    draw_whole(job, k);
    for (size_t i = 0; i < GROUPINGS; i++) {
        start_over(job->offset, job->eps, BLIDROSK_DONE);
        test_refused_group(job, draw_groups(job, GROUPS + i, k, false), number, k);
    }
}

/* Runs a test in both modes. */
static void in_both(void (*run)(void))
{
    const struct corners modes[] = {{false, 0}, {true, 2}};
    for (size_t i = 0; i < 2; i++) {
        corners = modes[i];
        run();
    }
}

/* Drawings that are done, the empty ones among them. */
static void test_done(void)
{
    static const double needle[] = {0, 0, 0, 4, 0, 0, 0, -0.5, 0, 1, -9, 0};
    static const double collapsed[] = {0, 0, 0, 4, 0, -1, 4.5, -0.5, 0, 4.5, -6, 0};
    static const double lone_arc[] = {0, 0, 1, 4, 0, 0}, tiny_arc[] = {0, 0, 1, 1e-200, 0, 0};
    static const double circle[] = {10, 5e-7, 4e7, 10, -5e-7, 0};
    static const double short_first[] = {0, 0, 0, 1e-6, 0, 0, 4, 0, 0, 4, 9, 0};
    static const double short_last[] = {0, 0, 0, 4, 0, 0, 4, 9, 0, 4, 9.000001, 0};
    static const double all_short[] = {0, 0, 0, 1e-6, 0, 0, 2e-6, 0, 0, 3e-6, 0, 0};
    static const double back[] = {0, 0, 0, 4, 0, 0, 0, 0, 0, 4, 0, 0, 8, 0, 0};
    static const double same[] = {1, 1, 0.5, 1, 1, 0.25, 1, 1, -1e9, 1, 1, 7};
    static const double rings[] = {0, 0, 0, 4, 0, 0, 4, 4, 0, 0, 0, 0, -4, 0, 1};
    const struct job jobs[] = {
        {"a corner", CORNER, 9, false, 1, 1e-5},
        {"a corner to the right", CORNER, 9, false, -1, 1e-5},
        {"a gap", GAP, 9, false, 2, 1e-5},
        {"steps", STEPS, 18, false, 0.5, 1e-5},
        {"steps to the right", STEPS, 18, false, -1.5, 1e-5},
        {"steps far off", STEPS, 18, false, 40, 0.01},
        {"a collapsed arc", collapsed, 12, false, -3, 0.01},
        {"a needle", needle, 12, false, 0.125, 1e-5},
        {"a needle to the right", needle, 12, false, -0.125, 1e-9},
        {"there and back", back, 15, false, 1, 1e-5},
        {"a line", STEPS, 6, false, 1, 1e-5},
        {"a circle", circle, 6, false, -1, 1e-7},
        {"a circle left out", circle, 6, false, -1, 1e-5},
        {"a lone arc that collapses", lone_arc, 6, false, 3, 1e-5},
        {"a tiny arc that collapses", tiny_arc, 6, false, 1, 1e-5},
        {"a short line first", short_first, 12, false, 1, 1e-5},
        {"a short line last", short_last, 12, false, -1, 1e-5},
        {"short lines alone", all_short, 12, false, -1, 1e-5},
        {"a ring", rings, 15, false, -1, 1e-5},
        {"zeros of both signs", ZEROS, 9, false, 1, 1e-5},
        {"a copy", STEPS, 18, false, 0, 1e-5},
        {"a copy of zeros", ZEROS, 9, false, -0.0, 1e-5},
        {"a copy of one point", same, 12, false, -0.0, 0.01},
        {"two vertices, copied", ZEROS, 6, false, 0, 1e-5},
        {"one vertex, copied", ZEROS, 3, false, 0, 1e-5},
        {"one vertex", ZEROS, 3, false, 1, 1e-5},
        {"no vertex, copied", ZEROS, 0, false, 0, 1e-5},
        {"no vertex", ZEROS, 0, false, 1, 1e-5},
    };
    for (size_t i = 0; i < sizeof jobs / sizeof *jobs; i++)
        test_drawn(jobs + i, true);
}

/* A vertex that is known, and the segment that leaves it. */
struct known {
    double x, y, bulge;
    uint32_t origin;
    uint8_t flag;
};

/* Makes the known vertices the whole, so that a call can be held to them. */
static void know(const struct known *known, size_t count, size_t segments)
{
    for (size_t i = 0; i < count; i++) {
        whole.vertices[3 * i].value = known[i].x;
        whole.vertices[3 * i + 1].value = known[i].y;
        whole.vertices[3 * i + 2].value = known[i].bulge;
        whole.flags[i] = known[i].flag;
        whole.origins[i] = known[i].origin;
    }
    whole.count = count;
    whole.segments = segments;
}

static void take(const double *vertex, struct wanted wanted)
{
    const struct call call = taking(vertex, 1, calls);
    test_call(&call, wanted);
}

static void end_by(struct wanted wanted)
{
    const struct call call = ending(calls);
    test_call(&call, wanted);
}

/* What is known number by number, one vertex a call: when a segment comes, and as what. */
static void test_known(void)
{
    static const struct known corner[] = {{0, 1, 0, 0, 0}, {3, 1, 0, 2, 0}, {3, 4, 0, 0, 0}};
    static const struct known gap[] = {
        {0, 2, 0, 0, 0}, {4, 2, 0, 1, 1}, {2, 0, 0, 2, 0}, {2, 1, 0, 0, 0}};
    static const struct known round[] = {
        {0, -1, 0, 0, 0}, {4, -1, 0x1.a827999fcef33p-2, 1, 0}, {5, 0, 0, 2, 0}, {5, 4, 0, 0, 0}};
    static const struct known point[] = {
        {0, -1, 0, 0, 0}, {4, -1, 0, 1, 0}, {5, -1, 0, 1, 0}, {5, 0, 0, 2, 0}, {5, 4, 0, 0, 0}};
    static const struct known copy[] = {
        {-0.0, 0, -0.0, 0, 0}, {4, -0.0, 0, 2, 0}, {-0.0, -3, -0.0, 0, 0}};
    const struct wanted one = {.start = 0, .end = 1}, two = {.start = 0, .end = 2},
                        three = {.start = 0, .end = 3};
    name = "a corner, known";
    know(corner, 3, 2);
    start_over(1, 1e-5, BLIDROSK_DONE);
    take(CORNER, NOTHING);
    take(CORNER + 3, NOTHING);
    take(CORNER + 6, one);
    end_by((struct wanted){.start = 1, .end = 2, .last = true});
    name = "a gap, known";
    know(gap, 4, 3);
    start_over(2, 1e-5, BLIDROSK_DONE);
    take(GAP, NOTHING);
    take(GAP + 3, NOTHING);
    take(GAP + 6, two);
    end_by((struct wanted){.start = 2, .end = 3, .last = true});
    name = "an outer corner, known";
    know(corners.pointed ? point : round, corners.pointed ? 5 : 4, corners.pointed ? 4 : 3);
    start_over(-1, 1e-5, BLIDROSK_DONE);
    take(CORNER, NOTHING);
    take(CORNER + 3, NOTHING);
    take(CORNER + 6, corners.pointed ? three : two);
    end_by((struct wanted){
        .start = corners.pointed ? 3 : 2, .end = corners.pointed ? 4 : 3, .last = true});
    name = "a copy, known";
    know(copy, 3, 2);
    start_over(0, 1e-5, BLIDROSK_DONE);
    take(ZEROS, NOTHING);
    take(ZEROS + 3, one);
    take(ZEROS + 6, (struct wanted){.start = 1, .end = 2});
    end_by((struct wanted){.start = 2, .end = 2, .last = true});
}

/* Sets the source that tests change: so many vertices of steps, or of the spiral. */
static void set_source(const double *numbers, size_t count)
{
    for (size_t i = 0; i < 3 * count; i++)
        source[i] = numbers[i];
}

static void test_many(void)
{
    const struct job full = {"4096 vertices", spiral, 3 * MOST, false, -0.25, 1e-5};
    const struct job copied = {"4096 copies", spiral, 3 * MOST, false, 0, 1e-5};
    struct job more = {"one vertex too many", spiral, 3 * (MOST + 1), false, 0.25, 1e-5};
    struct call call;
    const struct job *both[] = {&full, &copied};
    for (size_t i = 0; i < 2; i++) {
        name = both[i]->name;
        draw_whole(both[i], MOST);
        for (size_t k = 0; k < 3; k++) {
            start_over(both[i]->offset, both[i]->eps, BLIDROSK_DONE);
            test_drawn_by(both[i], GROUPS + k, false);
        }
    }
    /* a saw whose teeth are too narrow, so that most indexes come in late calls of many vertices */
    const struct groups wide[] = {{1, {1000}}, {2, {17, 300}}, {1, {64}}};
    const struct job saw = {"a saw", source, 3 * MOST, false, 0.75, 1e-5};
    for (size_t i = 0; i < MOST; i++) {
        source[3 * i] = 0.25 * (double)i;
        source[3 * i + 1] = (double)(i % 2);
        source[3 * i + 2] = i % 5 == 0 ? 0.5 : 0;
    }
    name = saw.name;
    draw_whole(&saw, MOST);
    for (size_t i = 0; i < sizeof wide / sizeof *wide; i++) {
        start_over(saw.offset, saw.eps, BLIDROSK_DONE);
        test_drawn_by(&saw, wide + i, false);
    }
    /* one by one, all at once with room for them, and in pairs; bad numbers come after it */
    name = more.name;
    for (size_t i = 0; i < 4; i++) {
        more.offset = i == 3 ? 0 : 0.25;
        set_source(spiral, MOST + 1);
        if (i > 0)
            source[3 * MOST] = NOT_A_NUMBER.value;
        more.source = source;
        draw_whole(&more, MOST);
        start_over(more.offset, more.eps, BLIDROSK_DONE);
        test_refused_group(&more, draw_groups(&more, GROUPS + i % 3, MOST, false),
                           BLIDROSK_TOO_MANY, MOST);
    }
    /* room is tested for all of them before any is taken */
    name = "5000 vertices and room for 4096";
    start_over(1, 1e-5, BLIDROSK_DONE);
    call = lending(spiral, 3 * 5000, room_for(MOST), 0);
    test_call(&call, refused(BLIDROSK_NO_ROOM, 0));
    call = lending(source, 3 * (MOST + 1), room_for(MOST), 0);
    test_call(&call, refused(BLIDROSK_NO_ROOM, 0));
}

/* What is bad everywhere. */
static const uint64_t BAD[] = {
    0x7ff8000000000000, 0xfff8000000000001, 0x7ff0000000000001, /* NaNs, one that signals */
    0x7ff0000000000000, 0xfff0000000000000,                     /* both infinities */
};
enum { BADS = sizeof BAD / sizeof *BAD };

static double limit_of(size_t column) { return column == 2 ? 1e9 : 1e6; }

/* Bad number i of a column: those above, then the next past each bound. */
static double bad_number(size_t column, size_t i)
{
    const union number bad = {BAD[i % BADS]};
    if (i < BADS)
        return bad.value;
    return farther(i == BADS ? limit_of(column) : -limit_of(column));
}

static void test_bad_vertices(void)
{
    struct job job = {"a bad vertex", source, 18, false, 1, 1e-5};
    for (size_t k = 0; k < 6; k++)
        for (size_t c = 0; c < 3; c++)
            for (size_t i = 0; i < BADS + 2; i++) {
                set_source(STEPS, 6);
                source[3 * k + c] = bad_number(c, i);
                /* one after it is not looked at */
                if (k < 5 && i % 2 == 0)
                    source[3 * (k + 1) + (i + c) % 3] = NOT_A_NUMBER.value;
                job.offset = i % 3 == 0 ? 0 : 1 - 2 * (double)(k % 2);
                test_refused_at(&job, BLIDROSK_BAD_NUMBER, k);
            }
}

/* Each bound itself is taken, with an offset of zero, so that all of it is handed out. */
static void test_limits(void)
{
    struct job job = {"a limit", source, 18, false, 0, 1e-5};
    for (size_t c = 0; c < 3; c++)
        for (size_t k = 0; k < 6; k++)
            for (size_t sign = 0; sign < 2; sign++) {
                set_source(STEPS, 6);
                source[3 * k + c] = sign == 0 ? limit_of(c) : -limit_of(c);
                test_drawn(&job, false);
            }
    const double settings[][3] = {{1e6, 1e-5, 2}, {-1e6, 1e-5, 2}, {1, 1e-9, 2},    {1, 0.01, 2},
                                  {-1, 1e-5, 1},  {-1, 1e-5, 10},  {-0.0, 0.01, 1}, {0, 1e-9, 10}};
    const double ratio = corners.ratio;
    set_source(STEPS, 6);
    for (size_t i = 0; i < sizeof settings / sizeof *settings; i++) {
        job.offset = settings[i][0];
        job.eps = settings[i][1];
        corners.ratio = settings[i][2];
        test_drawn(&job, true);
    }
    corners.ratio = ratio;
}

/* A refused start, over a record that is open, ended, refused, and never begun. */
static void test_bad_start(double offset, double eps)
{
    const struct groups *groups = GROUPS;
    const struct job job = {"a bad start", STEPS, 18, false, 1, 1e-5};
    const double ratio = corners.ratio;
    name = job.name;
    corners.ratio = 2;
    draw_whole(&job, 6);
    for (size_t i = 0; i < 4; i++) {
        clear();
        if (i > 0)
            start_over(job.offset, job.eps, BLIDROSK_DONE);
        if (i == 1)
            draw_groups(&job, groups, 4, false);
        if (i == 2)
            test_drawn_by(&job, groups, false);
        if (i == 3)
            start_over(NOT_A_NUMBER.value, job.eps, BLIDROSK_BAD_NUMBER);
        corners.ratio = ratio;
        start_over(offset, eps, BLIDROSK_BAD_NUMBER);
        corners.ratio = 2;
        test_shut(BLIDROSK_BAD_NUMBER, 0);
    }
    /* a good one begins anew */
    start_over(job.offset, job.eps, BLIDROSK_DONE);
    test_drawn_by(&job, groups, false);
}

static void test_bad_settings(void)
{
    const double inf = INFINITE.value, nan = NOT_A_NUMBER.value;
    const double offsets[] = {nan, inf, -inf, farther(1e6), farther(-1e6)};
    const double tolerances[] = {nan, inf, -inf, nearer(1e-9), farther(0.01), 0, -0.0, -1e-5};
    const double ratios[] = {nan, inf, -inf, nearer(1), farther(10), 0, -0.0, -2};
    for (size_t i = 0; i < sizeof offsets / sizeof *offsets; i++) {
        test_bad_start(offsets[i], 1e-5);
        test_bad_start(offsets[i], nan);
    }
    for (size_t i = 0; i < sizeof tolerances / sizeof *tolerances; i++)
        test_bad_start(i % 2 == 0 ? 1 : 0, tolerances[i]);
    for (size_t i = 0; corners.pointed && i < sizeof ratios / sizeof *ratios; i++) {
        corners.ratio = ratios[i];
        test_bad_start(i % 2 == 0 ? 0 : -1, 1e-5);
    }
    corners.ratio = 2;
}

/* Room for one, two and six vertices at each vertex of a job: one short, exact, and more. */
static void test_room(void)
{
    const size_t counts[] = {1, 2, 6};
    const double bad[] = {0, 0, 0, NOT_A_NUMBER.value, 0, 0};
    const struct job jobs[] = {{"room", STEPS, 18, false, -1, 1e-5},
                               {"room of a copy", STEPS, 18, false, 0, 1e-5}};
    for (size_t i = 0; i < 2; i++)
        for (size_t n = 0; n < 3; n++) {
            const struct job *job = jobs + i;
            const size_t room = room_for(counts[n]);
            struct groups groups = {1, {counts[n]}};
            name = job->name;
            draw_whole(job, 6);
            start_over(job->offset, job->eps, BLIDROSK_DONE);
            for (size_t b = 0; b < BUFFERS; b++)
                for (size_t less = 1; less <= 3; less++) {
                    struct call call = taking(STEPS, counts[n], 0);
                    call.lens[b] -= least(less, room);
                    test_call(&call, refused(BLIDROSK_NO_ROOM, 0));
                    /* before a bad number is */
                    call = taking(bad, 2, less);
                    call.lens[b] = b == VERTICES ? 3 * room_for(2) - less : room_for(2) - less;
                    test_call(&call, refused(BLIDROSK_NO_ROOM, 0));
                }
            test_drawn_by(job, &groups, true);
            /* two numbers more make no place */
            start_over(job->offset, job->eps, BLIDROSK_DONE);
            struct call call = taking(STEPS, counts[n], 0);
            call.lens[VERTICES] = 3 * room - 1;
            test_call(&call, refused(BLIDROSK_NO_ROOM, 0));
            call.lens[VERTICES] = 3 * room + 2;
            test_call(&call, piece(job, 0, counts[n]));
        }
}

static void test_repeated(void)
{
    static const double zeros[] = {0, 0, 0, 4, 0, 0, 4, -0.0, 1, 9, 9, 0};
    static const double first[] = {-0.0, 1, 0.5, 0, 1, 0, 0, 0, 0};
    static const double late[] = {0, 0, 0, 4, 0, 0, 4, 4, 0, 0, 4, 1, 0, 4, 0, 9, 9, 0};
    static const double then_bad[] = {0, 0, 0, 4, 0, 0, 4, 0, 0, 1e7, 0, 0};
    static const double and_bad[] = {0, 0, 0, 4, 0, 0, 4, 0, 1e10, 1, 0, 0};
    static const double bad_first[] = {0, 0, 0, 4, 0, 0, 1e7, 0, 0, 1e7, 0, 0, 1, 1, 0, 1, 1, 0};
    static const double same_x[] = {4, 1, 0, 4, 2, 0, 4, 0, 0};
    static const double same_y[] = {1, 4, 0, 2, 4, 0, 0, 4, 0};
    static const double near[] = {1, 1, 0, 1, 1.0000000000000002, 0, 1, 1, 0, 5, 1, 0};
    static const double origin[] = {0, 0, 0, 1, 0, 0, 0, 0, 0};
    const struct job refusing[] = {
        {"zeros of two signs", zeros, 12, false, 1, 1e-5},
        {"the first two", first, 9, false, -1, 1e-5},
        {"late", late, 18, false, 1, 1e-5},
        {"then a bad number", then_bad, 12, false, 1, 1e-5},
    };
    const size_t places[] = {2, 1, 4, 2};
    for (size_t i = 0; i < 4; i++)
        test_refused_at(refusing + i, BLIDROSK_REPEATED, places[i]);
    const struct job bad[] = {{"a bad bulge on one point", and_bad, 12, false, 1, 1e-5},
                              {"a bad number first", bad_first, 18, false, 1, 1e-5}};
    for (size_t i = 0; i < 2; i++)
        test_refused_at(bad + i, BLIDROSK_BAD_NUMBER, 2);
    const struct job done[] = {
        {"equal in x alone", same_x, 9, false, 1, 1e-5},
        {"equal in y alone", same_y, 9, false, 1, 1e-5},
        {"equal but for the last bit, copied", near, 12, false, 0, 1e-5},
        {"on one point later", origin, 9, false, 1, 1e-5},
        {"repeated and copied", late, 18, false, 0, 1e-5},
        {"repeated and copied, below zero", zeros, 12, false, -0.0, 1e-5},
    };
    for (size_t i = 0; i < sizeof done / sizeof *done; i++)
        test_drawn(done + i, true);
}

/* At the vertex that would hand the number out, or at the end; nothing is set to zero. */
static void test_not_finite(void)
{
    static const double tiny[] = {0, 0, 0, 1e-200, 0, 0, 4, 0, 0};
    static const double gap[] = {0, 0, 0, 1e-6, 0, 0, 1e-6, 1e-200, 0, 4, 4, 0};
    static const double half[] = {5, 4, 0, -3, 4, -0.6180339887498949, 5, 0, 0};
    static const double far_off[] = {5, 0, 0.6180339887498949, -3, 4, 0, 5, 4, 0};
    static const double after[] = {-9, 0, 0, -9, -9, 0, 0, 0, 0, 0, 1e-200, 0, 4, 4, 0};
    static const double tiny_arc[] = {0, 0, 1, 1e-200, 0, 0};
    static const double bad[] = {0, 0, 0, 1e-200, 0, 0, 4, 0, 0, 1e7, 0, 0};
    static const struct known red[] = {{0, 1, 0, 1, 1}};
    const struct job jobs[] = {
        {"a line without length", tiny, 9, false, 1, 1e-5},
        {"and then a bad number", bad, 12, false, 1, 1e-5},
        {"half of it is finite", half, 9, false, -0.5000002384185791, 4.7683715820312495e-7},
        {"an arc met at a NaN", far_off, 9, false, 0.5000002384185791, 4.7683715820312495e-7},
    };
    for (size_t i = 0; i < sizeof jobs / sizeof *jobs; i++)
        test_refused_at(jobs + i, BLIDROSK_NOT_FINITE, 2);
    const struct job later = {"after good ones", after, 15, false, 1, 1e-5};
    test_refused_at(&later, BLIDROSK_NOT_FINITE, 3);
    /* at the end, with as many vertices as were taken for a place */
    const struct job at_end[] = {{"a line at the end", tiny, 6, false, 1, 1e-5},
                                 {"an arc at the end", tiny_arc, 6, false, -1, 1e-5}};
    for (size_t i = 0; i < 2; i++) {
        name = at_end[i].name;
        for (size_t k = 0; k < 2; k++) {
            whole.count = whole.segments = 0;
            start_over(at_end[i].offset, at_end[i].eps, BLIDROSK_DONE);
            draw_groups(at_end + i, GROUPS + k, 2, false);
            disturb(tiny, 1);
            end_by((struct wanted){.number = BLIDROSK_NOT_FINITE, .place = 2});
            test_shut(BLIDROSK_NOT_FINITE, 2);
        }
    }
    /* a gap that leads to a NaN leaves a good vertex: the next one is refused, or the end */
    name = "a gap to no number";
    for (size_t i = 0; i < 3; i++) {
        start_over(1, 1e-5, BLIDROSK_DONE);
        struct call call = taking(gap, i == 2 ? 4 : 3, i);
        struct wanted wanted = {.start = 0, .end = 1};
        if (i == 2) {
            wanted.number = BLIDROSK_NOT_FINITE;
            wanted.place = 3;
        }
        know(red, 1, 1);
        test_call(&call, wanted);
        if (i == 0)
            take(gap + 9, (struct wanted){.number = BLIDROSK_NOT_FINITE, .place = 3});
        if (i == 1)
            end_by((struct wanted){.number = BLIDROSK_NOT_FINITE, .place = 3});
        test_shut(BLIDROSK_NOT_FINITE, 3);
    }
    /* the same with an offset of zero */
    const struct job copied = {"a line without length, copied", tiny, 9, false, 0, 1e-5};
    test_drawn(&copied, true);
}

/* Copies of a record go on by themselves, by turns and with other vertices. */
static void test_copies(void)
{
    const struct job steps = {"a copied record", STEPS, 18, false, -1, 1e-5};
    const struct job other = {"its copy", source, 18, false, -1, 1e-5};
    for (size_t k = 0; k <= 6; k++) {
        const struct groups one = {1, {1}};
        set_source(STEPS, 6);
        for (size_t i = 3 * k; i < 18; i++)
            source[i] += i % 3 == 2 ? 0 : 0.5;
        name = steps.name;
        draw_whole(&steps, 6);
        start_over(steps.offset, steps.eps, BLIDROSK_DONE);
        draw_groups(&steps, &one, k, false);
        union record copies[2] = {lent.record, lent.record};
        for (size_t at = k; at <= 6; at++)
            for (size_t c = 0; c < 2; c++) {
                const struct job *job = c == 0 ? &steps : &other;
                const struct call call = at == 6 ? ending(c) : taking(job->source + 3 * at, 1, at);
                name = job->name;
                draw_whole(job, 6);
                lent.record = copies[c];
                test_call(&call, at == 6 ? last_piece(job, 6) : piece(job, at, at + 1));
                copies[c] = lent.record;
            }
    }
}

/* A start on any record begins anew: open at each vertex, ended, refused, or filled by chance. */
static void test_starts(void)
{
    const struct job before = {"before a new start", STEPS, 18, false, 1, 1e-5};
    const struct job job = {"a new start", GAP, 9, false, 2, 1e-5};
    union record first = lent.record;
    for (size_t i = 0; i < 24; i++) {
        const struct groups one = {1, {1}};
        clear();
        if (i < 8) {
            start_over(before.offset, before.eps, BLIDROSK_DONE);
            draw_whole(&before, 6);
            draw_groups(&before, &one, least(i, 6), false);
        }
        if (i == 7)
            end_by(last_piece(&before, 6));
        for (size_t k = 0; i > 8 && k < BYTES; k++)
            lent.record.bytes[k] = i == 9 ? 0xff : (uint8_t)by_chance();
        name = job.name;
        draw_whole(&job, 3);
        start_over(job.offset, job.eps, BLIDROSK_DONE);
        if (i == 0)
            first = lent.record;
        /* what comes of it shows whether anything was kept */
        test_drawn_by(&job, GROUPS + i % GROUPINGS, i % 2 == 0);
        test_shut(BLIDROSK_NO_OPEN_JOB, 0);
    }
    /* of a mode too: a round job on a record of a pointed one, and the other way */
    const struct corners mode = corners;
    for (size_t i = 0; i < 4; i++) {
        corners = mode;
        corners.pointed = mode.pointed == (i < 2);
        corners.ratio = 2;
        lent.record = first;
        start_over(1, 0.01, BLIDROSK_DONE);
        if (i % 2 == 0)
            take(STEPS, NOTHING);
        corners = mode;
        corners.ratio = 2;
        draw_whole(&job, 3);
        start_over(job.offset, job.eps, BLIDROSK_DONE);
        test_drawn_by(&job, GROUPS, true);
    }
    corners = mode;
}

/* Whether an answer can be one: a number of these, and counts within the room. */
static bool is_answer(const struct call *call, const uint32_t answer[ANSWER])
{
    const uint32_t number = answer[BLIDROSK_DRAW_NUMBER];
    const size_t count = answer[BLIDROSK_DRAW_VERTICES], room = room_for(call->len / 3);
    return (number <= BLIDROSK_NOT_FINITE || number == BLIDROSK_NO_OPEN_JOB) &&
           count <= (call->ends ? 2 : room) &&
           answer[BLIDROSK_DRAW_SEGMENTS] + (call->ends && count > 0) == count &&
           answer[BLIDROSK_DRAW_INDEXES] <= answer[BLIDROSK_DRAW_SEGMENTS] &&
           answer[BLIDROSK_DRAW_PLACE] <= MOST;
}

/* A call over a record that may hold anything. */
static bool test_any(const struct call *call)
{
    const union record before = lent.record;
    const uint64_t pattern = PATTERNS[calls % 2];
    uint32_t answer[ANSWER];
    make(call, pattern, answer);
    const size_t set[BUFFERS] = {3 * (size_t)answer[BLIDROSK_DRAW_VERTICES],
                                 answer[BLIDROSK_DRAW_SEGMENTS], answer[BLIDROSK_DRAW_INDEXES],
                                 answer[BLIDROSK_DRAW_SEGMENTS]};
    test(is_answer(call, answer), "no job answers so");
    test(stays(call, pattern, set), "a place changed past the counts");
    const bool none = answer[BLIDROSK_DRAW_NUMBER] == BLIDROSK_NO_OPEN_JOB;
    test(!none || same_record(&before, &lent.record), "the record changed without a job");
    return none;
}

static void test_any_record(void)
{
    const struct job job = {"any record", STEPS, 18, false, -1, 1e-5};
    const uint32_t words[] = {0, 1, 2, 3, 4, 4096, 4097, 8188, 12285, 0x7fffffff, 0xffffffff};
    struct call call;
    unsigned none = 0;
    name = job.name;
    clear();
    test_shut(BLIDROSK_NO_OPEN_JOB, 0);
    for (size_t i = 0; i < BYTES; i++)
        lent.record.bytes[i] = 0xff;
    test_shut(BLIDROSK_NO_OPEN_JOB, 0);
    for (size_t i = 0; i < 200; i++) {
        for (size_t k = 0; k < BYTES; k++)
            lent.record.bytes[k] = (uint8_t)by_chance();
        /* by chance no stage is one */
        test_shut(BLIDROSK_NO_OPEN_JOB, 0);
    }
    /* each word of a record at every stage of a job, with numbers that can pass for something */
    draw_whole(&job, 6);
    for (size_t at = 0; at <= 8; at++) {
        start_over(job.offset, job.eps, BLIDROSK_DONE);
        if (at == 8) {
            const double bad[] = {0, 0, NOT_A_NUMBER.value};
            take(bad, (struct wanted){.number = BLIDROSK_BAD_NUMBER});
        } else {
            draw_groups(&job, GROUPS, least(at, 6), false);
        }
        if (at == 7)
            end_by(last_piece(&job, 6));
        const union record good = lent.record;
        for (size_t i = 0; i < BYTES / 4; i++)
            for (size_t w = 0; w < sizeof words / sizeof *words; w++) {
                for (size_t turn = 0; turn < 4; turn++) {
                    if (turn != 2) {
                        lent.record = good;
                        for (size_t b = 0; b < 4; b++)
                            lent.record.bytes[4 * i + b] = (uint8_t)(words[w] >> 8 * b);
                    }
                    /* two draws in a row, and two ends */
                    call = turn % 3 == 0 ? ending(w) : taking(STEPS, 3, w);
                    none += test_any(&call);
                }
            }
    }
    test(none > 0, "every count passed for a job");
}

/* Prints what a call hands out. */
static void print_piece(const char *given, const uint32_t answer[ANSWER])
{
    printf("%s:", given);
    for (uint32_t i = 0; i < answer[BLIDROSK_DRAW_VERTICES]; i++) {
        const union number *v = vertices + GUARD + 3 * i;
        printf(" (%g, %g)", v[0].value, v[1].value);
        if (i < answer[BLIDROSK_DRAW_SEGMENTS])
            printf("%s %s of segment %u%s", flags[GUARD + i] == 1 ? ", red," : "",
                   blidrosk_origin_is_connector(origins[GUARD + i]) ? "connector" : "span",
                   blidrosk_origin_source(origins[GUARD + i]),
                   i + 1 < answer[BLIDROSK_DRAW_VERTICES] ? ";" : "");
    }
    printf("\n");
}

/* A corner that is too tight, as the pen comes to it: what each vertex makes certain. */
static void print_corner(void)
{
    const char *given[] = {"(0, 0)", "(4, 0)", "(4, 1)"};
    uint32_t answer[ANSWER];
    start_over(2, 1e-5, BLIDROSK_DONE);
    for (size_t k = 0; k < 3; k++) {
        struct call call = taking(GAP + 3 * k, 1, 0);
        make(&call, PATTERNS[0], answer);
        print_piece(given[k], answer);
    }
    struct call call = ending(0);
    make(&call, PATTERNS[0], answer);
    print_piece("the end", answer);
}

int main(void)
{
    const struct {
        const char *name;
        void (*run)(void);
    } tests[] = {
        {"known number by number", test_known},
        {"done", test_done},
        {"up to 4096 vertices and one more", test_many},
        {"bad vertices", test_bad_vertices},
        {"bad settings", test_bad_settings},
        {"limits", test_limits},
        {"room", test_room},
        {"repeated vertices", test_repeated},
        {"not finite", test_not_finite},
        {"copies of a record", test_copies},
        {"new starts", test_starts},
        {"any record", test_any_record},
    };
    wind(spiral, MOST + 904);
    print_corner();
    for (size_t i = 0; i < sizeof tests / sizeof *tests; i++) {
        calls = 0;
        in_both(tests[i].run);
        printf("%s: %u calls\n", tests[i].name, calls);
    }
    return failed;
}
