/*
 * Offsets a letter with pointed outer corners and says of each output segment what it is. It tests
 * other drawings number by number, bit for bit, with the reason of each of their segments; what is
 * refused, at its border; and how much of the buffers is set.
 */
#include <stdio.h>

#include "modes.h"
#include "numbers.h"

enum { MOST = 4096, SPARE = 2, PLACES = 3 * MOST + SPARE, ROWS = 12 };

static const union number BELOW_1 = {0x3fefffffffffffff}, ABOVE_10 = {0x4024000000000001};
static const union number BELOW_1_25 = {0x3ff3ffffffffffff}, ABOVE_EPS = {0x3f80000000000001};
static const union number ROUND_BULGE = {0x3fda827999fcef33};

/* A vertex of an output, and the segment that leaves it; reason 0 where none does. */
struct row {
    double x, y, bulge;
    uint32_t origin, reason;
};

struct drawn {
    struct job job;
    double ratio;
    bool closed;
    uint32_t count;
    struct row rows[ROWS];
};

/* What is lent, past the job's room too. */
static union number vertices[3 * PLACES];
static uint8_t flags[PLACES];
static uint32_t indexes[PLACES], origins[PLACES];

static int failed;

static void test(bool holds, const char *words, const struct job *job)
{
    if (!holds) {
        printf("%s, ratio %.17g: %s\n", job->name, corners.ratio, words);
        failed = 1;
    }
}

static void fill(uint64_t pattern)
{
    for (size_t i = 0; i < 3 * PLACES; i++)
        vertices[i].bits = pattern_at(pattern, i);
    for (size_t i = 0; i < PLACES; i++) {
        flags[i] = (uint8_t)pattern_at(pattern, 2 * i);
        indexes[i] = (uint32_t)pattern_at(pattern, 3 * i);
        origins[i] = (uint32_t)pattern_at(pattern, 5 * i);
    }
}

/* Whether the places from `set` on hold the pattern. */
static bool stays(uint64_t pattern, size_t set)
{
    bool same = true;
    for (size_t i = 3 * set; i < 3 * PLACES; i++)
        same = same && vertices[i].bits == pattern_at(pattern, i);
    for (size_t i = set; i < PLACES; i++)
        same = same && flags[i] == (uint8_t)pattern_at(pattern, 2 * i) &&
               indexes[i] == (uint32_t)pattern_at(pattern, 3 * i) &&
               origins[i] == (uint32_t)pattern_at(pattern, 5 * i);
    return same;
}

static struct buffers all_of(size_t places)
{
    struct buffers lent = {&vertices->value, 3 * places, flags,   places,
                           indexes,          places,     origins, places};
    return lent;
}

/* Runs a job over a pattern and holds its answer. */
static void test_answer(const struct job *job, const struct buffers *lent, uint64_t pattern,
                        const uint32_t wanted[5])
{
    uint32_t answer[5] = {77, 77, 77, 77, 77};
    fill(pattern);
    uint32_t number = offset_job(job, lent, answer);
    bool same = number == answer[BLIDROSK_NUMBER];
    for (size_t i = 0; i < 5; i++)
        same = same && answer[i] == wanted[i];
    test(same, "another answer was wanted", job);
}

/* Asks of a segment, and holds all that is told. */
static void test_told(const struct job *job, uint32_t segment, const uint32_t wanted[7])
{
    uint32_t answer[7] = {77, 77, 77, 77, 77, 77, 77};
    union number params[2] = {{1}, {2}};
    uint32_t number = ask_job(job, segment, answer, &params->value);
    bool same = number == answer[BLIDROSK_WHY_NUMBER] && params[0].bits == 0 && params[1].bits == 0;
    for (size_t i = 0; i < 7; i++)
        same = same && answer[i] == wanted[i];
    test(same, "another reason was wanted", job);
}

static void test_not_told(const struct job *job, uint32_t segment, uint32_t number, uint32_t place)
{
    const uint32_t wanted[7] = {number, place, 0, 0, 0, 0, 0};
    test_told(job, segment, wanted);
}

static void test_row(const struct job *job, uint32_t segment, const struct row *row)
{
    const uint32_t wanted[7] = {
        BLIDROSK_DONE, 0, blidrosk_origin_is_connector(row->origin),
        blidrosk_origin_source(row->origin), row->reason, 0, 0};
    test_told(job, segment, wanted);
}

static bool sets_flag(uint32_t reason)
{
    return reason >= BLIDROSK_COLLAPSED_SIDE && reason <= BLIDROSK_SAME_DIRECTION;
}

/* Whether the first places are these rows, and the others of the room are zero. */
static bool holds(const struct drawn *drawn, size_t room)
{
    static const struct row none;
    bool same = true;
    uint32_t red = 0;
    for (uint32_t i = 0; i < room; i++) {
        const struct row *row = i < drawn->count ? drawn->rows + i : &none;
        same = same && same_bits(vertices[3 * i].value, row->x) &&
               same_bits(vertices[3 * i + 1].value, row->y) &&
               same_bits(vertices[3 * i + 2].value, row->bulge) &&
               flags[i] == sets_flag(row->reason) && origins[i] == row->origin;
        if (sets_flag(row->reason))
            same = same && indexes[red++] == i;
    }
    for (uint32_t i = red; i < room; i++)
        same = same && indexes[i] == 0;
    return same;
}

static uint32_t red_of(const struct drawn *drawn)
{
    uint32_t red = 0;
    for (uint32_t i = 0; i < drawn->count; i++)
        red += sets_flag(drawn->rows[i].reason);
    return red;
}

static void test_drawn(const struct drawn *drawn)
{
    const struct job *job = &drawn->job;
    const uint32_t wanted[5] = {BLIDROSK_DONE, 0, drawn->count, red_of(drawn), drawn->closed};
    corners.ratio = drawn->ratio;
    size_t room = room_for(segments_of(job));
    for (size_t i = 0; i < 4; i++) {
        struct buffers lent = all_of(i < 2 ? room : room + SPARE);
        test_answer(job, &lent, PATTERNS[i % 2], wanted);
        test(holds(drawn, room), "another drawing was wanted", job);
        test(stays(PATTERNS[i % 2], room), "a place past the room changed", job);
    }
    uint32_t count = drawn->count - (drawn->count > 0 && !drawn->closed);
    for (uint32_t i = 0; i < count; i++)
        test_row(job, i, drawn->rows + i);
    test_not_told(job, count, BLIDROSK_NO_SUCH_SEGMENT, 0);
    test_not_told(job, (uint32_t)-1, BLIDROSK_NO_SUCH_SEGMENT, 0);
}

static void test_drawings(void)
{
    const double square[] = {0, 0, 0, 4, 0, 0, 4, 4, 0, 0, 4, 0};
    const double right[] = {0, 0, 0, 10, 0, 0, 17, -24, 0};
    const double slanted[] = {0, 0, 0, 3, 1, 0, 5, -4, 0};
    const double up[] = {0, 0, 0, 4, 0, 0, 4, 4, 0};
    const double tiny[] = {0, 0, 0, 0.05, 0, 0, 0.05, -0.05, 0};
    const double at_eps[] = {0, 0, 0, 0.125, 0, 0, 0.125, -0.0625, 0};
    const double flat[] = {0, 0, 0, 4, 0, 0, 8, -0.06, 0};
    const double ring[] = {0, 0, 0, 0.5, 0, 0, 1.5, 1, 0, 0, 0, 0};
    const double by = -0.03414213562373077, b = ROUND_BULGE.value;
    const double back[] = {0, 0, 0, 4, 0, 0, 0, 0, 0};
    const double step[] = {0, 0, 0, 4, 0, 0, 4, -6, 0, 5, -6, 0};
    const double twice[] = {0, 0, 0.5, -0.0, 0, -0.0, 4, 0, 1};
    enum { SPAN = BLIDROSK_IN_ORDER, ROUND = BLIDROSK_ROUND, POINT = BLIDROSK_POINTED };
    enum { COPY = BLIDROSK_COPIED };
    const struct drawn all[] = {
        {{"a square", square, 12, true, -1, 1e-5}, 2, true, 12,
         {{0, -1, 0, 0, SPAN}, {4, -1, 0, 1, POINT}, {5, -1, 0, 1, POINT},
          {5, 0, 0, 2, SPAN}, {5, 4, 0, 3, POINT}, {5, 5, 0, 3, POINT},
          {4, 5, 0, 4, SPAN}, {0, 5, 0, 5, POINT}, {-1, 5, 0, 5, POINT},
          {-1, 4, 0, 6, SPAN}, {-1, 0, 0, 7, POINT}, {-1, -1, 0, 7, POINT}}},
        {{"a square, its points too far", square, 12, true, -1, 1e-5}, 1.4, true, 8,
         {{0, -1, 0, 0, SPAN}, {4, -1, b, 1, ROUND}, {5, 0, 0, 2, SPAN}, {5, 4, b, 3, ROUND},
          {4, 5, 0, 4, SPAN}, {0, 5, b, 5, ROUND}, {-1, 4, 0, 6, SPAN}, {-1, 0, b, 7, ROUND}}},
        {{"a square made smaller", square, 12, true, 1, 1e-5}, 10, true, 4,
         {{1, 1, 0, 0, SPAN}, {3, 1, 0, 2, SPAN}, {3, 3, 0, 4, SPAN}, {1, 3, 0, 6, SPAN}}},
        {{"an open square", square, 12, false, -1, 1e-5}, 10, false, 8,
         {{0, -1, 0, 0, SPAN}, {4, -1, 0, 1, POINT}, {5, -1, 0, 1, POINT}, {5, 0, 0, 2, SPAN},
          {5, 4, 0, 3, POINT}, {5, 5, 0, 3, POINT}, {4, 5, 0, 4, SPAN}, {0, 5, 0, 0, 0}}},
        {{"a point just near enough", right, 9, false, 25, 1e-5}, 1.25, false, 5,
         {{0, 25, 0, 0, SPAN}, {10, 25, 0, 1, POINT}, {28.75, 25, 0, 1, POINT},
          {34, 7.000000000000001, 0, 2, SPAN}, {41, -17, 0, 0, 0}}},
        {{"a point just too far", right, 9, false, 25, 1e-5}, BELOW_1_25.value, false, 4,
         {{0, 25, 0, 0, SPAN}, {10, 25, -1. / 3, 1, ROUND}, {34, 7.000000000000001, 0, 2, SPAN},
          {41, -17, 0, 0, 0}}},
        /* the point is worked out along the first line, from its start */
        {{"a slanted corner", slanted, 9, false, 0.7, 1e-5}, 3, false, 5,
         {{-0.22135943621178655, 0.6640783086353595, 0, 0, SPAN},
          {2.7786405637882137, 1.6640783086353594, 0, 1, POINT},
          {3.4048033747498074, 1.872799245622557, 0, 1, POINT},
          {3.6499336836196816, 1.2599734734478725, 0, 2, SPAN},
          {5.649933683619682, -3.7400265265521275, 0, 0, 0}}},
        /* by (ratio * offset) * (ratio * offset), where other orders of work say otherwise */
        {{"a limit rounded up", up, 9, false, -31.886, 1e-5}, 1.4142135623730949, false, 5,
         {{0, -31.886, 0, 0, SPAN}, {4, -31.886, 0, 1, POINT},
          {35.885999999999996, -31.886, 0, 1, POINT}, {35.885999999999996, 0, 0, 2, SPAN},
          {35.885999999999996, 4, 0, 0, 0}}},
        {{"a limit rounded down", up, 9, false, -1.545, 1e-5}, 1.4142135623730951, false, 4,
         {{0, -1.545, 0, 0, SPAN}, {4, -1.545, b, 1, ROUND}, {5.545, 0, 0, 2, SPAN},
          {5.545, 4, 0, 0, 0}}},
        {{"lines too short to be crossed", tiny, 9, false, 1, 0.01}, 2, false, 4,
         {{0, 1, 0, 0, SPAN}, {0.05, 1, -b, 1, ROUND}, {1.05, 0, 0, 2, SPAN},
          {1.05, -0.05, 0, 0, 0}}},
        {{"lines just long enough", at_eps, 9, false, 1, 0.0078125}, 2, false, 5,
         {{0, 1, 0, 0, SPAN}, {0.125, 1, 0, 1, POINT}, {1.125, 1, 0, 1, POINT},
          {1.125, 0, 0, 2, SPAN}, {1.125, -0.0625, 0, 0, 0}}},
        {{"lines just too short", at_eps, 9, false, 1, ABOVE_EPS.value}, 2, false, 4,
         {{0, 1, 0, 0, SPAN}, {0.125, 1, -b, 1, ROUND}, {1.125, 0, 0, 2, SPAN},
          {1.125, -0.0625, 0, 0, 0}}},
        {{"the first connector left out", flat, 9, false, 1, 0.01}, 2, false, 4,
         {{0, 1, 0, 0, SPAN}, {4, 1, 0, 1, POINT},
          {4.014998312784712, 0.9998875189808163, 0, 2, SPAN},
          {8.014998312784712, 0.9398875189808162, 0, 0, 0}}},
        {{"the second connector left out", ring, 9, true, by, 0.01}, 1.25, true, 6,
         {{0, by, 0, 0, SPAN}, {0.5, by, 0, 1, POINT}, {0.5141421356237309, by, 0, 2, SPAN},
          {1.5241421356237308, 0.9758578643762692, 0.9058709600769339, 3, ROUND},
          {1.4810613506699681, 1.0284079739950478, 0, 4, SPAN},
          {-0.018938649330031847, 0.02840797399504777, 0.7420559691808208, 5, ROUND}}},
        {{"the closing point left out", ring + 3, 9, true, by, 0.01}, 1.25, true, 6,
         {{0.5241421356237308, -0.024142135623730823, 0, 0, SPAN},
          {1.5241421356237308, 0.9758578643762692, 0.9058709600769339, 1, ROUND},
          {1.4810613506699681, 1.0284079739950478, 0, 2, SPAN},
          {-0.018938649330031847, 0.02840797399504777, 0.7420559691808208, 3, ROUND},
          {0, by, 0, 4, SPAN}, {0.5, by, 0, 5, POINT}}},
        {{"there and back", back, 9, false, 1, 1e-5}, 10, false, 4,
         {{0, 1, 0, 0, SPAN}, {4, 1, -1, 1, BLIDROSK_REVERSAL}, {4, -1, 0, 2, SPAN},
          {0, -1, 0, 0, 0}}},
        {{"a gap past a point", step, 12, false, 2, 1e-5}, 2, false, 7,
         {{0, 2, 0, 0, SPAN}, {4, 2, 0, 1, POINT}, {6, 2, 0, 1, POINT}, {6, 0, 0, 2, SPAN},
          {6, -6, 0, 3, BLIDROSK_MISSED}, {4, -4, 0, 4, SPAN}, {5, -4, 0, 0, 0}}},
        {{"a closed copy", twice, 9, true, 0, 1e-5}, 1, true, 3,
         {{0, 0, 0.5, 0, COPY}, {-0.0, 0, -0.0, 2, COPY}, {4, 0, 1, 4, COPY}}},
        {{"an open copy", twice, 9, false, -0.0, 1e-5}, 10, false, 3,
         {{0, 0, 0.5, 0, COPY}, {-0.0, 0, -0.0, 2, COPY}, {4, 0, 1, 0, 0}}},
        {{"a line", back, 6, false, 1, 1e-5}, 1, false, 2, {{0, 1, 0, 0, SPAN}, {4, 1, 0, 0, 0}}},
        {{"one vertex", square, 3, true, 1, 1e-5}, 10, false, 0, {{0, 0, 0, 0, 0}}},
        {{"no vertex", square, 0, false, 0, 1e-5}, 1, false, 0, {{0, 0, 0, 0, 0}}},
    };
    for (size_t i = 0; i < sizeof all / sizeof *all; i++)
        test_drawn(all + i);
}

/* What both modes tell of a segment is the same. */
static void test_told_alike(const struct job *job, uint32_t segment)
{
    uint32_t told[2][7];
    double params[2][2];
    for (size_t mode = 0; mode < 2; mode++) {
        corners.pointed = mode == 1;
        ask_job(job, segment, told[mode], params[mode]);
    }
    bool same = same_bits(params[0][0], params[1][0]) && same_bits(params[0][1], params[1][1]);
    for (size_t i = 0; i < 7; i++)
        same = same && told[0][i] == told[1][i];
    test(same, "another reason than with round corners", job);
}

/* A job that has no corner to point draws the same in both modes. */
static void test_alike(const struct job *job)
{
    static union number round_vertices[3 * ROWS];
    uint8_t round_flags[ROWS] = {0};
    uint32_t round_indexes[ROWS] = {0}, round_origins[ROWS] = {0}, answer[5] = {0};
    const struct buffers round = {&round_vertices->value, 3 * ROWS, round_flags,   ROWS,
                                  round_indexes,          ROWS,     round_origins, ROWS};
    struct buffers lent = all_of(ROWS);
    for (size_t i = 0; i < 3 * ROWS; i++)
        round_vertices[i].bits = 0;
    corners.pointed = false;
    test(offset_job(job, &round, answer) == BLIDROSK_DONE, "it was refused", job);
    corners.pointed = true;
    test_answer(job, &lent, PATTERNS[0], answer);
    bool same = true;
    for (size_t i = 0; i < room_for(segments_of(job)); i++)
        same = same && vertices[3 * i].bits == round_vertices[3 * i].bits &&
               vertices[3 * i + 1].bits == round_vertices[3 * i + 1].bits &&
               vertices[3 * i + 2].bits == round_vertices[3 * i + 2].bits &&
               flags[i] == round_flags[i] && indexes[i] == round_indexes[i] &&
               origins[i] == round_origins[i];
    test(same, "another drawing than with round corners", job);
    for (uint32_t i = 0; i <= answer[BLIDROSK_VERTICES]; i++)
        test_told_alike(job, i);
}

/* With arcs, and where points are too far or there is none. */
static void test_round(void)
{
    const double arcs[] = {0, 0, 0, 4, 0, 1, 4, -4, 0, 0, -4, -0.5};
    const double collapsed[] = {0, 0, 0, 4, 0, -1, 4.5, -0.5, 0, 4.5, -6, 0};
    const double needle[] = {0, 0, 0, 4, 0, 0, 0, -0.5, 0};
    const double back[] = {0, 0, 0, 4, 0, 0, 0, 0, 0};
    const struct job jobs[] = {
        {"arcs", arcs, 12, true, 0.5, 1e-5},
        {"arcs to the other side", arcs, 12, true, -0.5, 1e-5},
        {"an arc that shrinks to nothing", collapsed, 12, false, -3, 1e-5},
        {"a needle, open", needle, 9, false, 0.125, 1e-5},
        {"there and back", back, 6, true, 1, 1e-5},
    };
    corners.ratio = 10;
    for (size_t i = 0; i < sizeof jobs / sizeof *jobs; i++)
        test_alike(jobs + i);
    corners.ratio = 1;
    const double square[] = {0, 0, 0, 4, 0, 0, 4, 4, 0, 0, 4, 0};
    const struct job smallest = {"a square with the smallest ratio", square, 12, true, -1, 1e-5};
    test_alike(&smallest);
}

/* A refusal sets no place, and is told by its number and place. */
static void test_refused(const struct job *job, uint32_t number, uint32_t place)
{
    const uint32_t wanted[5] = {number, place, 0, 0, 0};
    struct buffers lent = all_of(PLACES);
    for (size_t i = 0; i < 2; i++) {
        test_answer(job, &lent, PATTERNS[i], wanted);
        test(stays(PATTERNS[i], 0), "a refusal changed a place", job);
    }
    test_not_told(job, 0, number, place);
    test_not_told(job, (uint32_t)-1, number, place);
}

/* One vertex more than is taken. */
static double spiral[3 * (MOST + 1)];

/* The ratio is tested last of the numbers, for every count of vertices and with a copy too. */
static void test_ratios(void)
{
    const double bad[] = {BELOW_1.value, ABOVE_10.value, NOT_A_NUMBER.value, INFINITE.value,
                          -INFINITE.value, 0, -0.0, -2, 1e300};
    const size_t counts[] = {0, 1, 2, 3, MOST};
    for (size_t i = 0; i < sizeof bad / sizeof *bad; i++)
        for (size_t k = 0; k < 4 * (sizeof counts / sizeof *counts); k++) {
            size_t count = counts[k / 4];
            const struct job job = {"a bad ratio", spiral, 3 * count, k % 2 == 1,
                                    k % 4 < 2 ? 1 : -0.0, 1e-5};
            corners.ratio = bad[i];
            test_refused(&job, BLIDROSK_BAD_NUMBER, (uint32_t)count + 2);
        }
}

/* Each refusal with a bad ratio, or with a good one: those that come before it, and after it. */
static void test_refusals(void)
{
    const double corner[] = {0, 0, 0, 4, 0, 2e9, 4, 1, 0};
    const double twice[] = {0, 0, 0, 4, 0, 0, 4, 0, 0};
    const struct {
        struct job job;
        double ratio;
        uint32_t number, place;
    } refused[] = {
        {{"numbers left over", corner, 8, false, 1, 1e-5}, 2, BLIDROSK_RAGGED, 0},
        {{"numbers left over", corner, 8, false, 1, 1e-5}, 0, BLIDROSK_RAGGED, 0},
        {{"too many vertices", spiral, 3 * (MOST + 1), true, 1, 1e-5}, 2, BLIDROSK_TOO_MANY, 0},
        {{"too many vertices", spiral, 3 * (MOST + 1), true, 0, 1e-5}, 0, BLIDROSK_TOO_MANY, 0},
        {{"a bad vertex", corner, 9, false, 1, 1e-5}, 2, BLIDROSK_BAD_NUMBER, 1},
        {{"a bad vertex", corner, 9, false, 1, 1e-5}, 0, BLIDROSK_BAD_NUMBER, 1},
        {{"a bad offset", spiral, 9, false, 2e6, 1e-5}, 2, BLIDROSK_BAD_NUMBER, 3},
        {{"a bad offset", spiral, 9, false, 2e6, 1}, 0, BLIDROSK_BAD_NUMBER, 3},
        {{"a bad tolerance", spiral, 9, false, 1, 1}, 2, BLIDROSK_BAD_NUMBER, 4},
        {{"a bad tolerance", spiral, 9, false, 1, 1}, 0, BLIDROSK_BAD_NUMBER, 4},
        {{"a repeated vertex", twice, 9, false, 1, 1e-5}, 2, BLIDROSK_REPEATED, 1},
        {{"a repeated vertex", twice, 9, false, 1, 1e-5}, 0, BLIDROSK_BAD_NUMBER, 5},
    };
    for (size_t i = 0; i < sizeof refused / sizeof *refused; i++) {
        corners.ratio = refused[i].ratio;
        test_refused(&refused[i].job, refused[i].number, refused[i].place);
    }
}

/* Lends the room of n segments, with so many elements of one buffer left out. */
static struct buffers lent_less(uint32_t n, size_t buffer, size_t less)
{
    struct buffers lent = all_of(room_for(n));
    lent.vertices_len -= buffer == 0 ? less : 0;
    lent.flags_len -= buffer == 1 ? less : 0;
    lent.indexes_len -= buffer == 2 ? less : 0;
    lent.origins_len -= buffer == 3 ? less : 0;
    return lent;
}

static void test_room_of(const struct job *job)
{
    const uint64_t pattern = PATTERNS[1];
    const uint32_t no_room[5] = {BLIDROSK_NO_ROOM, 0, 0, 0, 0};
    const uint32_t bad_ratio[5] = {BLIDROSK_BAD_NUMBER, (uint32_t)(job->len / 3) + 2, 0, 0, 0};
    uint32_t n = segments_of(job);
    for (size_t buffer = 0; buffer < 4; buffer++) {
        /* one element, and all that round corners do without */
        const size_t less[] = {1, buffer == 0 ? 3 * n : n};
        for (size_t i = 0; i < 2; i++) {
            struct buffers lent = lent_less(n, buffer, less[i]);
            corners.ratio = 2;
            test_answer(job, &lent, pattern, no_room);
            test(stays(pattern, 0), "a refusal changed a place", job);
            corners.ratio = 0;
            test_answer(job, &lent, pattern, bad_ratio);
        }
    }
}

static void test_room(void)
{
    const double twice[] = {0, 0, 0, 4, 0, 0, 4, 0, 0};
    const struct job jobs[] = {
        {"room of an open corner", spiral, 9, false, 1, 1e-5},
        {"room of a closed corner", spiral, 9, true, -1, 1e-5},
        {"room of an open copy", spiral, 9, false, 0, 1e-5},
        {"room of a closed copy", spiral, 9, true, -0.0, 1e-5},
        {"room before repeated vertices", twice, 9, false, 1, 1e-5},
    };
    for (size_t i = 0; i < sizeof jobs / sizeof *jobs; i++)
        test_room_of(jobs + i);
}

/* After No. 6 all of the room is zero, and the places past it stay. */
static void test_not_finite(void)
{
    const double far_off[] = {5, 0, 0.6180339887498949, -3, 4, 0, 5, 4, 0};
    const double by = 0.5000002384185791, eps = 4.7683715820312495e-7;
    const struct drawn none = {
        {"not finite", far_off, 9, false, by, eps}, 2, false, 0, {{0, 0, 0, 0, 0}}};
    const uint32_t wanted[5] = {BLIDROSK_NOT_FINITE, 0, 0, 0, 0};
    const uint64_t pattern = PATTERNS[0];
    struct buffers lent = all_of(PLACES);
    corners.ratio = none.ratio;
    size_t room = room_for(segments_of(&none.job));
    test_answer(&none.job, &lent, pattern, wanted);
    test(holds(&none, room), "a place of the room is not zero", &none.job);
    test(stays(pattern, room), "a place past the room changed", &none.job);
    test_not_told(&none.job, 0, BLIDROSK_NOT_FINITE, 0);
}

/* Each corner of so many vertices has its point: span, point, point, and so on. */
static void test_many(size_t count)
{
    const struct job job = {"a spiral", spiral, 3 * count, false, -0.25, 1e-5};
    uint32_t n = (uint32_t)count - 1, drawn = 3 * n - 1;
    const uint32_t wanted[5] = {BLIDROSK_DONE, 0, drawn, 0, 0};
    const uint64_t pattern = PATTERNS[1];
    struct buffers lent = all_of(PLACES);
    corners.ratio = 1.5;
    test_answer(&job, &lent, pattern, wanted);
    test(stays(pattern, 3 * n), "a place past the room changed", &job);
    bool same = true;
    for (uint32_t i = 0; i < 3 * n; i++) {
        uint32_t origin = i < drawn - 1 ? 2 * (i / 3) + (i % 3 > 0) : 0;
        same = same && origins[i] == origin && flags[i] == 0 && indexes[i] == 0 &&
               vertices[3 * i + 2].bits == 0;
    }
    test(same, "another drawing was wanted", &job);
    for (uint32_t i = 0; i < 3; i++) {
        uint32_t reason = i > 0 ? BLIDROSK_POINTED : BLIDROSK_IN_ORDER;
        const struct row row = {0, 0, 0, 2 * (n - 2) + (i > 0), reason};
        test_row(&job, 3 * (n - 2) + i, &row);
    }
    test_not_told(&job, drawn - 1, BLIDROSK_NO_SUCH_SEGMENT, 0);
}

static const char *piece_of(uint32_t reason)
{
    switch (reason) {
    case BLIDROSK_IN_ORDER:
        return "span of";
    case BLIDROSK_ROUND:
        return "round connector after";
    case BLIDROSK_POINTED:
        return "pointed connector after";
    default:
        return "no such piece of";
    }
}

/* A letter V: its bottom is pointed, and two tips at the top are too sharp for the ratio. */
static void print_letter(void)
{
    const double letter[] = {
        4, 0, 0, /* x, y, bulge */
        6, 0, 0,
        10, 10, 0,
        8, 10, 0,
        5, 2.5, 0,
        2, 10, 0,
        0, 10, 0,
    };
    const struct job job = {"the letter", letter, 21, true, -0.5, 1e-5};
    struct buffers lent = all_of(21);
    uint32_t answer[5], told[7];
    double params[2];
    corners.ratio = 1.5;
    if (offset_job(&job, &lent, answer) != BLIDROSK_DONE) {
        test(false, "it was refused", &job);
        return;
    }
    printf("%u vertices, ratio %g\n", (unsigned)answer[BLIDROSK_VERTICES], corners.ratio);
    for (uint32_t i = 0; i < answer[BLIDROSK_VERTICES]; i++) {
        ask_job(&job, i, told, params);
        printf("(%.4f, %.4f) bulge %.4f: %s source segment %u\n", vertices[3 * i].value,
               vertices[3 * i + 1].value, vertices[3 * i + 2].value,
               piece_of(told[BLIDROSK_WHY_REASON]), (unsigned)told[BLIDROSK_WHY_SOURCE]);
    }
}

int main(void)
{
    corners.pointed = true;
    print_letter();
    wind(spiral, MOST + 1);
    test_drawings();
    test_round();
    test_ratios();
    test_refusals();
    test_room();
    test_not_finite();
    test_many(3);
    test_many(MOST);
    return failed;
}
