/*
 * Offsets a slot that is lent in columns and prints the columns that come back. It tests jobs of
 * both modes over buffers full of a pattern: after each call every place of all six buffers has to
 * hold what it should, and the same job in rows has to agree with it place by place. Each refusal
 * is tested at its border.
 */
#include <stdio.h>

#include "modes.h"
#include "numbers.h"

enum { MOST = 4096, GUARD = 3, SPARE = 24, ALL = GUARD + 3 * MOST + SPARE };
enum { XS, YS, BULGES, COLUMNS, FLAGS = COLUMNS, INDEXES, ORIGINS, BUFFERS };
enum { ANSWER = 5, KNOWN = 12 };

/* What is lent, in columns and in rows: a guard first, and places past the job's room. */
static union number columns[COLUMNS][ALL], vertices[COLUMNS * ALL];
static struct lists {
    uint8_t flags[ALL];
    uint32_t indexes[ALL], origins[ALL];
} in_columns, in_rows;

/* The source that jobs are made of, and what one held before its call, in columns and in rows. */
static union number source[COLUMNS][MOST + 2];
static union number kept[COLUMNS][MOST + 2], rows[COLUMNS * (MOST + 2)];

/* One vertex more than is taken. */
static double spiral[COLUMNS * (MOST + 1)];

static const double SQUARE[] = {0, 0, 0, 4, 0, 0, 4, 4, 0, 0, 4, 0};
static const double STEPS[] = {0, 0, 0, 4, 0, 0.5, 5, 3, 0, 9, -2, -0.25};
static const double SLOT[] = {0, 0, 0, 4, 0, 1, 4, 2, 0, 0, 2, 1};
static const double CIRCLE[] = {10, 5e-7, 4e7, 10, -5e-7, 0};
static const double ZEROS[] = {-0.0, 0, -0.0, 4, -0.0, 0.0, -0.0, -3, -0.0};

static int failed;
static unsigned calls;

static void test(bool holds, const char *words, const struct columns *job)
{
    if (!holds) {
        printf("%s, %s: %s\n", job->name, corners.pointed ? "pointed" : "round", words);
        failed = 1;
    }
}

static size_t least(size_t a, size_t b) { return a < b ? a : b; }

static size_t shortest(const size_t lens[COLUMNS])
{
    return least(lens[XS], least(lens[YS], lens[BULGES]));
}

static bool ragged(const struct columns *job)
{
    return job->lens[XS] != job->lens[YS] || job->lens[XS] != job->lens[BULGES];
}

/* The same drawing in columns; what stands past it is no number. */
static struct columns split(const struct job *job)
{
    size_t count = job->len / COLUMNS;
    struct columns split = {.name = job->name,
                            .closed = job->closed,
                            .offset = job->offset,
                            .eps = job->eps};
    for (size_t c = 0; c < COLUMNS; c++) {
        for (size_t i = 0; i < MOST + 2; i++)
            source[c][i] = NOT_A_NUMBER;
        for (size_t i = 0; i < count; i++)
            source[c][i].value = job->source[COLUMNS * i + c];
        split.numbers[c] = &source[c]->value;
        split.lens[c] = count;
    }
    return split;
}

/* Keeps the source, and sets it out in rows; of ragged columns a number is left over. */
static struct job keep(const struct columns *job)
{
    size_t count = shortest(job->lens);
    struct job kept_rows = {job->name,   &rows->value, COLUMNS * count + ragged(job), job->closed,
                            job->offset, job->eps};
    for (size_t c = 0; c < COLUMNS; c++) {
        for (size_t i = 0; i < job->lens[c]; i++)
            kept[c][i].value = job->numbers[c][i];
        for (size_t i = 0; i < count; i++)
            rows[COLUMNS * i + c] = kept[c][i];
    }
    return kept_rows;
}

static bool source_stays(const struct columns *job)
{
    bool same = true;
    for (size_t c = 0; c < COLUMNS; c++)
        for (size_t i = 0; i < job->lens[c]; i++)
            same = same && same_bits(job->numbers[c][i], kept[c][i].value);
    return same;
}

static void fill_lists(struct lists *lists, uint64_t pattern)
{
    for (size_t i = 0; i < ALL; i++) {
        lists->flags[i] = (uint8_t)pattern_at(pattern, 2 * i);
        lists->indexes[i] = (uint32_t)pattern_at(pattern, 3 * i);
        lists->origins[i] = (uint32_t)pattern_at(pattern, 5 * i);
    }
}

/* Both layouts by one pattern, so that places that stay agree too. */
static void fill(uint64_t pattern)
{
    for (size_t i = 0; i < ALL; i++)
        for (size_t c = 0; c < COLUMNS; c++)
            columns[c][i].bits = vertices[COLUMNS * i + c].bits =
                pattern_at(pattern, COLUMNS * i + c);
    fill_lists(&in_columns, pattern);
    fill_lists(&in_rows, pattern);
}

static bool agree(void)
{
    bool same = true;
    for (size_t i = 0; i < ALL; i++) {
        for (size_t c = 0; c < COLUMNS; c++)
            same &= columns[c][i].bits == vertices[COLUMNS * i + c].bits;
        same &= in_columns.flags[i] == in_rows.flags[i];
        same &= in_columns.indexes[i] == in_rows.indexes[i];
        same &= in_columns.origins[i] == in_rows.origins[i];
    }
    return same;
}

/* Whether these places hold the pattern. */
static bool hold(uint64_t pattern, size_t start, size_t end)
{
    bool same = true;
    for (size_t c = 0; c < COLUMNS; c++)
        for (size_t i = start; i < end; i++)
            same &= columns[c][i].bits == pattern_at(pattern, COLUMNS * i + c);
    for (size_t i = start; i < end; i++) {
        same &= in_columns.flags[i] == (uint8_t)pattern_at(pattern, 2 * i);
        same &= in_columns.indexes[i] == (uint32_t)pattern_at(pattern, 3 * i);
        same &= in_columns.origins[i] == (uint32_t)pattern_at(pattern, 5 * i);
    }
    return same;
}

/* Whether the guards and the places from `set` on hold the pattern. */
static bool stays(uint64_t pattern, size_t set)
{
    return hold(pattern, 0, GUARD) && hold(pattern, GUARD + set, ALL);
}

/* Whether the first `set` places are zero where the answer says that nothing is drawn. */
static bool zero_past(size_t set, const uint32_t answer[ANSWER])
{
    size_t count = answer[BLIDROSK_VERTICES];
    size_t segments = count - (count > 0 && answer[BLIDROSK_CLOSED] == 0);
    bool zero = count <= set;
    for (size_t i = 0; i < set; i++) {
        for (size_t c = 0; c < COLUMNS; c++)
            zero = zero && (i < count || columns[c][GUARD + i].bits == 0);
        zero = zero && (i < segments || in_columns.flags[GUARD + i] == 0) &&
               (i < segments || in_columns.origins[GUARD + i] == 0) &&
               (i < answer[BLIDROSK_INDEXES] || in_columns.indexes[GUARD + i] == 0);
    }
    return zero;
}

/* Whether the indexes are those of the flags that are set. */
static bool indexed(size_t set, const uint32_t answer[ANSWER])
{
    bool same = true;
    size_t red = 0;
    for (size_t i = 0; i < set; i++) {
        same = same && in_columns.flags[GUARD + i] <= 1;
        if (in_columns.flags[GUARD + i] == 1)
            same = same && in_columns.indexes[GUARD + red++] == i;
    }
    return same && red == answer[BLIDROSK_INDEXES];
}

/* Whether rows, lent as much, answer the same and write the same. */
static void test_rows(const struct columns *job, const struct job *row_job,
                      const struct column_buffers *lent, const uint32_t answer[ANSWER])
{
    const struct buffers row_lent = {
        &vertices[COLUMNS * GUARD].value, COLUMNS * shortest(lent->lens),
        in_rows.flags + GUARD,            lent->lens[FLAGS],
        in_rows.indexes + GUARD,          lent->lens[INDEXES],
        in_rows.origins + GUARD,          lent->lens[ORIGINS],
    };
    uint32_t row_answer[ANSWER] = {77, 77, 77, 77, 77};
    offset_job(row_job, &row_lent, row_answer);
    bool same = true;
    for (size_t i = 0; i < ANSWER; i++)
        same = same && answer[i] == row_answer[i];
    test(same, "rows answer otherwise", job);
    test(agree(), "rows have another number in a place", job);
}

static bool sets_room(uint32_t number)
{
    return number == BLIDROSK_DONE || number == BLIDROSK_NOT_FINITE;
}

static void test_over(uint64_t pattern, const struct columns *job,
                      const struct column_buffers *lent, uint32_t number, uint32_t place)
{
    uint32_t guarded[1 + ANSWER + 1], *answer = guarded + 1;
    for (size_t i = 0; i < 1 + ANSWER + 1; i++)
        guarded[i] = (uint32_t)pattern;
    fill(pattern);
    const struct job row_job = keep(job);
    uint32_t returned = offset_columns(job, lent, answer);
    calls++;
    test(returned == number && answer[BLIDROSK_NUMBER] == number, "another number was wanted", job);
    test(answer[BLIDROSK_PLACE] == place, "another place was wanted", job);
    bool none = answer[BLIDROSK_VERTICES] == 0 && answer[BLIDROSK_INDEXES] == 0 &&
                answer[BLIDROSK_CLOSED] == 0;
    test(none || number == BLIDROSK_DONE, "a refusal has counts", job);
    size_t set = sets_room(number) ? room_for(segments_of(&row_job)) : 0;
    test(stays(pattern, set), "a place changed that has to stay", job);
    test(zero_past(set, answer), "a place is not zero where nothing is drawn", job);
    test(indexed(set, answer), "the indexes are not those of the flags", job);
    test(source_stays(job), "the source changed", job);
    test(guarded[0] == (uint32_t)pattern && guarded[1 + ANSWER] == (uint32_t)pattern,
         "a place beside the answer changed", job);
    test_rows(job, &row_job, lent, answer);
}

/* That a place was written takes both patterns to tell; that it stays, either. */
static void test_job(const struct columns *job, const struct column_buffers *lent, uint32_t number,
                     uint32_t place)
{
    test_over(PATTERNS[calls % 2], job, lent, number, place);
    if (sets_room(number))
        test_over(PATTERNS[calls % 2], job, lent, number, place);
}

/* As many places in each buffer, and some more. */
static struct column_buffers lent_more(size_t places, const size_t more[BUFFERS])
{
    struct column_buffers lent = {
        .flags = in_columns.flags + GUARD,
        .indexes = in_columns.indexes + GUARD,
        .origins = in_columns.origins + GUARD,
    };
    for (size_t c = 0; c < COLUMNS; c++)
        lent.numbers[c] = &columns[c][GUARD].value;
    for (size_t b = 0; b < BUFFERS; b++)
        lent.lens[b] = places + more[b];
    return lent;
}

static const size_t NO_MORE[BUFFERS], SOME_MORE[BUFFERS] = {2, 5, 3, 1, 6, 4};

/* Exactly the room, and longer by different amounts; one buffer alone longer than all others. */
static const size_t LONGER[][BUFFERS] = {
    {0, 0, 0, 0, 0, 0}, {9, 0, 0, 0, 0, 0}, {0, 9, 0, 0, 0, 0}, {0, 0, 9, 0, 0, 0},
    {0, 0, 0, 9, 0, 0}, {0, 0, 0, 0, 9, 0}, {0, 0, 0, 0, 0, 9}, {2, 5, 3, 1, 6, 4},
    {3, 1, 2, 5, 4, 7}, {8, 9, 7, 0, 2, 1}, {7, 7, 7, 7, 7, 7}, {0, 1, 1, 24, 24, 24},
};

static size_t room_of(const struct columns *job)
{
    const struct job counted = {.len = COLUMNS * shortest(job->lens), .closed = job->closed};
    return room_for(segments_of(&counted));
}

/* Takes what the job is answered by, whatever is lent past its room. */
static void test_lent(const struct columns *job, uint32_t number, uint32_t place)
{
    for (size_t i = 0; i < sizeof LONGER / sizeof *LONGER; i++) {
        struct column_buffers lent = lent_more(room_of(job), LONGER[i]);
        test_job(job, &lent, number, place);
    }
}

/* A refusal that comes before the room: with places to spare, with none, and with one too few. */
static void test_refused(const struct columns *job, uint32_t number, uint32_t place)
{
    struct column_buffers lent = lent_more(least(room_of(job), 3 * MOST), SOME_MORE);
    test_job(job, &lent, number, place);
    lent = lent_more(0, NO_MORE);
    test_job(job, &lent, number, place);
    lent.lens[FLAGS] = 1;
    test_job(job, &lent, number, place);
}

/* Runs a test in both modes. */
static void in_both(void (*run)(void))
{
    const struct corners modes[] = {{false, 0}, {true, 2}};
    for (size_t i = 0; i < 2; i++) {
        corners = modes[i];
        run();
    }
}

/* In the pointed mode with a ratio that is refused too. */
static void test_refused_first(const struct columns *job, uint32_t number, uint32_t place)
{
    const double ratio = corners.ratio;
    test_refused(job, number, place);
    corners.ratio = 0;
    test_refused(job, number, place);
    corners.ratio = ratio;
}

/* A vertex that is known, and the segment that leaves it. */
struct known_vertex {
    double x, y, bulge;
    uint32_t origin;
    uint8_t flag;
};

struct known {
    struct job job;
    struct corners corners;
    bool closed;
    uint32_t count;
    struct known_vertex vertices[KNOWN];
};

static bool is_known(const struct known *known)
{
    bool same = true;
    for (size_t i = 0; i < known->count; i++) {
        const struct known_vertex *wanted = known->vertices + i;
        same = same && same_bits(columns[XS][GUARD + i].value, wanted->x) &&
               same_bits(columns[YS][GUARD + i].value, wanted->y) &&
               same_bits(columns[BULGES][GUARD + i].value, wanted->bulge) &&
               in_columns.origins[GUARD + i] == wanted->origin &&
               in_columns.flags[GUARD + i] == wanted->flag;
    }
    return same;
}

static void test_known(void)
{
    static const double turn[] = {0, 0, 0, 4, 0, 0, 4, 1, 0};
    static const double arc[] = {10, 4.75e-6, 4210526.3, 10, -4.75e-6, 0};
    const double x = 10.999999999999886, y = 5.225000001781224e-6, b = 0x1.a827999fcef33p-2;
    const struct corners round = {false, 0}, pointed = {true, 2};
    const struct known all[] = {
        {{"a gap", turn, 9, false, 2, 1e-5}, round, false, 4,
         {{0, 2, 0, 0, 0}, {4, 2, 0, 1, 1}, {2, 0, 0, 2, 0}, {2, 1, 0, 0, 0}}},
        {{"a square", SQUARE, 12, true, -1, 1e-5}, round, true, 8,
         {{0, -1, 0, 0, 0}, {4, -1, b, 1, 0}, {5, 0, 0, 2, 0}, {5, 4, b, 3, 0}, {4, 5, 0, 4, 0},
          {0, 5, b, 5, 0}, {-1, 4, 0, 6, 0}, {-1, 0, b, 7, 0}}},
        {{"a square with points", SQUARE, 12, true, -1, 1e-5}, pointed, true, 12,
         {{0, -1, 0, 0, 0}, {4, -1, 0, 1, 0}, {5, -1, 0, 1, 0}, {5, 0, 0, 2, 0}, {5, 4, 0, 3, 0},
          {5, 5, 0, 3, 0}, {4, 5, 0, 4, 0}, {0, 5, 0, 5, 0}, {-1, 5, 0, 5, 0}, {-1, 4, 0, 6, 0},
          {-1, 0, 0, 7, 0}, {-1, -1, 0, 7, 0}}},
        {{"an open square with points", SQUARE, 12, false, -1, 1e-5}, pointed, false, 8,
         {{0, -1, 0, 0, 0}, {4, -1, 0, 1, 0}, {5, -1, 0, 1, 0}, {5, 0, 0, 2, 0}, {5, 4, 0, 3, 0},
          {5, 5, 0, 3, 0}, {4, 5, 0, 4, 0}, {0, 5, 0, 0, 0}}},
        {{"a square turned over", SQUARE, 12, true, 3, 1e-5}, round, true, 4,
         {{3, 3, 0, 0, 1}, {1, 3, 0, 2, 1}, {1, 1, 0, 4, 1}, {3, 1, 0, 6, 1}}},
        {{"a nearly full circle", arc, 6, false, -1, 1e-5}, round, false, 2,
         {{x, y, 4210526.299922738, 0, 0}, {x, -y, 0, 0, 0}}},
        {{"a copy", STEPS, 12, true, 0, 1e-5}, round, true, 4,
         {{0, 0, 0, 0, 0}, {4, 0, 0.5, 2, 0}, {5, 3, 0, 4, 0}, {9, -2, -0.25, 6, 0}}},
        {{"an open copy of zeros", ZEROS, 9, false, -0.0, 1e-5}, pointed, false, 3,
         {{-0.0, 0, -0.0, 0, 0}, {4, -0.0, 0, 2, 0}, {-0.0, -3, -0.0, 0, 0}}},
        {{"one vertex", SQUARE, 3, true, 1, 1e-5}, round, false, 0, {{0, 0, 0, 0, 0}}},
        {{"no vertex", SQUARE, 0, true, 1, 1e-5}, pointed, false, 0, {{0, 0, 0, 0, 0}}},
    };
    for (size_t i = 0; i < sizeof all / sizeof *all; i++) {
        const struct known *known = all + i;
        const struct columns job = split(&known->job);
        corners = known->corners;
        for (size_t k = 0; k < sizeof LONGER / sizeof *LONGER; k++) {
            struct column_buffers lent = lent_more(room_of(&job), LONGER[k]);
            uint32_t answer[ANSWER];
            test_job(&job, &lent, BLIDROSK_DONE, 0);
            offset_columns(&job, &lent, answer);
            test(answer[BLIDROSK_VERTICES] == known->count &&
                     answer[BLIDROSK_CLOSED] == known->closed,
                 "another count was wanted", &job);
            test(is_known(known), "another drawing was wanted", &job);
        }
    }
}

/* Jobs that are done, the empty ones among them. */
static void test_done(void)
{
    static const double back[] = {0, 0, 0, 4, 0, 0}, lone_arc[] = {0, 0, 1, 4, 0, 0};
    static const double tiny_arc[] = {0, 0, 1, 1e-200, 0, 0};
    static const double needle[] = {0, 0, 0, 4, 0, 0, 0, -0.5, 0};
    static const double collapsed[] = {0, 0, 0, 4, 0, -1, 4.5, -0.5, 0, 4.5, -6, 0};
    const struct job jobs[] = {
        {"a square inwards", SQUARE, 12, true, 1, 1e-5},
        {"a square outwards", SQUARE, 12, true, -1, 1e-5},
        {"an open square", SQUARE, 12, false, -1, 1e-5},
        {"a square that vanishes", SQUARE, 12, true, 2, 1e-5},
        {"steps", STEPS, 12, false, 0.5, 1e-5},
        {"steps to the right", STEPS, 12, false, -1.5, 1e-5},
        {"closed steps", STEPS, 12, true, 0.75, 1e-5},
        {"closed steps to the right", STEPS, 12, true, -0.75, 1e-5},
        {"a slot", SLOT, 12, true, -1, 1e-5},
        {"a slot inwards", SLOT, 12, true, 0.5, 1e-9},
        {"a collapsed arc", collapsed, 12, false, -3, 0.01},
        {"a needle", needle, 9, false, 0.125, 1e-5},
        {"a line", back, 6, false, 1, 1e-5},
        {"there and back", back, 6, true, 1, 1e-5},
        {"a circle", CIRCLE, 6, false, -1, 1e-7},
        {"a circle left out", CIRCLE, 6, false, -1, 1e-5},
        {"a lone arc that collapses", lone_arc, 6, false, 3, 1e-5},
        {"a tiny arc that collapses", tiny_arc, 6, false, 1, 1e-5},
        {"a copy", STEPS, 12, false, 0, 1e-5},
        {"a closed copy", STEPS, 12, true, -0.0, 1e-5},
        {"a copy of zeros", ZEROS, 9, true, 0, 1e-5},
        {"zeros of both signs", ZEROS, 9, true, 1, 1e-5},
        {"two vertices, copied", ZEROS, 6, true, 0, 1e-5},
        {"one vertex", ZEROS, 3, false, 1, 1e-5},
        {"one vertex, closed", ZEROS, 3, true, 0, 1e-5},
        {"no vertex", ZEROS, 0, false, 1, 1e-5},
        {"no vertex, closed", ZEROS, 0, true, -0.0, 1e-5},
    };
    for (size_t i = 0; i < sizeof jobs / sizeof *jobs; i++) {
        const struct columns job = split(jobs + i);
        test_lent(&job, BLIDROSK_DONE, 0);
    }
}

static void test_many(void)
{
    const struct job jobs[] = {
        {"a spiral", spiral, COLUMNS * MOST, false, -0.25, 1e-5},
        {"a closed spiral", spiral, COLUMNS * MOST, true, 0.25, 1e-5},
        {"a copied spiral", spiral, COLUMNS * MOST, true, 0, 1e-5},
        {"a spiral one shorter", spiral, COLUMNS * (MOST - 1), true, -0.25, 1e-5},
    };
    for (size_t i = 0; i < sizeof jobs / sizeof *jobs; i++) {
        const struct columns job = split(jobs + i);
        test_lent(&job, BLIDROSK_DONE, 0);
    }
    struct columns job = split(&(struct job){"too many vertices", spiral, COLUMNS * (MOST + 1),
                                             false, 1, 1e-5});
    test_refused_first(&job, BLIDROSK_TOO_MANY, 0);
    job.offset = 0;
    job.eps = NOT_A_NUMBER.value;
    source[YS][0] = NOT_A_NUMBER;
    test_refused_first(&job, BLIDROSK_TOO_MANY, 0);
}

/* Lengths that differ, over good numbers and over bad ones. */
static void test_ragged(void)
{
    const size_t counts[] = {0, 1, 2, 3, MOST};
    /* all three, some with a sum that three divides */
    const size_t others[][COLUMNS] = {{1, 2, 3}, {3, 2, 1}, {2, 4, 3}, {6, 0, 0}, {0, 6, 0},
                                      {0, 0, 3}, {3, 3, 0}, {0, 2, 4}, {4, 5, 3}, {5, 3, 4}};
    struct columns job =
        split(&(struct job){"ragged", spiral, COLUMNS * (MOST + 1), false, 1, 1e-5});
    for (size_t bad = 0; bad < 2; bad++) {
        for (size_t i = 0; i < sizeof others / sizeof *others; i++) {
            for (size_t c = 0; c < COLUMNS; c++)
                job.lens[c] = others[i][c];
            test_refused_first(&job, BLIDROSK_RAGGED, 0);
        }
        for (size_t i = 0; i < sizeof counts / sizeof *counts; i++)
            for (size_t c = 0; c < COLUMNS; c++)
                for (size_t one = 0; one < 2; one++) {
                    /* column c alone is one longer, or one shorter */
                    for (size_t k = 0; k < COLUMNS; k++)
                        job.lens[k] = counts[i] + (one == (k == c));
                    test_refused_first(&job, BLIDROSK_RAGGED, 0);
                    job.closed = !job.closed;
                }
        for (size_t c = 0; c < COLUMNS; c++)
            source[c][c] = NOT_A_NUMBER;
        job.offset = INFINITE.value;
        job.eps = -1;
    }
}

/* What is bad in every column. */
static const uint64_t BAD[] = {
    0x7ff8000000000000, 0xfff8000000000001, 0x7ff0000000000001, /* NaNs, one that signals */
    0x7ff0000000000000, 0xfff0000000000000,                     /* both infinities */
};
enum { BADS = sizeof BAD / sizeof *BAD };

static double limit_of(size_t column) { return column == BULGES ? 1e9 : 1e6; }

/* Bad number i of a column: those above, then the next past each bound. */
static union number bad_number(size_t column, size_t i)
{
    double limit = limit_of(column);
    if (i < BADS)
        return (union number){BAD[i]};
    return (union number){.value = farther(i == BADS ? limit : -limit)};
}

static void test_bad_vertices(void)
{
    const size_t counts[] = {1, 2, 4, MOST};
    const double offsets[] = {1, 0};
    for (size_t v = 0; v < sizeof counts / sizeof *counts; v++)
        for (size_t closed = 0; closed < 2; closed++) {
            struct columns job = split(&(struct job){
                "a bad vertex", spiral, COLUMNS * counts[v], closed == 1, offsets[closed], 1e-5});
            size_t step = counts[v] == MOST ? MOST - 1 : 1;
            for (size_t k = 0; k < counts[v]; k += step)
                for (size_t c = 0; c < COLUMNS; c++) {
                    const union number good = source[c][k];
                    for (size_t i = 0; i < BADS + 2; i++) {
                        source[c][k] = bad_number(c, i);
                        test_refused(&job, BLIDROSK_BAD_NUMBER, (uint32_t)k);
                    }
                    source[c][k] = good;
                }
        }
}

/* Two bad vertices, in any two columns: the first is named, before offset, tolerance and ratio. */
static void test_first_bad_vertex(void)
{
    const struct job four = {"two bad vertices", STEPS, 12, true, 1, 1e-5};
    for (size_t i = 0; i < COLUMNS * COLUMNS; i++)
        for (uint32_t first = 0; first < 3; first++)
            for (uint32_t second = first + 1; second < 4; second++) {
                struct columns job = split(&four);
                source[i % COLUMNS][first] = bad_number(i % COLUMNS, (first + second) % BADS);
                source[i / COLUMNS][second] = bad_number(i / COLUMNS, second);
                test_refused(&job, BLIDROSK_BAD_NUMBER, first);
                job.offset = INFINITE.value;
                job.eps = 0;
                test_refused_first(&job, BLIDROSK_BAD_NUMBER, first);
            }
}

/* Offset, tolerance and ratio, for every count of vertices: each before those after it. */
static void test_bad_settings(void)
{
    const double inf = INFINITE.value, nan = NOT_A_NUMBER.value;
    const double offsets[] = {nan, inf, -inf, farther(1e6), farther(-1e6)};
    const double tolerances[] = {nan, inf, -inf, nearer(1e-9), farther(0.01), 0, -0.0, -1e-5};
    const double ratios[] = {nan, inf, -inf, nearer(1), farther(10), 0, -0.0, -2};
    const uint32_t counts[] = {0, 1, 2, 4, MOST};
    for (size_t v = 0; v < sizeof counts / sizeof *counts; v++) {
        uint32_t count = counts[v];
        struct columns job = split(
            &(struct job){"a bad setting", spiral, COLUMNS * count, count % 2 == 0, 1, 1e-5});
        for (size_t i = 0; i < sizeof offsets / sizeof *offsets; i++) {
            job.offset = offsets[i];
            job.eps = 1e-5;
            test_refused_first(&job, BLIDROSK_BAD_NUMBER, count);
            job.eps = nan;
            test_refused_first(&job, BLIDROSK_BAD_NUMBER, count);
        }
        for (size_t i = 0; i < sizeof tolerances / sizeof *tolerances; i++) {
            job.offset = i % 2 == 0 ? 1 : 0;
            job.eps = tolerances[i];
            test_refused_first(&job, BLIDROSK_BAD_NUMBER, count + 1);
        }
        job.eps = 1e-5;
        for (size_t i = 0; corners.pointed && i < sizeof ratios / sizeof *ratios; i++) {
            job.offset = i % 2 == 0 ? 1 : 0;
            corners.ratio = ratios[i];
            test_refused(&job, BLIDROSK_BAD_NUMBER, count + 2);
        }
        corners.ratio = 2;
    }
}

/* Each bound itself is taken. */
static void test_limits(void)
{
    const struct job four = {"a limit", STEPS, 12, true, 0, 1e-5};
    struct column_buffers lent;
    for (size_t c = 0; c < COLUMNS; c++)
        for (size_t k = 0; k < 8; k++) {
            const struct columns job = split(&four);
            source[c][k / 2].value = k % 2 == 0 ? limit_of(c) : -limit_of(c);
            lent = lent_more(room_of(&job), SOME_MORE);
            test_job(&job, &lent, BLIDROSK_DONE, 0);
        }
    const double settings[][3] = {{1e6, 1e-5, 2}, {-1e6, 1e-5, 2}, {1, 1e-9, 2},
                                  {1, 0.01, 2},   {-1, 1e-5, 1},   {-1, 1e-5, 10}};
    struct columns job = split(&four);
    for (size_t i = 0; i < sizeof settings / sizeof *settings; i++) {
        job.offset = settings[i][0];
        job.eps = settings[i][1];
        corners.ratio = settings[i][2];
        lent = lent_more(room_of(&job), SOME_MORE);
        test_job(&job, &lent, BLIDROSK_DONE, 0);
    }
}

/* One buffer too short by one, by what round corners do without, and by all. */
static void test_short(const struct columns *job, const size_t more[BUFFERS])
{
    const size_t room = room_of(job), less[] = {1, room / 3, room};
    for (size_t b = 0; b < BUFFERS; b++)
        for (size_t i = 0; i < 3; i++) {
            struct column_buffers lent = lent_more(room, more);
            struct columns bad = *job;
            lent.lens[b] = room - (less[i] > 0 ? less[i] : 1);
            test_job(job, &lent, BLIDROSK_NO_ROOM, 0);
            /* the numbers come before it */
            bad.eps = 1;
            test_job(&bad, &lent, BLIDROSK_BAD_NUMBER, (uint32_t)job->lens[XS] + 1);
        }
}

static void test_room(void)
{
    /* the others exactly as long, a little longer, and longer by as much as it is too short */
    const size_t more[][BUFFERS] = {{0, 0, 0, 0, 0, 0}, {2, 5, 3, 1, 6, 4}, {1, 1, 1, 1, 1, 1}};
    static const double twice[] = {0, 0, 0, 4, 0, 0, 4, 0, 0};
    const struct job jobs[] = {
        {"room of open steps", STEPS, 12, false, 1, 1e-5},
        {"room of a closed square", SQUARE, 12, true, -1, 1e-5},
        {"room of an open copy", STEPS, 12, false, 0, 1e-5},
        {"room of a closed copy", STEPS, 12, true, -0.0, 1e-5},
        {"room of a line", SQUARE, 6, false, 1, 1e-5},
        {"room of what is empty", CIRCLE, 6, false, -1, 1e-5},
        {"room before repeated vertices", twice, 9, false, 1, 1e-5},
        {"room of a spiral", spiral, COLUMNS * MOST, true, -0.25, 1e-5},
    };
    for (size_t i = 0; i < sizeof jobs / sizeof *jobs; i++) {
        const struct columns job = split(jobs + i);
        for (size_t k = 0; k < sizeof more / sizeof *more; k++)
            test_short(&job, more[k]);
    }
    /* fewer than two vertices need none, wherever the lists are */
    const struct column_buffers nowhere = {.lens = {0}};
    for (size_t count = 0; count < 2; count++) {
        struct columns job =
            split(&(struct job){"no room", SQUARE, COLUMNS * count, true, 1, 1e-5});
        for (size_t c = 0; count == 0 && c < COLUMNS; c++)
            job.numbers[c] = 0;
        test_job(&job, &nowhere, BLIDROSK_DONE, 0);
    }
}

static void test_repeated(void)
{
    static const double pair[] = {4, 1, 0.5, 4, 1, 0, 0, 0, 0};
    static const double late[] = {9, 9, 0, 0, 0, 0, 4, -0.0, 1, 4, 0, 0};
    static const double ring[] = {0, -0.0, 0, 4, 0, 0, 4, 4, 0, -0.0, 0, 0};
    static const double thrice[] = {1, 1, 0, 2, 2, 0, 2, 2, 0, 2, 2, 0};
    static const double same_x[] = {4, 1, 0, 4, 2, 0, 4, 0, 0};
    static const double same_y[] = {1, 4, 0, 2, 4, 0, 0, 4, 0};
    const struct {
        struct job job;
        uint32_t number, place;
    } all[] = {
        {{"the first two", pair, 9, false, 1, 1e-5}, BLIDROSK_REPEATED, 0},
        {{"two alone, closed", pair, 6, true, -1, 1e-5}, BLIDROSK_REPEATED, 0},
        {{"the last two", late, 12, false, 1, 1e-5}, BLIDROSK_REPEATED, 2},
        {{"last and first", ring, 12, true, 1, 1e-5}, BLIDROSK_REPEATED, 3},
        {{"last and first, not joined", ring, 12, false, 1, 1e-5}, BLIDROSK_DONE, 0},
        {{"three on one point", thrice, 12, true, 1, 1e-5}, BLIDROSK_REPEATED, 1},
        {{"three on one point, copied", thrice, 12, true, -0.0, 1e-5}, BLIDROSK_DONE, 0},
        {{"equal in x alone", same_x, 9, false, 1, 1e-5}, BLIDROSK_DONE, 0},
        {{"equal in y alone", same_y, 9, false, 1, 1e-5}, BLIDROSK_DONE, 0},
    };
    for (size_t i = 0; i < sizeof all / sizeof *all; i++) {
        const struct columns job = split(&all[i].job);
        test_lent(&job, all[i].number, all[i].place);
    }
}

/* After No. 6 the room of all six is zero, and no place past it changes. */
static void test_not_finite(void)
{
    static const double far_off[] = {5, 0, 0.6180339887498949, -3, 4, 0, 5, 4, 0};
    static const double wide[] = {-1e6, 0, 1.1e-8, 1e6, 0, 0, 1e6, -1e6, 0};
    static const double tiny[] = {0, 0, 0, 1e-200, 0, 0, 4, 0, 0};
    static const double tiny_arc[] = {0, 0, 1, 1e-200, 0, 0};
    const struct job jobs[] = {
        {"an arc met at a NaN", far_off, 9, false, 0.5000002384185791, 4.7683715820312495e-7},
        {"an arc about its own end", wide, 9, false, 0.001, 1e-9},
        {"a line without length", tiny, 6, false, 1, 1e-5},
        {"a line without length, and another", tiny, 9, false, 1, 1e-5},
        {"a closed one", tiny, 9, true, 1, 1e-5},
        {"an arc without length", tiny_arc, 6, false, -1, 1e-5},
    };
    for (size_t i = 0; i < sizeof jobs / sizeof *jobs; i++) {
        const struct columns job = split(jobs + i);
        test_lent(&job, BLIDROSK_NOT_FINITE, 0);
    }
}

/* Columns of the source that share memory, in whole and in part. */
static void test_shared(void)
{
    static const double list[] = {0, 1, 0.5, -2, 0.25, 3, 3, -0.0, 0.0, 2};
    const size_t starts[][COLUMNS] = {{0, 0, 0}, {0, 0, 4}, {0, 4, 0}, {4, 0, 0},
                                      {0, 1, 2}, {2, 1, 0}, {1, 0, 3}};
    const double offsets[] = {0, 0.125, -0.125};
    struct columns job = {.name = "columns that share memory", .eps = 1e-5};
    for (size_t i = 0; i < 6 * (sizeof starts / sizeof *starts); i++) {
        for (size_t c = 0; c < COLUMNS; c++) {
            job.numbers[c] = list + starts[i / 6][c];
            job.lens[c] = 5;
        }
        job.closed = i % 2 == 1;
        job.offset = offsets[i / 2 % 3];
        test_lent(&job, BLIDROSK_DONE, 0);
        job.lens[i % COLUMNS] = 4;
        test_refused(&job, BLIDROSK_RAGGED, 0);
    }
    for (size_t c = 0; c < COLUMNS; c++) {
        job.numbers[c] = list;
        job.lens[c] = 7;
    }
    job.offset = 1;
    job.closed = false;
    test_lent(&job, BLIDROSK_REPEATED, 5);
    source[XS][0].value = 1;
    source[XS][1].value = -1;
    source[XS][2].value = 1e8;
    for (size_t c = 0; c < COLUMNS; c++) {
        job.numbers[c] = &source[XS]->value;
        job.lens[c] = 3;
    }
    test_refused(&job, BLIDROSK_BAD_NUMBER, 2);
}

static void print_column(const char *name, const union number *column, uint32_t count)
{
    printf("%s", name);
    for (uint32_t i = 0; i < count; i++)
        printf(" %g", column[GUARD + i].value);
    printf("\n");
}

/* A slot, drawn one wider all round. */
static void print_slot(void)
{
    const struct columns job = split(&(struct job){"the slot", SLOT, 12, true, -1, 1e-5});
    struct column_buffers lent = lent_more(room_of(&job), NO_MORE);
    uint32_t answer[ANSWER];
    if (offset_columns(&job, &lent, answer) != BLIDROSK_DONE) {
        test(false, "it was refused", &job);
        return;
    }
    print_column("xs", columns[XS], answer[BLIDROSK_VERTICES]);
    print_column("ys", columns[YS], answer[BLIDROSK_VERTICES]);
    print_column("bulges", columns[BULGES], answer[BLIDROSK_VERTICES]);
}

int main(void)
{
    const struct {
        const char *name;
        void (*run)(void);
    } tests[] = {
        {"done", test_done},
        {"up to 4096 vertices and one more", test_many},
        {"ragged", test_ragged},
        {"a bad vertex", test_bad_vertices},
        {"two bad vertices", test_first_bad_vertex},
        {"bad settings", test_bad_settings},
        {"limits", test_limits},
        {"room", test_room},
        {"repeated vertices", test_repeated},
        {"not finite", test_not_finite},
        {"shared columns", test_shared},
    };
    wind(spiral, MOST + 1);
    print_slot();
    test_known();
    printf("known number by number: %u calls\n", calls);
    for (size_t i = 0; i < sizeof tests / sizeof *tests; i++) {
        calls = 0;
        in_both(tests[i].run);
        printf("%s: %u calls\n", tests[i].name, calls);
    }
    return failed;
}
