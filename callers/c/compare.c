/*
 * Compares the outputs of two jobs and prints where they differ. It tests known pairs entry by
 * entry, each refusal at its border, and random pairs against a plain loop, over buffers full of a
 * pattern: blidrosk_compare has to write its list and its answer, and to leave every other place as
 * it was, those of both outputs too.
 */
#include <stdio.h>

#include "modes.h"
#include "numbers.h"

enum { MOST = 12288, LONG = MOST + 3, GUARD = 3, SPARE = 5, ALL = GUARD + LONG + SPARE };
enum { ENTRIES = 5, TOLD = 20 /* of the tests that fail, so many are printed */ };
enum { X = BLIDROSK_FIELD_X, Y = BLIDROSK_FIELD_Y };
enum { BULGE = BLIDROSK_FIELD_BULGE, FLAG = BLIDROSK_FIELD_FLAG };

struct output {
    const double *vertices;
    size_t len;
    bool closed;
    const uint8_t *flags;
    size_t flags_len;
};

/* A call: two outputs, and the lengths of numbers and of fields. */
struct call {
    const char *name;
    struct output a, b;
    size_t numbers_len, fields_len;
};

/* What it has to answer and to list. */
struct wanted {
    uint32_t answer[ENTRIES];
    uint32_t numbers[MOST];
    uint8_t fields[MOST];
};

/* What is lent: a guard first, and places past the room. */
static uint32_t numbers[ALL];
static uint8_t fields[ALL];

/* Long outputs, what is wanted of a call, and what both outputs held before it. */
static double long_a[3 * LONG], long_b[3 * LONG];
static uint8_t flags_a[LONG], flags_b[LONG];
static struct wanted wanted;
static double kept[2][3 * LONG];
static uint8_t kept_flags[2][LONG];

static int failed;
static unsigned calls;

static void test(bool holds, const char *words, const struct call *call)
{
    if (!holds && failed++ < TOLD)
        printf("%s, %u and %u numbers, room %u and %u: %s\n", call->name, (unsigned)call->a.len,
               (unsigned)call->b.len, (unsigned)call->numbers_len, (unsigned)call->fields_len,
               words);
}

static size_t least(size_t a, size_t b) { return a < b ? a : b; }

/* The plain loop, from what 02 says. */

static bool is_nan(double number) { return number != number; }

static bool differ(double a, double b)
{
    if (is_nan(a) || is_nan(b))
        return !(is_nan(a) && is_nan(b));
    return !same_bits(a, b);
}

static size_t segments(size_t vertices, bool closed)
{
    if (vertices < 2)
        return 0;
    return closed ? vertices : vertices - 1;
}

static uint32_t refused(const struct output *output)
{
    size_t vertices = output->len / 3;
    if (3 * vertices != output->len || output->flags_len != segments(vertices, output->closed))
        return BLIDROSK_RAGGED;
    return vertices > MOST ? BLIDROSK_TOO_MANY : BLIDROSK_DONE;
}

static uint8_t flag_at(const struct output *output, size_t vertex)
{
    return vertex < output->flags_len ? output->flags[vertex] : 0;
}

static uint8_t fields_at(const struct output *a, const struct output *b, size_t vertex)
{
    const double *p = a->vertices + 3 * vertex, *q = b->vertices + 3 * vertex;
    int all = 0;
    if (differ(p[0], q[0]))
        all += X;
    if (differ(p[1], q[1]))
        all += Y;
    if (differ(p[2], q[2]))
        all += BULGE;
    if (flag_at(a, vertex) != flag_at(b, vertex))
        all += FLAG;
    return (uint8_t)all;
}

static void want(struct wanted *into, uint32_t number, uint32_t count, uint32_t unmatched,
                 bool closed)
{
    into->answer[BLIDROSK_COMPARE_NUMBER] = number;
    into->answer[BLIDROSK_COMPARE_PLACE] = 0;
    into->answer[BLIDROSK_COMPARE_COUNT] = count;
    into->answer[BLIDROSK_COMPARE_UNMATCHED] = unmatched;
    into->answer[BLIDROSK_COMPARE_CLOSED] = closed;
}

static void plain(const struct call *call, struct wanted *into)
{
    uint32_t number = refused(&call->a);
    if (number == BLIDROSK_DONE)
        number = refused(&call->b);
    want(into, number, 0, 0, false);
    if (number != BLIDROSK_DONE)
        return;
    size_t of_a = call->a.len / 3, of_b = call->b.len / 3, both = least(of_a, of_b);
    uint32_t count = 0;
    for (size_t i = 0; i < both; i++) {
        uint8_t differing = fields_at(&call->a, &call->b, i);
        if (differing != 0) {
            into->numbers[count] = (uint32_t)i;
            into->fields[count] = differing;
            count++;
        }
    }
    if (count > call->numbers_len || count > call->fields_len)
        want(into, BLIDROSK_NO_ROOM, 0, 0, false);
    else
        want(into, BLIDROSK_DONE, count, (uint32_t)(of_a + of_b - 2 * both),
             call->a.closed != call->b.closed);
}

/* A call against what is wanted, place by place. */

static void keep(const struct output *output, int side)
{
    for (size_t i = 0; i < output->len; i++)
        kept[side][i] = output->vertices[i];
    for (size_t i = 0; i < output->flags_len; i++)
        kept_flags[side][i] = output->flags[i];
}

static bool is_kept(const struct output *output, int side)
{
    bool same = true;
    for (size_t i = 0; i < output->len; i++)
        same &= same_bits(kept[side][i], output->vertices[i]);
    for (size_t i = 0; i < output->flags_len; i++)
        same &= kept_flags[side][i] == output->flags[i];
    return same;
}

static uint32_t compare(const struct call *call, uint32_t *into_numbers, uint8_t *into_fields,
                        uint32_t *answer)
{
    const struct output *a = &call->a, *b = &call->b;
    calls++;
    return blidrosk_compare(a->vertices, a->len, a->closed, a->flags, a->flags_len, b->vertices,
                            b->len, b->closed, b->flags, b->flags_len, into_numbers,
                            call->numbers_len, into_fields, call->fields_len, answer);
}

static void call_over(uint64_t pattern, const struct call *call, const struct wanted *to)
{
    size_t filled_numbers = GUARD + call->numbers_len + SPARE;
    size_t filled_fields = GUARD + call->fields_len + SPARE;
    uint32_t answer[GUARD + ENTRIES + GUARD];
    for (size_t i = 0; i < filled_numbers; i++)
        numbers[i] = (uint32_t)pattern_at(pattern, 3 * i);
    for (size_t i = 0; i < filled_fields; i++)
        fields[i] = (uint8_t)pattern_at(pattern, 5 * i);
    for (size_t i = 0; i < GUARD + ENTRIES + GUARD; i++)
        answer[i] = (uint32_t)pattern_at(pattern, i);
    uint32_t number = compare(call, numbers + GUARD, fields + GUARD, answer + GUARD);

    size_t count = to->answer[BLIDROSK_COMPARE_COUNT];
    bool listed = true, stays = true, answered = true;
    for (size_t i = 0; i < filled_numbers; i++)
        if (i >= GUARD && i < GUARD + count)
            listed &= numbers[i] == to->numbers[i - GUARD];
        else
            stays &= numbers[i] == (uint32_t)pattern_at(pattern, 3 * i);
    for (size_t i = 0; i < filled_fields; i++)
        if (i >= GUARD && i < GUARD + count)
            listed &= fields[i] == to->fields[i - GUARD];
        else
            stays &= fields[i] == (uint8_t)pattern_at(pattern, 5 * i);
    for (size_t i = 0; i < GUARD + ENTRIES + GUARD; i++)
        if (i >= GUARD && i < GUARD + ENTRIES)
            answered &= answer[i] == to->answer[i - GUARD];
        else
            stays &= answer[i] == (uint32_t)pattern_at(pattern, i);
    test(answered, "another answer was wanted", call);
    test(listed, "another list was wanted", call);
    test(stays, "a place changed that has to stay", call);
    test(number == answer[GUARD], "two numbers came back", call);
}

/* What is the same over two patterns that differ everywhere was written. */
static void hold(const struct call *call, const struct wanted *to)
{
    keep(&call->a, 0);
    keep(&call->b, 1);
    call_over(PATTERNS[0], call, to);
    call_over(PATTERNS[1], call, to);
    test(is_kept(&call->a, 0) && is_kept(&call->b, 1), "an output changed", call);
}

static void hold_to_plain(const struct call *call)
{
    plain(call, &wanted);
    hold(call, &wanted);
}

static void hold_refused(const struct call *call, uint32_t number)
{
    want(&wanted, number, 0, 0, false);
    hold(call, &wanted);
}

static void swap(struct call *call)
{
    struct output a = call->a;
    call->a = call->b;
    call->b = a;
}

/* Pairs and their lists, as they are settled, number by number. */

static struct output output_of(const double *vertices, size_t count, bool closed,
                               const uint8_t *flags)
{
    struct output output = {vertices, 3 * count, closed, flags, segments(count, closed)};
    return output;
}

struct known {
    const char *name;
    struct output a, b;
    uint32_t count, unmatched;
    bool closed;
    uint32_t numbers[4];
    uint8_t fields[4];
};

/* With just enough room, with more, and with less in one buffer or in both, both ways round. */
static void test_known(const struct known *known)
{
    size_t count = known->count;
    struct call call = {known->name, known->a, known->b, count, count};
    for (int way = 0; way < 2; way++) {
        want(&wanted, BLIDROSK_DONE, known->count, known->unmatched, known->closed);
        for (size_t i = 0; i < count; i++) {
            wanted.numbers[i] = known->numbers[i];
            wanted.fields[i] = known->fields[i];
        }
        for (size_t more = 0; more < 3; more++) {
            call.numbers_len = count + more;
            call.fields_len = count + 2 * more;
            hold(&call, &wanted);
        }
        for (size_t room = 0; room < count; room++) {
            call.numbers_len = room;
            hold_refused(&call, BLIDROSK_NO_ROOM);
            call.fields_len = room;
            hold_refused(&call, BLIDROSK_NO_ROOM);
            call.numbers_len = count + 1;
            hold_refused(&call, BLIDROSK_NO_ROOM);
            call.fields_len = count;
        }
        swap(&call);
    }
}

static const double LINE[] = {0, 0, 0, 4, 0, 0, 4, 4, 0, 0, 4, 0};
static const uint8_t CLEAR[] = {0, 0, 0, 0}, MARKS[] = {0, 1, 0, 1}, OTHERS[] = {0, 2, 0, 0x81};

static void test_settled(void)
{
    const double zeros[] = {0, 0, 0, 0, 0, 0}, negative[] = {-0.0, 0, 0, 0, -0.0, -0.0};
    const double bulged[] = {0, 0, 0, 4, 0, 0.5}, shifted[] = {1, 0, 0, 4, 2, 0};
    const double near[] = {0, 0, 0, farther(4), 0, 0, 4, nearer(4), 0, 0, 4, 0};
    const double example[] = {0, -0.0, 0, 4, 0, 0, 4, 4, 0};
    const uint8_t set[] = {1, 1, 1, 1};
    const struct known pairs[] = {
        {"no vertices", output_of(0, 0, false, 0), output_of(0, 0, false, 0), 0, 0, 0, {0}, {0}},
        {"no vertices, one closed", output_of(0, 0, false, 0), output_of(0, 0, true, 0), 0, 0, 1,
         {0}, {0}},
        {"one vertex", output_of(LINE, 1, true, 0), output_of(LINE, 1, true, 0), 0, 0, 0, {0}, {0}},
        {"one vertex and none", output_of(LINE, 1, false, 0), output_of(0, 0, false, 0), 0, 1, 0,
         {0}, {0}},
        {"one vertex, one closed", output_of(LINE, 1, true, 0), output_of(shifted, 1, false, 0), 1,
         0, 1, {0}, {X}},
        {"two vertices", output_of(LINE, 2, false, MARKS), output_of(LINE, 2, false, MARKS), 0, 0,
         0, {0}, {0}},
        {"two vertices and none", output_of(LINE, 2, true, MARKS), output_of(0, 0, true, 0), 0, 2,
         0, {0}, {0}},
        {"the same memory", output_of(LINE, 4, true, MARKS), output_of(LINE, 4, true, MARKS), 0, 0,
         0, {0}, {0}},
        {"a beginning", output_of(LINE, 4, true, CLEAR), output_of(LINE, 2, true, CLEAR), 0, 2, 0,
         {0}, {0}},
        {"a vertex later in the same memory", output_of(LINE, 3, true, CLEAR),
         output_of(LINE + 3, 3, true, CLEAR + 1), 3, 0, 0, {0, 1, 2}, {X, Y, X}},
        {"zeros of two signs", output_of(zeros, 2, false, CLEAR),
         output_of(negative, 2, false, CLEAR), 2, 0, 0, {0, 1}, {X, Y + BULGE}},
        {"the last bulge of open ones", output_of(LINE, 2, false, CLEAR),
         output_of(bulged, 2, false, CLEAR), 1, 0, 0, {1}, {BULGE}},
        {"a last open vertex and no last", output_of(bulged, 2, false, CLEAR),
         output_of(LINE, 4, true, CLEAR), 1, 2, 1, {1}, {BULGE}},
        {"a number farther", output_of(LINE, 4, true, CLEAR), output_of(near, 4, true, CLEAR), 2, 0,
         0, {1, 2}, {X, Y}},
        {"flags 0 1 closed and 0 open", output_of(LINE, 2, true, MARKS),
         output_of(LINE, 2, false, MARKS), 1, 0, 1, {1}, {FLAG}},
        {"flags 0 0 closed and 0 open", output_of(LINE, 2, true, CLEAR),
         output_of(LINE, 2, false, CLEAR), 0, 0, 1, {0}, {0}},
        {"flags 1 and none", output_of(LINE, 2, true, set), output_of(LINE, 1, true, 0), 1, 1, 0,
         {0}, {FLAG}},
        {"the last open vertex beside a flag", output_of(LINE, 3, false, set),
         output_of(LINE, 4, false, set), 1, 1, 0, {2}, {FLAG}},
        {"flags 1 and 2", output_of(LINE, 4, true, MARKS), output_of(LINE, 4, true, OTHERS), 2, 0,
         0, {1, 3}, {FLAG, FLAG}},
        {"all four", output_of(zeros, 2, true, set), output_of(near + 3, 2, true, CLEAR), 2, 0, 0,
         {0, 1}, {X + FLAG, X + Y + FLAG}},
        {"the header's two", output_of(LINE, 2, true, MARKS), output_of(example, 3, false, CLEAR),
         2, 1, 1, {0, 1}, {Y, FLAG}},
    };
    for (size_t i = 0; i < sizeof pairs / sizeof *pairs; i++)
        test_known(&pairs[i]);
}

/* Each pair of numbers, in each of three places: NaNs are one, and all else goes by its bits. */
static void test_numbers(void)
{
    const union number kinds[] = {
        {0}, {0x8000000000000000},                       /* zeros */
        {1}, {0x8000000000000001}, {0x000fffffffffffff}, /* below all normal numbers */
        {0x3ff0000000000000}, {0xbff0000000000000}, {0x3ff0000000000001}, {0x3ff0000100000000},
        {0x7fefffffffffffff}, {0x7ff0000000000000}, {0xfff0000000000000}, /* up to infinities */
        {0x7ff8000000000000}, {0xfff8000000000000}, {0x7ff0000000000001}, {0xffffffffffffffff},
        {0x7ff8000000000001}, /* NaNs */
    };
    enum { KINDS = sizeof kinds / sizeof *kinds, NANS = 5 };
    for (size_t i = 0; i < KINDS; i++)
        for (size_t k = 0; k < KINDS; k++)
            for (size_t place = 0; place < 6; place++) {
                double a[] = {7, 8, 9, 10, 11, 12}, b[] = {7, 8, 9, 10, 11, 12};
                a[place] = kinds[i].value;
                b[place] = kinds[k].value;
                bool equal = i == k || (i >= KINDS - NANS && k >= KINDS - NANS);
                struct call call = {"two numbers", output_of(a, 2, false, MARKS),
                                    output_of(b, 2, false, MARKS), 2, 2};
                want(&wanted, BLIDROSK_DONE, !equal, 0, false);
                wanted.numbers[0] = (uint32_t)(place / 3);
                wanted.fields[0] = (uint8_t)(1 << place % 3);
                hold(&call, &wanted);
            }
    for (unsigned bit = 0; bit < 64; bit++) {
        union number one = {.value = 1.5}, other = {one.bits ^ (uint64_t)1 << bit};
        const double a[] = {1, 2, one.value}, b[] = {1, 2, other.value};
        struct call call = {"a bit", output_of(a, 1, true, 0), output_of(b, 1, true, 0), 1, 1};
        want(&wanted, BLIDROSK_DONE, 1, 0, false);
        wanted.numbers[0] = 0;
        wanted.fields[0] = BULGE;
        hold(&call, &wanted);
    }
    for (unsigned i = 0; i < 256; i++)
        for (unsigned k = 0; k < 256; k++) {
            const uint8_t a[] = {(uint8_t)i}, b[] = {(uint8_t)k};
            struct call call = {"two flags", output_of(LINE, 2, false, a),
                                output_of(LINE, 2, false, b), 1, 1};
            want(&wanted, BLIDROSK_DONE, i != k, 0, false);
            wanted.numbers[0] = 0;
            wanted.fields[0] = FLAG;
            hold(&call, &wanted);
        }
}

/* Refusals, at their borders, and which of two comes first. */

enum { GOOD, LEFT_OVER, FLAG_MORE, FLAG_FEWER, TOO_MANY, BOTH, BOTH_FLAGS, FORMS };

/* An output that is good, or refused for one reason or for two. */
static struct output form(int kind, const double *vertices, const uint8_t *flags, bool closed,
                          size_t count)
{
    bool many = kind == TOO_MANY || kind == BOTH || kind == BOTH_FLAGS;
    struct output output = output_of(vertices, many ? MOST + 1 : count, closed, flags);
    if (kind == LEFT_OVER || kind == BOTH)
        output.len++;
    if (kind == FLAG_MORE)
        output.flags_len++;
    if (kind == FLAG_FEWER || kind == BOTH_FLAGS)
        output.flags_len--;
    return output;
}

static uint32_t number_of(int kind)
{
    const uint32_t of_kinds[FORMS] = {BLIDROSK_DONE,   BLIDROSK_RAGGED,   BLIDROSK_RAGGED,
                                      BLIDROSK_RAGGED, BLIDROSK_TOO_MANY, BLIDROSK_RAGGED,
                                      BLIDROSK_RAGGED};
    return of_kinds[kind];
}

static void fill_long(void)
{
    for (int i = 0; i < 3 * LONG; i++) {
        long_a[i] = i;
        long_b[i] = i;
    }
    for (int i = 0; i < LONG; i++)
        flags_a[i] = flags_b[i] = (uint8_t)(i % 3 == 0);
}

static void test_order(void)
{
    for (int of_a = 0; of_a < FORMS; of_a++)
        for (int of_b = 0; of_b < FORMS; of_b++)
            for (int mark = 0; mark < 4; mark++)
                for (int room = 0; room < 2; room++) {
                    struct call call = {"two refusals",
                                        form(of_a, long_a, flags_a, mark % 2 == 1, 4),
                                        form(of_b, long_a + 3, flags_b, mark / 2 == 1, 3),
                                        (size_t)(3 * room), (size_t)(3 * room)};
                    uint32_t number = number_of(of_a);
                    if (number == BLIDROSK_DONE)
                        number = number_of(of_b);
                    if (number != BLIDROSK_DONE)
                        hold_refused(&call, number);
                    else if (room == 0)
                        hold_refused(&call, BLIDROSK_NO_ROOM);
                    else
                        hold_to_plain(&call);
                }
}

/* Every small length of both lists: only whole vertices with a flag a segment are taken. */
static void test_lengths(void)
{
    for (size_t len = 0; len <= 14; len++)
        for (size_t flags_len = 0; flags_len <= 6; flags_len++)
            for (int closed = 0; closed < 2; closed++) {
                struct call call = {"small lengths", output_of(LINE, 2, true, MARKS),
                                    output_of(LINE, 2, true, MARKS), 4, 4};
                call.b.vertices = long_a;
                call.b.len = len;
                call.b.flags = flags_a;
                call.b.flags_len = flags_len;
                call.b.closed = closed == 1;
                size_t count = len / 3;
                size_t needed = count < 2 ? 0 : closed == 1 ? count : count - 1;
                bool taken = len % 3 == 0 && flags_len == needed;
                for (int way = 0; way < 2; way++) {
                    if (taken)
                        hold_to_plain(&call);
                    else
                        hold_refused(&call, BLIDROSK_RAGGED);
                    swap(&call);
                }
            }
}

/* A list of length 0 may have any pointer: those of the outputs, and the buffers. */
static void test_null(void)
{
    uint32_t answer[ENTRIES] = {9, 9, 9, 9, 9};
    const struct call with_null[] = {
        {"null for all", output_of(0, 0, false, 0), output_of(0, 0, true, 0), 0, 0},
        {"null for flags", output_of(LINE, 1, true, 0), output_of(LINE, 1, true, 0), 0, 0},
        {"null for room", output_of(LINE, 4, true, MARKS), output_of(LINE, 4, true, MARKS), 0, 0},
        {"null for too little room", output_of(LINE, 4, true, MARKS),
         output_of(LINE, 4, true, CLEAR), 0, 0},
        {"null for a ragged one", output_of(0, 0, true, 0), {LINE, 12, true, 0, 0}, 0, 0},
    };
    const uint32_t answers[][ENTRIES] = {
        {0, 0, 0, 0, 1}, {0, 0, 0, 0, 0}, {0, 0, 0, 0, 0}, {4, 0, 0, 0, 0}, {1, 0, 0, 0, 0},
    };
    for (size_t i = 0; i < sizeof answers / sizeof *answers; i++) {
        uint32_t number = compare(&with_null[i], 0, 0, answer);
        bool same = number == answers[i][0];
        for (size_t k = 0; k < ENTRIES; k++)
            same &= answer[k] == answers[i][k];
        test(same, "another answer was wanted", &with_null[i]);
    }
}

/* Up to 12288 vertices and one more, with none, the first, the last, and all that differ. */
static void test_most(void)
{
    const size_t counts[] = {0, 1, 4095, 4096, 4097, 8192, 8193, MOST - 1, MOST, MOST + 1};
    enum { COUNTS = sizeof counts / sizeof *counts };
    for (size_t i = 0; i < COUNTS; i++)
        for (int closed = 0; closed < 2; closed++) {
            struct call call = {"up to the most", output_of(long_a, counts[i], closed, flags_a),
                                output_of(long_b, MOST, true, flags_b), MOST, MOST};
            for (int way = 0; way < 2; way++) {
                if (counts[i] > MOST)
                    hold_refused(&call, BLIDROSK_TOO_MANY);
                else
                    hold_to_plain(&call);
                swap(&call);
            }
        }
    struct call call = {"the most, in one place", output_of(long_a, MOST, true, flags_a),
                        output_of(long_b, MOST, true, flags_b), 1, 1};
    for (size_t at = 0; at < 3 * MOST; at += 193) { /* to the last, which is 191 * 193 */
        long_b[at] = -1;
        want(&wanted, BLIDROSK_DONE, 1, 0, false);
        wanted.numbers[0] = (uint32_t)(at / 3);
        wanted.fields[0] = (uint8_t)(1 << at % 3);
        hold(&call, &wanted);
        long_b[at] = long_a[at];
        flags_b[at / 3] ^= 1;
        wanted.fields[0] = FLAG;
        hold(&call, &wanted);
        flags_b[at / 3] ^= 1;
    }
    for (size_t i = 0; i < MOST; i++)
        long_b[3 * i + i % 3] = -1;
    call.name = "the most, in all places";
    call.numbers_len = call.fields_len = MOST;
    want(&wanted, BLIDROSK_DONE, MOST, 0, false);
    for (size_t i = 0; i < MOST; i++) {
        wanted.numbers[i] = (uint32_t)i;
        wanted.fields[i] = (uint8_t)(1 << i % 3);
    }
    hold(&call, &wanted);
    call.numbers_len = call.fields_len = MOST + 1;
    hold(&call, &wanted);
    call.fields_len = MOST - 1;
    hold_refused(&call, BLIDROSK_NO_ROOM);
    call.numbers_len = MOST - 1;
    hold_refused(&call, BLIDROSK_NO_ROOM);
    call.fields_len = MOST;
    hold_refused(&call, BLIDROSK_NO_ROOM);
    fill_long();
}

/* Random pairs against the plain loop. */

static uint64_t seed = 0x2026032026032027;

static uint64_t any(void)
{
    seed ^= seed >> 12;
    seed ^= seed << 25;
    seed ^= seed >> 27;
    return seed * 0x2545f4914f6cdd1d;
}

static size_t below(size_t count) { return (size_t)(any() >> 32) % count; }

static union number any_number(void)
{
    const uint64_t special[] = {0, 0x8000000000000000, 0x7ff0000000000000, 0xfff0000000000000,
                                0x7ff8000000000000, 0xfff0000000000001, 0x3ff0000000000000, 1};
    union number number = {below(3) == 0 ? any() : special[below(8)]};
    return number;
}

/* The second output is the first with some numbers and flags changed. */
static void fill_random(size_t count, size_t seldom)
{
    for (size_t i = 0; i < 3 * count; i++) {
        union number number = any_number();
        long_a[i] = number.value;
        if (below(seldom) == 0)
            number = any_number();
        else if (below(2 * seldom) == 0)
            number.bits ^= (uint64_t)1 << below(64);
        long_b[i] = number.value;
    }
    for (size_t i = 0; i < count; i++) {
        flags_a[i] = (uint8_t)(below(4) == 0 ? any() >> 56 : below(2));
        flags_b[i] = (uint8_t)(below(seldom) == 0 ? below(3) : flags_a[i]);
    }
}

static void random_call(size_t most)
{
    size_t of_a = below(most + 1), of_b = below(2) == 0 ? of_a : below(most + 1);
    bool closed = below(2) == 0;
    fill_random((of_a > of_b ? of_a : of_b) + 2, 2 + below(3) * below(60));
    struct call call = {"a random pair", output_of(long_a, of_a, closed, flags_a),
                        output_of(long_b, of_b, below(4) == 0 ? !closed : closed, flags_b), 0, 0};
    struct output *one = below(2) == 0 ? &call.a : &call.b;
    if (below(16) == 0)
        one->len += 1 + below(2);
    if (below(16) == 0)
        one->flags_len += below(2) == 0 || one->flags_len == 0 ? 1 : (size_t)-1;
    call.numbers_len = call.fields_len = MOST;
    plain(&call, &wanted);
    size_t count = wanted.answer[BLIDROSK_COMPARE_COUNT];
    call.numbers_len = count + 2 - least(count + 2, below(4));
    call.fields_len = count + 2 - least(count + 2, below(4));
    hold_to_plain(&call);
}

static void test_random(void)
{
    for (int i = 0; i < 100000; i++)
        random_call(i % 50 == 0 ? 200 : 7);
    fill_long();
}

/* Two jobs and what they draw. */

enum { ROOM = 24 };

struct drawn {
    double vertices[3 * ROOM];
    uint8_t flags[ROOM];
    uint32_t indexes[ROOM], origins[ROOM], answer[5];
};

static struct output draw(const struct job *job, struct drawn *drawn)
{
    const struct buffers lent = {drawn->vertices, 3 * ROOM, drawn->flags,   ROOM,
                                 drawn->indexes,  ROOM,     drawn->origins, ROOM};
    const struct call failing = {job->name, {0, 0, false, 0, 0}, {0, 0, false, 0, 0}, 0, 0};
    test(offset_job(job, &lent, drawn->answer) == BLIDROSK_DONE, "the job was refused", &failing);
    return output_of(drawn->vertices, drawn->answer[BLIDROSK_VERTICES],
                     drawn->answer[BLIDROSK_CLOSED] == 1, drawn->flags);
}

static void print_compared(const char *words, const struct output *a, const struct output *b)
{
    const char *names[] = {"x", "y", "bulge", "flag"};
    struct call call = {words, *a, *b, ROOM, ROOM};
    uint32_t list[ROOM] = {0}, answer[ENTRIES] = {0};
    uint8_t differing[ROOM] = {0};
    hold_to_plain(&call);
    uint32_t number = compare(&call, list, differing, answer);
    printf("%s:", words);
    if (number != BLIDROSK_DONE)
        printf(" refused, number %u", (unsigned)number);
    for (uint32_t i = 0; i < answer[BLIDROSK_COMPARE_COUNT]; i++) {
        printf("%s vertex %u in", i == 0 ? "" : ";", (unsigned)list[i]);
        for (int k = 0; k < 4; k++)
            if (differing[i] >> k & 1)
                printf(" %s", names[k]);
    }
    if (number == BLIDROSK_DONE && answer[BLIDROSK_COMPARE_COUNT] == 0)
        printf(" no vertex differs");
    if (answer[BLIDROSK_COMPARE_UNMATCHED] != 0)
        printf("; %u in one alone", (unsigned)answer[BLIDROSK_COMPARE_UNMATCHED]);
    if (answer[BLIDROSK_COMPARE_CLOSED] != 0)
        printf("; one is closed");
    printf("\n");
}

static void print_jobs(void)
{
    const double corner[] = {0, 0, 0, 4, 0, 0, 4, 1, 0}; /* x, y, bulge */
    const double square[] = {0, 0, 0, 4, 0, 0, 4, 4, 0, 0, 4, 0};
    static struct drawn of_corner, farther_off, outside, inside, open;
    const struct job jobs[] = {
        {"a corner, moved by 2", corner, 9, false, 2, 1e-5},
        {"a corner, moved by 2.5", corner, 9, false, 2.5, 1e-5},
        {"a square, 1 outside", square, 12, true, -1, 1e-5},
        {"a square, 3 inside", square, 12, true, 3, 1e-5},
        {"a square left open", square, 12, false, 3, 1e-5},
    };
    struct output a = draw(&jobs[0], &of_corner), b = draw(&jobs[1], &farther_off);
    struct output c = draw(&jobs[2], &outside), d = draw(&jobs[3], &inside);
    struct output e = draw(&jobs[4], &open);
    print_compared("the corner moved by 2 and itself", &a, &a);
    print_compared("by 2 and by 2.5", &a, &b);
    print_compared("the square 1 outside and 3 inside", &c, &d);
    print_compared("3 inside, closed and open", &d, &e);
    of_corner.flags[1] = 0;
    b = draw(&jobs[0], &farther_off);
    print_compared("the corner with its flag cleared and as it was", &a, &b);
    of_corner.flags[1] = 1;
    of_corner.vertices[5] = -0.0;
    print_compared("with a bulge of -0 and as it was", &a, &b);
    a.len--;
    print_compared("with a number left out", &a, &b);
}

static void print_calls(const char *words)
{
    printf("%s: %u calls\n", words, calls);
    calls = 0;
}

int main(void)
{
    print_jobs();
    calls = 0;
    fill_long();
    test_settled();
    print_calls("known entry by entry");
    test_numbers();
    print_calls("two numbers, two flags");
    test_lengths();
    test_null();
    test_order();
    print_calls("refusals");
    test_most();
    print_calls("up to 12288 vertices and one more");
    test_random();
    print_calls("random pairs");
    return failed > 0;
}
