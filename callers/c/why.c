/*
 * Tells of each segment of an offset drawing what it is and why its flag is set or clear. For this
 * and other jobs, with round corners and with pointed ones, it tests that the answer goes with the
 * flag and the origin, that blidrosk_why and blidrosk_why_pointed write all of their answer, and
 * that they change nothing else.
 */
#include <stdio.h>

#include "modes.h"

enum { MOST = 3 * 4097, ROOM = 36, ENTRIES = 7, PARAMS = 2, GUARDS = 2 };

static const char *const REASONS[] = {
    [BLIDROSK_IN_ORDER] = "in order",
    [BLIDROSK_TURNED_BACK] = "turned back",
    [BLIDROSK_COLLAPSED_ARC] = "the arc shrinks to nothing",
    [BLIDROSK_ROUND] = "round an outer corner",
    [BLIDROSK_REVERSAL] = "round a reversal",
    [BLIDROSK_MEETING] = "a meeting",
    [BLIDROSK_COLLAPSED_SIDE] = "a gap, a side shrinks to nothing",
    [BLIDROSK_NO_MEETING] = "a gap, the sides never meet",
    [BLIDROSK_MISSED] = "a gap, the sides meet off a span",
    [BLIDROSK_ZERO_TANGENT] = "a gap, a side is too small to have a direction",
    [BLIDROSK_SAME_DIRECTION] = "a gap, both sides run the same way",
    [BLIDROSK_COPIED] = "copied",
    [BLIDROSK_POINTED] = "by the point of an outer corner",
};

static const char *const RULES[] = {
    [BLIDROSK_START_MATCHED] = "within the tolerance of the arc's start",
    [BLIDROSK_END_MATCHED] = "within the tolerance of the arc's end",
    [BLIDROSK_INSIDE] = "inside the arc",
    [BLIDROSK_PAST_END] = "past the arc's end, within the tolerance",
};

/* What a question is lent to write to, with guards past it. */
struct told {
    uint32_t answer[ENTRIES + GUARDS];
    union {
        uint64_t bits[PARAMS + GUARDS];
        double values[PARAMS + GUARDS];
    } params;
};

/* The source that is lent, and how it was. */
static union {
    uint64_t bits[MOST];
    double values[MOST];
} lent, kept;

static int failed;

static void test(bool holds, const char *words, const struct job *job, uint32_t segment)
{
    if (!holds) {
        printf("%s, %s, segment %u: %s\n", corners.pointed ? "pointed" : "round", job->name,
               (unsigned)segment, words);
        failed = 1;
    }
}

/* The job of the source that is lent. */
static struct job lend(const struct job *job)
{
    struct job asked = *job;
    for (size_t i = 0; i < job->len; i++) {
        lent.values[i] = job->source[i];
        kept.values[i] = job->source[i];
    }
    asked.source = lent.values;
    return asked;
}

static bool source_stays(const struct job *job)
{
    for (size_t i = 0; i < job->len; i++)
        if (lent.bits[i] != kept.bits[i])
            return false;
    return true;
}

static bool guards_stay(const struct told *told, uint64_t pattern)
{
    bool stay = true;
    for (size_t i = 0; i < GUARDS; i++)
        stay = stay && told->answer[ENTRIES + i] == (uint32_t)pattern &&
               told->params.bits[PARAMS + i] == pattern;
    return stay;
}

/* The answer, written over a pattern. */
static struct told told_over(uint64_t pattern, const struct job *job, uint32_t segment)
{
    struct told told;
    for (size_t i = 0; i < ENTRIES + GUARDS; i++)
        told.answer[i] = (uint32_t)pattern;
    for (size_t i = 0; i < PARAMS + GUARDS; i++)
        told.params.bits[i] = pattern;
    const struct job asked = lend(job);
    uint32_t number = ask_job(&asked, segment, told.answer, told.params.values);
    test(number == told.answer[BLIDROSK_WHY_NUMBER], "two numbers came back", job, segment);
    test(guards_stay(&told, pattern), "a place past the answer changed", job, segment);
    test(source_stays(job), "the source changed", job, segment);
    return told;
}

/* The answer. What is the same over two patterns that differ everywhere was written. */
static struct told ask(const struct job *job, uint32_t segment)
{
    struct told told = told_over(0xfff5555555555555, job, segment);
    struct told again = told_over(0x7ffaaaaaaaaaaaaa, job, segment);
    bool written = true;
    for (size_t i = 0; i < ENTRIES; i++)
        written = written && told.answer[i] == again.answer[i];
    for (size_t i = 0; i < PARAMS; i++)
        written = written && told.params.bits[i] == again.params.bits[i];
    test(written, "a place of the answer was not written", job, segment);
    return told;
}

static bool params_are_zero(const struct told *told)
{
    return told->params.bits[0] == 0 && told->params.bits[1] == 0;
}

static void test_refused(const struct job *job, uint32_t segment, uint32_t number, uint32_t place)
{
    struct told told = ask(job, segment);
    test(told.answer[BLIDROSK_WHY_NUMBER] == number, "another number was wanted", job, segment);
    test(told.answer[BLIDROSK_WHY_PLACE] == place, "another place was wanted", job, segment);
    bool zero = params_are_zero(&told);
    for (size_t i = BLIDROSK_WHY_CONNECTOR; i < ENTRIES; i++)
        zero = zero && told.answer[i] == 0;
    test(zero, "a refusal left more than number and place", job, segment);
}

static uint32_t last_reason(void) { return corners.pointed ? BLIDROSK_POINTED : BLIDROSK_COPIED; }

static bool sets_flag(uint32_t reason)
{
    return reason == BLIDROSK_TURNED_BACK || reason == BLIDROSK_COLLAPSED_ARC ||
           (reason >= BLIDROSK_COLLAPSED_SIDE && reason <= BLIDROSK_SAME_DIRECTION);
}

/* Whether the parameters go with the reason. */
static bool params_fit(const struct told *told)
{
    if (told->answer[BLIDROSK_WHY_REASON] == BLIDROSK_TURNED_BACK)
        return told->params.values[1] <= told->params.values[0];
    return params_are_zero(told);
}

/* Whether the rules are some, and a connector has none. */
static bool rules_fit(const struct told *told)
{
    uint32_t start = told->answer[BLIDROSK_WHY_START], end = told->answer[BLIDROSK_WHY_END];
    if (told->answer[BLIDROSK_WHY_CONNECTOR] == 1)
        return start == BLIDROSK_NO_RULE && end == BLIDROSK_NO_RULE;
    return told->answer[BLIDROSK_WHY_CONNECTOR] == 0 && start <= BLIDROSK_PAST_END &&
           end <= BLIDROSK_PAST_END;
}

/* Whether the origin told is the one that the drawing has. */
static bool origin_fits(const struct told *told, uint32_t origin)
{
    return told->answer[BLIDROSK_WHY_CONNECTOR] == blidrosk_origin_is_connector(origin) &&
           told->answer[BLIDROSK_WHY_SOURCE] == blidrosk_origin_source(origin);
}

static struct told ask_flagged(const struct job *job, uint32_t segment, uint8_t flag)
{
    struct told told = ask(job, segment);
    uint32_t reason = told.answer[BLIDROSK_WHY_REASON];
    test(told.answer[BLIDROSK_WHY_NUMBER] == BLIDROSK_DONE, "it was refused", job, segment);
    test(told.answer[BLIDROSK_WHY_PLACE] == 0, "it has a place", job, segment);
    test(reason >= BLIDROSK_IN_ORDER && reason <= last_reason(), "no such reason", job, segment);
    test(sets_flag(reason) == (flag == 1), "the reason goes with another flag", job, segment);
    test(params_fit(&told), "the parameters go with another reason", job, segment);
    test(rules_fit(&told), "no such rule, or the rule of a connector", job, segment);
    return told;
}

static void print_rule(const char *which, uint32_t rule)
{
    if (rule != BLIDROSK_NO_RULE)
        printf(", %s %s", which, RULES[rule]);
}

static void print_told(const struct told *told, uint32_t segment, uint8_t flag)
{
    const uint32_t *answer = told->answer;
    const char *piece = answer[BLIDROSK_WHY_CONNECTOR] == 1 ? "connector after" : "span of";
    printf("segment %u, flag %u: %s source segment %u, %s", (unsigned)segment, (unsigned)flag,
           piece, (unsigned)answer[BLIDROSK_WHY_SOURCE], REASONS[answer[BLIDROSK_WHY_REASON]]);
    if (answer[BLIDROSK_WHY_REASON] == BLIDROSK_TURNED_BACK)
        printf(" from %g to %g", told->params.values[0], told->params.values[1]);
    print_rule("starts", answer[BLIDROSK_WHY_START]);
    print_rule("ends", answer[BLIDROSK_WHY_END]);
    printf("\n");
}

/* Asks of each output segment, and of those past the last. Returns how many there are. */
static uint32_t ask_all(const struct job *job, bool print)
{
    double vertices[3 * ROOM] = {0};
    uint8_t flags[ROOM] = {0};
    uint32_t indexes[ROOM] = {0};
    uint32_t origins[ROOM] = {0};
    uint32_t answer[5] = {0};
    const struct buffers lent_buffers = {vertices, 3 * ROOM, flags,   ROOM,
                                         indexes,  ROOM,     origins, ROOM};
    offset_job(job, &lent_buffers, answer);
    test(answer[BLIDROSK_NUMBER] == BLIDROSK_DONE, "the job was refused", job, 0);
    uint32_t count = answer[BLIDROSK_VERTICES];
    if (count > 0 && answer[BLIDROSK_CLOSED] == 0)
        count--;
    for (uint32_t i = 0; i < count; i++) {
        struct told told = ask_flagged(job, i, flags[i]);
        test(origin_fits(&told, origins[i]), "another origin is told", job, i);
        if (print && !failed)
            print_told(&told, i, flags[i]);
    }
    test_refused(job, count, BLIDROSK_NO_SUCH_SEGMENT, 0);
    test_refused(job, (uint32_t)-1, BLIDROSK_NO_SUCH_SEGMENT, 0);
    return count;
}

/* A part with a tongue too narrow for the offset, a hollow, a saw cut, a step and a fillet. */
static const double PART[] = {
    -3.5, 0, 0, /* x, y, bulge */
    20, 0, 0,
    20, 3, 0,
    10, 3, 0,
    10, 20, -0.5,
    -5, 20, 0,
    -5, 12, 0,
    -9, 12, 0,
    -5, 12, 0,
    -5, 6, 0,
    -4.5, 6, 0,
    -4.5, 1, 0.25,
};

static void test_others(void)
{
    const double square[] = {0, 0, 0, 4, 0, 0, 4, 4, 0, 0, 4, 0};
    const double zero_tangent[] = {0, 0, 1, 1.5e-5, 0, 0, 4, 0, 0};
    const double same_direction[] = {1, 0, 0, 2, 1, 0, 2.999999985098839, 2, 0};
    const double no_meeting[] = {0, 0, 0, 1, 0, 0.5, 0, 0, 0};
    const double past_end[] = {0, 0.25, 2, -3.0994415283203125e-6, 0.25, 0, 0, 0, 0.5};
    const double twice[] = {0, 0, 0, -0.0, 0, 0, 4, 0, 1};
    const struct job jobs[] = {
        {"a square turned over", square, 12, true, 3, 1e-5},
        {"a square used up", square, 12, true, 2, 1e-5},
        {"one vertex", square, 3, true, 1, 1e-5},
        {"no vertex", square, 0, false, 1, 1e-5},
        {"a zero tangent", zero_tangent, 9, false, 1, 1e-5},
        {"one direction", same_direction, 9, false, 0.5, 1e-9},
        {"no meeting", no_meeting, 9, false, 0.5, 1e-5},
        {"past an arc's end", past_end, 9, true, -0.5, 1e-5},
        {"an open copy", twice, 9, false, 0, 1e-5},
        {"a closed copy", twice, 9, true, -0.0, 1e-5},
    };
    for (size_t i = 0; i < sizeof jobs / sizeof *jobs; i++)
        ask_all(jobs + i, false);
}

static void test_refusals(void)
{
    static const double none[MOST];
    const double corner[] = {0, 0, 0, 4, 0, 2e9, 4, 1, 0};
    const double short_line[] = {0, 0, 0, 1e-200, 0, 0};
    const struct {
        struct job job;
        uint32_t number, place;
    } refused[] = {
        {{"numbers left over", corner, 8, false, 1, 1e-5}, BLIDROSK_RAGGED, 0},
        {{"too many vertices", none, MOST, false, 1, 1e-5}, BLIDROSK_TOO_MANY, 0},
        {{"a bad vertex", corner, 9, false, 1, 1e-5}, BLIDROSK_BAD_NUMBER, 1},
        {{"a bad offset", none, 9, false, 2e6, 1e-5}, BLIDROSK_BAD_NUMBER, 3},
        {{"a bad tolerance", none, 9, false, 1, 1}, BLIDROSK_BAD_NUMBER, 4},
        {{"a repeated vertex", none, 9, false, 1, 1e-5}, BLIDROSK_REPEATED, 0},
        {{"a drawing that is not finite", short_line, 6, false, 1, 1e-5}, BLIDROSK_NOT_FINITE, 0},
    };
    for (size_t i = 0; i < sizeof refused / sizeof *refused; i++) {
        test_refused(&refused[i].job, 0, refused[i].number, refused[i].place);
        test_refused(&refused[i].job, (uint32_t)-1, refused[i].number, refused[i].place);
    }
}

static void tell_all(void)
{
    const struct job part = {"the part", PART, sizeof PART / sizeof *PART, true, 2, 1e-5};
    uint32_t count = ask_all(&part, true);
    struct told past = ask(&part, count);
    test_others();
    test_refusals();
    printf("segment %u: refused, number %u, no such segment\n", (unsigned)count,
           (unsigned)past.answer[BLIDROSK_WHY_NUMBER]);
}

int main(void)
{
    tell_all();
    printf("with pointed corners:\n");
    corners.pointed = true;
    corners.ratio = 2;
    tell_all();
    return failed;
}
