/*
 * Says of each red segment of an offset drawing which source segment it comes from, and of each
 * source segment which part of the output belongs to it. For this and other jobs it tests that the
 * part is what a plain search finds, that no other segment belongs to it, that blidrosk_part writes
 * all of its answer, and that it changes nothing else.
 */
#include <stdio.h>

#include "modes.h"

enum { ROOM = 24, ENTRIES = 4, GUARDS = 2 };

/* What a job has drawn, but for its vertices. */
struct output {
    uint32_t n, segments, red;
    uint8_t flags[ROOM];
    uint32_t indexes[ROOM], origins[ROOM];
};

/* What blidrosk_part is lent. */
struct lists {
    const char *name;
    uint32_t n;
    const uint8_t *flags;
    size_t flags_len;
    const uint32_t *origins;
    size_t origins_len;
};

/* Where it writes to, with guards past it. */
struct part {
    uint32_t answer[ENTRIES + GUARDS];
};

static int failed;

static void test(bool holds, const char *words, const char *name, uint32_t source_segment)
{
    if (!holds) {
        printf("%s, source segment %u: %s\n", name, (unsigned)source_segment, words);
        failed = 1;
    }
}

/* The part, written over a pattern, and over the lists as they are lent. */
static struct part part_over(uint32_t pattern, const struct lists *lists, uint32_t source_segment)
{
    struct part part;
    uint8_t flags[ROOM];
    uint32_t origins[ROOM];
    for (size_t i = 0; i < ENTRIES + GUARDS; i++)
        part.answer[i] = pattern;
    for (size_t i = 0; i < lists->flags_len; i++)
        flags[i] = lists->flags[i];
    for (size_t i = 0; i < lists->origins_len; i++)
        origins[i] = lists->origins[i];
    uint32_t number = blidrosk_part(lists->n, lists->flags, lists->flags_len, lists->origins,
                                    lists->origins_len, source_segment, part.answer);
    bool stays = true;
    for (size_t i = 0; i < GUARDS; i++)
        stays = stays && part.answer[ENTRIES + i] == pattern;
    for (size_t i = 0; i < lists->flags_len; i++)
        stays = stays && flags[i] == lists->flags[i];
    for (size_t i = 0; i < lists->origins_len; i++)
        stays = stays && origins[i] == lists->origins[i];
    test(stays, "a place changed that has to stay", lists->name, source_segment);
    test(number == part.answer[BLIDROSK_PART_NUMBER], "two numbers came back", lists->name,
         source_segment);
    return part;
}

/* The part. What is the same over two patterns that differ everywhere was written. */
static struct part ask(const struct lists *lists, uint32_t source_segment)
{
    struct part part = part_over(0x55555555, lists, source_segment);
    struct part again = part_over(0xaaaaaaaa, lists, source_segment);
    bool written = true;
    for (size_t i = 0; i < ENTRIES; i++)
        written = written && part.answer[i] == again.answer[i];
    test(written, "a place of the answer was not written", lists->name, source_segment);
    return part;
}

static void test_part(const struct lists *lists, uint32_t source_segment, uint32_t number,
                      uint32_t start, uint32_t length)
{
    struct part part = ask(lists, source_segment);
    test(part.answer[BLIDROSK_PART_NUMBER] == number, "another number was wanted", lists->name,
         source_segment);
    test(part.answer[BLIDROSK_PART_PLACE] == 0, "it has a place", lists->name, source_segment);
    test(part.answer[BLIDROSK_PART_START] == start && part.answer[BLIDROSK_PART_LENGTH] == length,
         "another part was wanted", lists->name, source_segment);
}

/* Offsets a drawing, over places that are not zero. */
static struct output output_of(const struct job *job)
{
    double vertices[3 * ROOM] = {0};
    uint32_t answer[5] = {0};
    struct output output = {.n = segments_of(job)};
    for (size_t i = 0; i < ROOM; i++) {
        output.flags[i] = 0xa5;
        output.indexes[i] = 0xdeadbeef;
        output.origins[i] = 0xfffffff0 + (uint32_t)i;
    }
    const struct buffers lent = {vertices,       3 * ROOM, output.flags,   ROOM,
                                 output.indexes, ROOM,     output.origins, ROOM};
    offset_job(job, &lent, answer);
    test(answer[BLIDROSK_NUMBER] == BLIDROSK_DONE, "the job was refused", job->name, 0);
    output.red = answer[BLIDROSK_INDEXES];
    output.segments = answer[BLIDROSK_VERTICES];
    if (output.segments > 0 && answer[BLIDROSK_CLOSED] == 0)
        output.segments--;
    bool zero = true;
    for (size_t i = output.segments; i < room_for(output.n); i++)
        zero = zero && output.origins[i] == 0;
    test(zero, "an origin past the output is not zero", job->name, 0);
    return output;
}

/* The lists of the first `count` segments: of the output, or of its buffers. */
static struct lists lend(const struct job *job, const struct output *output, size_t count)
{
    struct lists lists = {job->name, output->n, output->flags, count, output->origins, count};
    return lists;
}

/* The part of each source segment against a plain search, and what is refused. */
static void test_output(const struct job *job, const struct output *output)
{
    struct lists lists = lend(job, output, output->segments);
    uint32_t all = 0;
    for (uint32_t i = 0; i < output->n; i++) {
        uint32_t start = 0, length = 0;
        for (uint32_t k = 0; k < output->segments; k++)
            if (blidrosk_origin_source(output->origins[k]) == i) {
                test(length == 0 || start + length == k, "it has another part", job->name, i);
                start = length == 0 ? k : start;
                length++;
            }
        test_part(&lists, i, BLIDROSK_DONE, start, length);
        test(job->offset != 0 || (start == i && length == 1), "a copy is its own", job->name, i);
        all += length;
    }
    test(all == output->segments, "a segment is in no part", job->name, output->n);
    test_part(&lists, output->n, BLIDROSK_NO_SUCH_SOURCE_SEGMENT, 0, 0);
    test_part(&lists, (uint32_t)-1, BLIDROSK_NO_SUCH_SOURCE_SEGMENT, 0, 0);
    lists.origins_len++;
    test_part(&lists, 0, BLIDROSK_RAGGED, 0, 0);
    test_part(&lists, output->n, BLIDROSK_RAGGED, 0, 0);
    lists.flags_len += 2;
    test_part(&lists, 0, BLIDROSK_RAGGED, 0, 0);
    test_part(&lists, output->n, BLIDROSK_RAGGED, 0, 0);
}

/* The origins of a job, one by one. */
static void test_origins(const struct job *job, const uint32_t *wanted, uint32_t count)
{
    struct output output = output_of(job);
    bool same = output.segments == count;
    for (uint32_t i = 0; same && i < count; i++)
        same = output.origins[i] == wanted[i];
    test(same, "other origins were wanted", job->name, 0);
    test_output(job, &output);
}

/* A span is twice its source segment, and the connector after it one more. */
static void test_jobs(void)
{
    const double corner[] = {0, 0, 0, 4, 0, 0, 4, 1, 0};
    const double square[] = {0, 0, 0, 4, 0, 0, 4, 4, 0, 0, 4, 0};
    const double triangle[] = {3, 3, 0, 3, 4, 0, 2, 3, 0};
    const double step[] = {0, 0, 0, 4, 0, 0, 4, 4, 0, 0, 4, 0, 0, 1e-6, 0};
    const double arc[] = {0, 0.25, 2, -3.0994415283203125e-6, 0.25, 0, 0, 0, 0.5};
    const double twice[] = {0, 0, 0, -0.0, 0, 0, 4, 0, 1};
    const struct {
        struct job job;
        uint32_t count, origins[8];
    } jobs[] = {
        {{"a corner with a gap", corner, 9, false, 2, 1e-5}, 3, {0, 1, 2}},
        {{"a square made smaller", square, 12, true, 1, 1e-5}, 4, {0, 2, 4, 6}},
        {{"a square made larger", square, 12, true, -1, 1e-5}, 8, {0, 1, 2, 3, 4, 5, 6, 7}},
        {{"a square turned over", square, 12, true, 3, 1e-5}, 4, {0, 2, 4, 6}},
        {{"a square used up", square, 12, true, 2, 1e-5}, 0, {0}},
        {{"a line there and back", square, 6, true, 1, 1e-5}, 4, {0, 1, 2, 3}},
        {{"a triangle too small", triangle, 9, true, 1, 1e-5}, 3, {1, 2, 3}},
        {{"a short last side", step, 15, true, 1, 1e-5}, 5, {0, 2, 4, 6, 9}},
        {{"past an arc's end", arc, 9, true, -0.5, 1e-5}, 4, {0, 2, 3, 4}},
        {{"an open copy", twice, 9, false, 0, 1e-5}, 2, {0, 2}},
        {{"a closed copy", twice, 9, true, -0.0, 1e-5}, 3, {0, 2, 4}},
        {{"one vertex", square, 3, true, 1, 1e-5}, 0, {0}},
        {{"no vertex", square, 0, false, 1, 1e-5}, 0, {0}},
    };
    for (size_t i = 0; i < sizeof jobs / sizeof *jobs; i++)
        test_origins(&jobs[i].job, jobs[i].origins, jobs[i].count);
}

/* Both connectors of a point are of the segment before it: a part has up to three segments. */
static void test_pointed_jobs(void)
{
    const double corner[] = {0, 0, 0, 4, 0, 0, 4, 1, 0};
    const double square[] = {0, 0, 0, 4, 0, 0, 4, 4, 0, 0, 4, 0};
    const double flat[] = {0, 0, 0, 4, 0, 0, 8, -0.06, 0};
    const struct {
        struct job job;
        uint32_t count, origins[12];
    } jobs[] = {
        {{"a pointed corner", corner, 9, false, -1, 1e-5}, 4, {0, 1, 1, 2}},
        {{"a corner with a gap", corner, 9, false, 2, 1e-5}, 3, {0, 1, 2}},
        {{"a pointed square", square, 12, true, -1, 1e-5},
         12,
         {0, 1, 1, 2, 3, 3, 4, 5, 5, 6, 7, 7}},
        {{"a line there and back", square, 6, true, 1, 1e-5}, 4, {0, 1, 2, 3}},
        {{"half of a point", flat, 9, false, 1, 0.01}, 3, {0, 1, 2}},
        {{"a closed copy", square, 12, true, 0, 1e-5}, 4, {0, 2, 4, 6}},
    };
    for (size_t i = 0; i < sizeof jobs / sizeof *jobs; i++)
        test_origins(&jobs[i].job, jobs[i].origins, jobs[i].count);
}

/* Lists that no job has drawn, with any flags. */
static void test_lists(uint8_t flag)
{
    const uint32_t most = (uint32_t)-1;
    const uint32_t origins[] = {2, 3, 4, 2, 2, 3, 1, 0, 9, most, most - 1};
    const uint32_t alike[] = {5, 4, 5, 5};
    const uint8_t flags[] = {flag, 0, 1, flag, 1, flag, 0, flag, flag, flag, 1};
    struct lists lists = {"lists of any origins", most, flags, 11, origins, 11};
    test_part(&lists, 0, BLIDROSK_DONE, 6, 2); /* the connector before the span */
    test_part(&lists, 1, BLIDROSK_DONE, 0, 2); /* the first of two */
    test_part(&lists, 2, BLIDROSK_DONE, 2, 1);
    test_part(&lists, 3, BLIDROSK_DONE, 0, 0);
    test_part(&lists, 4, BLIDROSK_DONE, 8, 1);
    test_part(&lists, most / 2, BLIDROSK_DONE, 9, 2);
    for (uint32_t i = 1; i <= 6; i++)
        test_part(&lists, most / 2 + i, BLIDROSK_DONE, 0, 0); /* too large for an origin */
    test_part(&lists, most - 1, BLIDROSK_DONE, 0, 0);
    test_part(&lists, most, BLIDROSK_NO_SUCH_SOURCE_SEGMENT, 0, 0);
    lists.n = 2; /* and origins of segments that the source does not have */
    test_part(&lists, 0, BLIDROSK_DONE, 6, 2);
    test_part(&lists, 1, BLIDROSK_DONE, 0, 2);
    test_part(&lists, 2, BLIDROSK_NO_SUCH_SOURCE_SEGMENT, 0, 0);
    test_part(&lists, 4, BLIDROSK_NO_SUCH_SOURCE_SEGMENT, 0, 0);
    struct lists one = {"a list of one origin", 3, flags, 4, alike, 4};
    test_part(&one, 1, BLIDROSK_DONE, 0, 0);
    test_part(&one, 2, BLIDROSK_DONE, 0, 4);
    one.flags_len = one.origins_len = 1;
    test_part(&one, 2, BLIDROSK_DONE, 0, 1);
    one.n = 0;
    test_part(&one, 0, BLIDROSK_NO_SUCH_SOURCE_SEGMENT, 0, 0);
    test_part(&one, 2, BLIDROSK_NO_SUCH_SOURCE_SEGMENT, 0, 0);
}

static void test_empty_lists(void)
{
    const uint8_t flags[] = {1};
    const uint32_t origins[] = {0};
    struct lists lists = {"empty lists", 1, 0, 0, 0, 0};
    test_part(&lists, 0, BLIDROSK_DONE, 0, 0);
    test_part(&lists, 1, BLIDROSK_NO_SUCH_SOURCE_SEGMENT, 0, 0);
    lists.n = 0;
    test_part(&lists, 0, BLIDROSK_NO_SUCH_SOURCE_SEGMENT, 0, 0);
    struct lists no_flag = {"no flag", 1, flags, 0, origins, 1};
    test_part(&no_flag, 0, BLIDROSK_RAGGED, 0, 0);
    struct lists no_origin = {"no origin", 0, flags, 1, origins, 0};
    test_part(&no_origin, 0, BLIDROSK_RAGGED, 0, 0);
}

static void print_part(const struct part *part)
{
    uint32_t start = part->answer[BLIDROSK_PART_START];
    uint32_t length = part->answer[BLIDROSK_PART_LENGTH];
    if (part->answer[BLIDROSK_PART_NUMBER] != BLIDROSK_DONE)
        printf("refused, number %u\n", (unsigned)part->answer[BLIDROSK_PART_NUMBER]);
    else if (length == 0)
        printf("no segment\n");
    else if (length == 1)
        printf("segment %u\n", (unsigned)start);
    else
        printf("segments %u to %u\n", (unsigned)start, (unsigned)(start + length - 1));
}

static void print_red(const struct lists *lists, uint32_t segment)
{
    uint32_t origin = lists->origins[segment], source_segment = blidrosk_origin_source(origin);
    struct part part = ask(lists, source_segment);
    printf("segment %u is red: the %s source segment %u, whose part is ", (unsigned)segment,
           blidrosk_origin_is_connector(origin) ? "connector after" : "span of",
           (unsigned)source_segment);
    print_part(&part);
    test(segment - part.answer[BLIDROSK_PART_START] < part.answer[BLIDROSK_PART_LENGTH],
         "a red segment is not in its part", lists->name, source_segment);
}

static void print_asked(const struct lists *lists, uint32_t source_segment, const char *words)
{
    struct part part = ask(lists, source_segment);
    printf("source segment %u%s: ", (unsigned)source_segment, words);
    print_part(&part);
}

int main(void)
{
    /* an outline with a tongue too narrow for the offset, and a step */
    const double outline[] = {
        0, 0, 0, /* x, y, bulge */
        20, 0, 0,
        20, 3, 0,
        10, 3, 0,
        10, 20, 0,
        -0.5, 20, 0,
        -0.5, 10, 0,
        0, 10, 0,
    };
    const struct job job = {"the outline", outline, 24, true, 2, 1e-5};
    struct output output = output_of(&job);
    struct lists lists = lend(&job, &output, output.segments);
    for (uint32_t i = 0; i < output.red; i++)
        print_red(&lists, output.indexes[i]);
    for (uint32_t i = 0; i <= output.n; i++)
        print_asked(&lists, i, "");
    lists.flags_len--;
    print_asked(&lists, 0, ", with a flag left out");
    lists.flags_len++;
    lists.n = (uint32_t)-1;
    print_asked(&lists, 2147483648, ", a number that no origin has");

    const double two_lines[] = {0, 0, 0, 1e-6, 0, 0, 4, 0, 0};
    const struct job line = {"two lines", two_lines, 9, false, 1, 1e-5};
    struct output drawn = output_of(&line);
    struct lists own = lend(&line, &drawn, drawn.segments);
    struct lists padded = lend(&line, &drawn, room_for(drawn.n));
    print_asked(&own, 0, ", too short to draw");
    print_asked(&padded, 0, ", too short to draw, with the zeros past the output");

    test_output(&job, &output);
    test_output(&line, &drawn);
    test_jobs();

    corners.pointed = true;
    corners.ratio = 2;
    output = output_of(&job);
    lists = lend(&job, &output, output.segments);
    print_asked(&lists, 2, ", with a point after it");
    test_output(&job, &output);
    test_pointed_jobs();
    test_lists(0);
    test_lists(1);
    test_lists(0xa5);
    test_empty_lists();
    return failed;
}
