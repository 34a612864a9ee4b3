/* Shapes a line and kerns it: the glyphs 3, 5 and 6 by a morx table, then by a kern table, which sets a 9 closer to the 7 before it.
   Stores the shaped line as a record, and reads it back. Then puts glyphs behind the 3 by an insertion subtable, once by single
   steps and once by the pass, which leave the same line. Runs a reel of three lines, of which one is refused. Kerns three lines and
   reports on them. Last it mends a lookup table, and anchors a mark by a kerx and an ankr table.

   The tables lie in one block, as in a font file, and each entry is told where its table begins. */

#include <stdio.h>
#include <stdlib.h>
#include <string.h>

#include "aat.h"

enum { ROOM = 16, CHARACTERS = 3, LONGEST_RECORD = 9 + 4 * ROOM + 2 * CHARACTERS };
enum { MORX = 4, KERN = 52, INSERTION = 76, KERX = 146, ANKR = 230 };

static const uint8_t font[] = {
    0x00, 0x00, 0x00, 0x00,
    /* MORX: version 2, one chain of 38 bytes with default flags 1, no features, one subtable */
    0x00, 0x02, 0x00, 0x00, 0x00, 0x00, 0x00, 0x01,
    0x00, 0x00, 0x00, 0x01, 0x00, 0x00, 0x00, 0x26, 0x00, 0x00, 0x00, 0x00, 0x00, 0x00, 0x00, 0x01,
    /* the subtable: 22 bytes, kind 4, flags 1; a lookup in format 8 that gives the glyphs 5 and 6 the glyphs 7 and 9 */
    0x00, 0x00, 0x00, 0x16, 0x00, 0x00, 0x00, 0x04, 0x00, 0x00, 0x00, 0x01,
    0x00, 0x08, 0x00, 0x05, 0x00, 0x02, 0x00, 0x07, 0x00, 0x09,
    0x00, 0x00,
    /* KERN: version 0, one subtable of 20 bytes in format 0, horizontal; one pair, 7 and 9, with the number -12 */
    0x00, 0x00, 0x00, 0x01,
    0x00, 0x00, 0x00, 0x14, 0x00, 0x01,
    0x00, 0x01, 0x00, 0x06, 0x00, 0x00, 0x00, 0x00,
    0x00, 0x07, 0x00, 0x09, 0xFF, 0xF4,
    /* INSERTION: a subtable of 70 bytes, kind 5, flags 1; 5 classes, and where its class table, states, entries and glyphs begin */
    0x00, 0x00, 0x00, 0x46, 0x00, 0x00, 0x00, 0x05, 0x00, 0x00, 0x00, 0x01,
    0x00, 0x00, 0x00, 0x05, 0x00, 0x00, 0x00, 0x14, 0x00, 0x00, 0x00, 0x1C, 0x00, 0x00, 0x00, 0x26, 0x00, 0x00, 0x00, 0x36,
    /* the glyph 3 has class 4, for which state 0 has entry 1; that one puts two glyphs in behind the current one */
    0x00, 0x08, 0x00, 0x03, 0x00, 0x01, 0x00, 0x04,
    0x00, 0x00, 0x00, 0x00, 0x00, 0x00, 0x00, 0x00, 0x00, 0x01,
    0x00, 0x00, 0x00, 0x00, 0xFF, 0xFF, 0xFF, 0xFF,
    0x00, 0x00, 0x00, 0x40, 0x00, 0x00, 0xFF, 0xFF,
    0x00, 0x1E, 0x00, 0x1F,
    /* KERX: version 2, one subtable of 76 bytes in format 4; 6 classes, where its class table, states and entries begin, and action
       type 1 with where its records begin */
    0x00, 0x02, 0x00, 0x00, 0x00, 0x00, 0x00, 0x01,
    0x00, 0x00, 0x00, 0x4C, 0x00, 0x00, 0x00, 0x04, 0x00, 0x00, 0x00, 0x00,
    0x00, 0x00, 0x00, 0x06, 0x00, 0x00, 0x00, 0x14, 0x00, 0x00, 0x00, 0x1E, 0x00, 0x00, 0x00, 0x2A, 0x40, 0x00, 0x00, 0x3C,
    /* the glyph 5 has class 4, whose entry 1 sets the mark, and 6 has class 5, whose entry 2 has the record with index 0 */
    0x00, 0x08, 0x00, 0x05, 0x00, 0x02, 0x00, 0x04, 0x00, 0x05,
    0x00, 0x00, 0x00, 0x00, 0x00, 0x00, 0x00, 0x00, 0x00, 0x01, 0x00, 0x02,
    0x00, 0x00, 0x00, 0x00, 0xFF, 0xFF,
    0x00, 0x00, 0x80, 0x00, 0xFF, 0xFF,
    0x00, 0x00, 0x00, 0x00, 0x00, 0x00,
    /* that record: point 0 of the marked glyph, point 1 of the current one */
    0x00, 0x00, 0x00, 0x01,
    /* ANKR: where its lookup begins, and where the points do; then 5 has the point (100, 200), and 6 has (0, 0) and (-5, 300) */
    0x00, 0x00, 0x00, 0x00, 0x00, 0x00, 0x00, 0x0C, 0x00, 0x00, 0x00, 0x16,
    0x00, 0x08, 0x00, 0x05, 0x00, 0x02, 0x00, 0x00, 0x00, 0x08,
    0x00, 0x00, 0x00, 0x01, 0x00, 0x64, 0x00, 0xC8,
    0x00, 0x00, 0x00, 0x02, 0x00, 0x00, 0x00, 0x00, 0xFF, 0xFB, 0x01, 0x2C,
};

struct line {
    uint16_t glyphs[ROOM], tags[ROOM], homes[CHARACTERS];
    size_t used;
};

/* Gives up where an entry did not do all of its work. */
static void expect_done(uint32_t answer, const char *what)
{
    if (answer == AAT_DONE)
        return;
    fprintf(stderr, "%s: answer %u\n", what, (unsigned)answer);
    exit(EXIT_FAILURE);
}

/* The insertion pass by single steps, each of which hands over what aat_insert then makes. */
static void insert_by_steps(struct line *line)
{
    uint64_t state[AAT_INSERTION_STATE] = {0}, edits[AAT_EDITS];
    size_t index = 0, advance = 0, edit;
    uint32_t ends;

    do {
        ends = index == line->used;
        expect_done(aat_insertion_step(state, font, sizeof font, INSERTION, line->used, ROOM, index,
                                       ends ? AAT_DELETED : line->glyphs[index], ends, &advance, edits),
                    "step");
        for (edit = 0; edit < edits[AAT_EDITS_COUNT]; edit++) {
            const uint64_t *made = edits + (edit == 0 ? AAT_EDITS_FIRST : AAT_EDITS_SECOND);
            expect_done(aat_insert(font, sizeof font, made[AAT_EDIT_BYTE], (uint16_t)made[AAT_EDIT_GLYPHS], line->glyphs, ROOM,
                                   line->tags, ROOM, line->homes, CHARACTERS, &line->used, made[AAT_EDIT_PLACE]),
                        "insertion");
        }
        index += advance;
    } while (!ends);
}

static int is_same(const struct line *one, const struct line *other)
{
    return one->used == other->used && memcmp(one->glyphs, other->glyphs, sizeof one->glyphs) == 0 &&
           memcmp(one->tags, other->tags, sizeof one->tags) == 0 && memcmp(one->homes, other->homes, sizeof one->homes) == 0;
}

/* The record of a line, and the line that it gives back. */
static void store_and_read(const struct line *line)
{
    uint8_t record[LONGEST_RECORD];
    struct line read = *line;
    size_t size = 0, byte, characters = 0;

    expect_done(aat_store_line(line->glyphs, ROOM, line->tags, ROOM, line->homes, CHARACTERS, line->used, record, sizeof record, &size),
                "storing");
    printf("stored in %u bytes: ", (unsigned)size);
    for (byte = 0; byte < size; byte++)
        printf("%02X", record[byte]);
    printf("\n");
    memset(read.glyphs, 0, line->used * sizeof *read.glyphs);
    memset(read.tags, 0, line->used * sizeof *read.tags);
    memset(read.homes, 0, sizeof read.homes);
    read.used = 0;
    expect_done(aat_read_line(record, size, read.glyphs, ROOM, read.tags, ROOM, read.homes, CHARACTERS, &read.used, &characters),
                "reading");
    printf("read back %s, with %u characters\n", is_same(line, &read) ? "alike" : "DIFFERENT", (unsigned)characters);
}

/* The same line by steps and by the pass. */
static void insert_both_ways(void)
{
    struct line by_steps = {{3, 5, 6}, {0}, {0}, 0}, by_pass;
    size_t place;

    expect_done(aat_fresh(by_steps.glyphs, ROOM, by_steps.tags, ROOM, by_steps.homes, CHARACTERS, &by_steps.used), "fresh line");
    by_pass = by_steps;
    insert_by_steps(&by_steps);
    expect_done(aat_insertion_pass(font, sizeof font, INSERTION, by_pass.glyphs, ROOM, by_pass.tags, ROOM, by_pass.homes, CHARACTERS,
                                   &by_pass.used),
                "insertion pass");
    printf("by steps and by the pass %s:", is_same(&by_steps, &by_pass) ? "alike" : "DIFFERENT");
    for (place = 0; place < by_steps.used; place++)
        printf(" %u", by_steps.glyphs[place]);
    printf("\n");
}

/* Three lines in one call, in rooms of 4, 2 and 4 places. The second says that more places are used than it has. */
static void run_reel(void)
{
    enum { LINES = 3, PLACES = 10, HOMES = 6 };
    static const uint32_t no_requests[1] = {0};
    static const size_t rooms[LINES] = {4, 2, 4}, characters[LINES] = {3, 1, 2};
    size_t used[LINES] = {3, 3, 2}, line, place, begin = 0;
    uint16_t glyphs[PLACES] = {3, 5, 6, 0, 5, 6, 6, 5, 0, 0}, tags[PLACES] = {0, 1, 2, 0, 0, 1, 0, 1, 0, 0};
    uint16_t homes[HOMES] = {0, 1, 2, 0, 0, 1};
    uint32_t answers[LINES] = {0}, heads[LINES] = {0};

    expect_done(aat_morx_reel(font, sizeof font, MORX, 0, no_requests, 0, rooms, LINES, characters, LINES, used, LINES, answers, LINES,
                              heads, LINES, glyphs, PLACES, tags, PLACES, homes, HOMES),
                "reel");
    for (line = 0; line < LINES; line++) {
        printf("line %u of the reel: answer %u, heads read %u:", (unsigned)line, (unsigned)answers[line], (unsigned)heads[line]);
        for (place = begin; place < begin + rooms[line]; place++)
            printf(" %u", glyphs[place]);
        printf("\n");
        begin += rooms[line];
    }
}

/* Three lines, kerned one by one in rooms of 4, 1 and 3 places, and a report on all. The second is empty. */
static void report_kerning(void)
{
    enum { LINES = 3, PLACES = 8, HOMES = 6 };
    static const size_t rooms[LINES] = {4, 1, 3}, characters[LINES] = {4, 0, 2}, used[LINES] = {4, 0, 2};
    static const uint16_t glyphs[PLACES] = {7, 9, 7, 9, 0, 7, 9, 0}, tags[PLACES] = {0, 1, 2, 3, 0, 0, 1, 0};
    static const uint16_t homes[HOMES] = {0, 1, 2, 3, 0, 1};
    int64_t along[PLACES] = {0}, sums[LINES], largest[LINES], smallest[LINES], totals[AAT_TOTALS];
    size_t line, at = 0, from = 0;
    uint32_t heads = 0;

    for (line = 0; line < LINES; line++) {
        expect_done(aat_kern_run(font, sizeof font, KERN, glyphs + at, rooms[line], tags + at, rooms[line], homes + from, characters[line],
                                 used[line], along + at, rooms[line], &heads),
                    "kern");
        at += rooms[line];
        from += characters[line];
    }
    expect_done(aat_kerning_report(rooms, LINES, characters, LINES, used, LINES, glyphs, PLACES, tags, PLACES, homes, HOMES, along, PLACES,
                                   sums, LINES, largest, LINES, smallest, LINES, totals),
                "report");
    for (line = 0; line < LINES; line++)
        printf("line %u of the report: sum %ld, largest %ld, smallest %ld\n", (unsigned)line, (long)sums[line], (long)largest[line],
               (long)smallest[line]);
    printf("all lines of the report: sum %ld, largest %ld, smallest %ld\n", (long)totals[AAT_TOTAL_SUM], (long)totals[AAT_TOTAL_LARGEST],
           (long)totals[AAT_TOTAL_SMALLEST]);
}

/* A lookup table out of order, mended into a buffer that is one byte short, and into one that is not. */
static void mend_lookup(void)
{
    static const uint8_t shuffled[] = {0, 6, 0, 4, 0, 2, 0, 8, 0, 1, 0, 0, 0, 6, 0, 90, 0, 5, 0, 70};
    uint8_t mended[sizeof shuffled];
    uint16_t numbers[2] = {0, 0};
    size_t size = 0, record;

    if (aat_mend(shuffled, sizeof shuffled, 0, mended, sizeof mended - 1, numbers, 2, &size) != AAT_SPACE)
        printf("a buffer that is too short was TAKEN\n");
    expect_done(aat_mend(shuffled, sizeof shuffled, 0, mended, sizeof mended, numbers, 2, &size), "mending");
    printf("mended in %u bytes:", (unsigned)size);
    for (record = 0; record < 2; record++)
        printf(" record %u is now %u%s", (unsigned)record, numbers[record], record == 0 ? "," : "\n");
}

/* The glyphs 5 and 6, of which the second is a mark that the tables anchor to the first. */
static void anchor_mark(void)
{
    struct line line = {{5, 6}, {0}, {0}, 0};
    int64_t along[ROOM];
    int32_t x[ROOM], y[ROOM];
    uint16_t back[ROOM];
    uint32_t heads = 0;
    size_t place;

    expect_done(aat_fresh(line.glyphs, ROOM, line.tags, ROOM, line.homes, 2, &line.used), "fresh line");
    expect_done(aat_kerx_run_anchored(font, sizeof font, KERX, 0, 0, font + ANKR, sizeof font - ANKR, line.glyphs, ROOM, line.tags, ROOM,
                                      line.homes, 2, line.used, along, ROOM, x, ROOM, y, ROOM, back, ROOM, &heads),
                "kerx");
    for (place = 0; place < line.used; place++)
        printf("glyph %u is anchored %u back, at %d, %d\n", line.glyphs[place], back[place], (int)x[place], (int)y[place]);
}

int main(void)
{
    struct line line = {{3, 5, 6}, {0}, {0}, 0};
    int64_t along[ROOM];
    size_t place, character;
    uint32_t chains_and_subtables = 0, subtables = 0;

    for (place = 0; place < ROOM; place++)
        along[place] = 0;
    expect_done(aat_fresh(line.glyphs, ROOM, line.tags, ROOM, line.homes, CHARACTERS, &line.used), "fresh line");
    expect_done(aat_morx_run(font, sizeof font, MORX, 0, line.glyphs, ROOM, line.tags, ROOM, line.homes, CHARACTERS, &line.used,
                             &chains_and_subtables),
                "morx");
    expect_done(aat_kern_run(font, sizeof font, KERN, line.glyphs, ROOM, line.tags, ROOM, line.homes, CHARACTERS, line.used, along, ROOM,
                             &subtables),
                "kern");

    printf("heads read: %u in morx, %u in kern\n", (unsigned)chains_and_subtables, (unsigned)subtables);
    for (place = 0; place < line.used; place++)
        printf("place %u: glyph %u, moved by %ld\n", (unsigned)place, line.glyphs[place], (long)along[place]);
    for (character = 0; character < CHARACTERS; character++)
        for (place = 0; place < line.used; place++)
            if (line.tags[place] == line.homes[character])
                printf("character %u is at place %u\n", (unsigned)character, (unsigned)place);
    store_and_read(&line);
    insert_both_ways();
    run_reel();
    report_kerning();
    mend_lookup();
    anchor_mark();
    return EXIT_SUCCESS;
}
