/* A news crawl: line after line by the same morx table. Goes through its subtables once, by the cursors, and keeps for each that the
   line's flags choose where it begins and, where it has a class table, an index of its classes. Then shapes each line by the passes,
   those with an index by that, and compares it with what the run over the whole table leaves. */

#include <stdio.h>
#include <stdlib.h>
#include <string.h>

#include "aat.h"

enum { ROOM = 16, CHARACTERS = 5, LINES = 3, MOST_SUBTABLES = 8 };

/* So many glyphs have an entry in each index; those above are searched for as ever. */
enum { ENTRIES = 8 };

/* Bits of a subtable's coverage, and a kind without classes. */
#define VERTICAL 0x80000000u
#define BOTH_WAYS 0x20000000u
enum { NONCONTEXTUAL = 4 };

static const uint8_t font[] = {
    /* version 2, one chain of 180 bytes with default flags 1, no features, three subtables */
    0x00, 0x02, 0x00, 0x00, 0x00, 0x00, 0x00, 0x01,
    0x00, 0x00, 0x00, 0x01, 0x00, 0x00, 0x00, 0xB4, 0x00, 0x00, 0x00, 0x00, 0x00, 0x00, 0x00, 0x03,
    /* 22 bytes, kind 4, flags 1: a lookup in format 8 that gives the glyphs 5 and 6 the glyphs 7 and 9 */
    0x00, 0x00, 0x00, 0x16, 0x00, 0x00, 0x00, 0x04, 0x00, 0x00, 0x00, 0x01,
    0x00, 0x08, 0x00, 0x05, 0x00, 0x02, 0x00, 0x07, 0x00, 0x09,
    /* 72 bytes, kind 0, flags 1: 6 classes; from a 7, of class 4, to a 9, of class 5, the first and the last glyph change places */
    0x00, 0x00, 0x00, 0x48, 0x00, 0x00, 0x00, 0x00, 0x00, 0x00, 0x00, 0x01,
    0x00, 0x00, 0x00, 0x06, 0x00, 0x00, 0x00, 0x10, 0x00, 0x00, 0x00, 0x24, 0x00, 0x00, 0x00, 0x30,
    0x00, 0x06, 0x00, 0x04, 0x00, 0x02, 0x00, 0x08, 0x00, 0x01, 0x00, 0x00, 0x00, 0x07, 0x00, 0x04, 0x00, 0x09, 0x00, 0x05,
    0x00, 0x00, 0x00, 0x00, 0x00, 0x00, 0x00, 0x00, 0x00, 0x01, 0x00, 0x02,
    0x00, 0x00, 0x00, 0x00, 0x00, 0x00, 0x80, 0x00, 0x00, 0x00, 0x20, 0x03,
    /* 70 bytes, kind 5, flags 1: 5 classes; two glyphs are put in behind a 3, of class 4 */
    0x00, 0x00, 0x00, 0x46, 0x00, 0x00, 0x00, 0x05, 0x00, 0x00, 0x00, 0x01,
    0x00, 0x00, 0x00, 0x05, 0x00, 0x00, 0x00, 0x14, 0x00, 0x00, 0x00, 0x1C, 0x00, 0x00, 0x00, 0x26, 0x00, 0x00, 0x00, 0x36,
    0x00, 0x08, 0x00, 0x03, 0x00, 0x01, 0x00, 0x04,
    0x00, 0x00, 0x00, 0x00, 0x00, 0x00, 0x00, 0x00, 0x00, 0x01,
    0x00, 0x00, 0x00, 0x00, 0xFF, 0xFF, 0xFF, 0xFF,
    0x00, 0x00, 0x00, 0x40, 0x00, 0x00, 0xFF, 0xFF,
    0x00, 0x1E, 0x00, 0x1F,
};

struct line {
    uint16_t glyphs[ROOM], tags[ROOM], homes[CHARACTERS];
    size_t used;
};

/* A subtable that lines are shaped by. */
struct subtable {
    size_t start, class_start;
    int has_index;
    uint16_t index[ENTRIES];
};

/* Gives up where an entry did not do all of its work. */
static void expect_done(uint32_t answer, const char *what)
{
    if (answer == AAT_DONE)
        return;
    fprintf(stderr, "%s: answer %u\n", what, (unsigned)answer);
    exit(EXIT_FAILURE);
}

/* Keeps a subtable, with an index where it has classes. Lines here run from left to right, and no subtable wants them turned. */
static void keep(struct subtable *kept, const uint64_t *fields)
{
    uint32_t turned = 0;

    expect_done(aat_morx_should_reverse((uint32_t)fields[AAT_SUBTABLE_COVERAGE], 0, &turned), "order");
    if (turned)
        exit(EXIT_FAILURE);
    kept->start = fields[AAT_SUBTABLE_START];
    kept->has_index = fields[AAT_SUBTABLE_KIND] != NONCONTEXTUAL;
    if (kept->has_index)
        expect_done(aat_index_classes(font, sizeof font, kept->start + 12, 0, kept->index, ENTRIES, &kept->class_start), "index");
}

/* The subtables of all chains that their default flags choose. */
static size_t keep_all(struct subtable *kept)
{
    uint64_t chains[AAT_CURSOR], chain[AAT_CHAIN_FIELDS], fields[AAT_SUBTABLE_FIELDS];
    size_t count = 0;

    expect_done(aat_morx_chains(font, sizeof font, 0, chains), "chains");
    for (;;) {
        expect_done(aat_morx_next_chain(font, sizeof font, chains, chain), "chain");
        if (!chain[AAT_FOUND])
            return count;
        for (;;) {
            expect_done(aat_morx_next_subtable(font, sizeof font, chain + AAT_CHAIN_SUBTABLES, fields), "subtable");
            if (!fields[AAT_FOUND])
                break;
            if ((fields[AAT_SUBTABLE_COVERAGE] & (VERTICAL | BOTH_WAYS)) == VERTICAL || count == MOST_SUBTABLES ||
                !(chain[AAT_CHAIN_FLAGS] & fields[AAT_SUBTABLE_FLAGS]))
                continue;
            keep(&kept[count++], fields);
        }
    }
}

static void shape(struct line *line, const struct subtable *by)
{
    if (by->has_index)
        expect_done(aat_morx_pass_indexed(font, sizeof font, by->start, line->glyphs, ROOM, line->tags, ROOM, line->homes, CHARACTERS,
                                          &line->used, by->index, ENTRIES, by->class_start),
                    "pass by an index");
    else
        expect_done(aat_morx_pass(font, sizeof font, by->start, line->glyphs, ROOM, line->tags, ROOM, line->homes, CHARACTERS,
                                  &line->used),
                    "pass");
}

static int is_same(const struct line *one, const struct line *other)
{
    return one->used == other->used && memcmp(one->glyphs, other->glyphs, sizeof one->glyphs) == 0 &&
           memcmp(one->tags, other->tags, sizeof one->tags) == 0 && memcmp(one->homes, other->homes, sizeof one->homes) == 0;
}

int main(void)
{
    static const uint16_t crawl[LINES][CHARACTERS] = {{3, 5, 4, 6, 3}, {5, 3, 3, 6, 6}, {9, 8, 7, 2, 5}};
    struct subtable kept[MOST_SUBTABLES];
    size_t count = keep_all(kept), number, place;

    for (number = 0; number < count; number++) {
        printf("subtable at byte %u: ", (unsigned)kept[number].start);
        if (!kept[number].has_index)
            printf("no classes");
        else
            for (place = 0; place < ENTRIES; place++)
                printf("%s%u", place == 0 ? "classes " : " ", kept[number].index[place]);
        printf("\n");
    }
    for (number = 0; number < LINES; number++) {
        struct line line, by_run;
        uint32_t heads = 0;
        size_t step;

        memset(&line, 0, sizeof line);
        memcpy(line.glyphs, crawl[number], sizeof crawl[number]);
        expect_done(aat_fresh(line.glyphs, ROOM, line.tags, ROOM, line.homes, CHARACTERS, &line.used), "fresh line");
        by_run = line;
        for (step = 0; step < count; step++)
            shape(&line, &kept[step]);
        expect_done(aat_morx_run(font, sizeof font, 0, 0, by_run.glyphs, ROOM, by_run.tags, ROOM, by_run.homes, CHARACTERS, &by_run.used,
                                 &heads),
                    "run");
        printf("line %u, by indexes and by the run %s:", (unsigned)number, is_same(&line, &by_run) ? "alike" : "DIFFERENT");
        for (place = 0; place < line.used; place++)
            printf(" %u", line.glyphs[place]);
        printf("\n");
    }
    return EXIT_SUCCESS;
}
