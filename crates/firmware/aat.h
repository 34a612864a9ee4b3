/* The entries of libaat.a (libfirmware.a, where it is proved), for C programs on x86-64.

   Conventions
   - Every entry gives the number of its answer, an enum aat_answer. Any bytes, numbers and lengths get one, and the work
     ends. A pointer has to point to as many elements as the length behind it says, or the number in brackets; it is never null,
     not even where that is 0. What an entry writes may not overlap anything else that it is lent.
   - Every refusal leaves everything that was lent as it was, and so does AAT_NOTHING, but for the reason that goes with it
     (enum aat_why). What an entry writes otherwise stands under "Writes"; all else stays as it was on every answer. Nothing is
     kept between calls.
   - table, table_len, start: the bytes of a font table, or of a whole font, and the byte of it where the entry's own table,
     subtable (its head included), state table or list of glyphs begins. Longer than AAT_LONGEST_TABLE is AAT_TABLE. Where a
     whole kern or kerx table is asked for, start 0 is no table, which has no subtables; elsewhere it is a start as any other.
   - glyph 0xFFFF is a deleted glyph. Flags told as uint32_t are set where they are not 0.
   - The refusals are tested in this order, and where several apply, the answer is the first: AAT_REEL, AAT_TABLE, AAT_ANCHOR,
     AAT_REQUEST, AAT_RECORD_VERSION, AAT_RECORD, AAT_LINE, AAT_PLACE, AAT_STATE, AAT_HEAD, AAT_TUPLES, AAT_INDEX, AAT_OVERLAP,
     AAT_SPACE.

   The most work of a call, for a watchdog. A turn is one entry of a state table that is looked at.
   - A lookup, class or pair looks at 16 records at most, a pair of kerx at 32; aat_survey at 65,535; aat_mend at as many, with
     two passes over 65,536 glyphs and 128 KiB of its stack for them. aat_language_index compares name with a tag for each 4
     bytes of the table at most. LINE is tested by a look at each tag and home, and so are the bytes of a record; storing and
     reading a line looks at each place and home once more.
   - A step takes 1 turn, of contextual subtables and ligatures 18 at most.
   - A pass takes 18 turns for each place, and 18 more: 589,842 at most, in AAT_LARGEST_ROOM places. Insertion passes count
     the places of the room, whatever used is. Non-contextual and pair passes look up each place once.
   - A run makes AAT_MOST_HEADS passes at most, by a table of any length: a subtable of size 0 is visited again and again, so
     that 400 bytes can ask for 65,534 passes, and for hours. Whenever it visits a chain, a run with requests compares every
     feature that lies in the table with each of them: 1,398,099 features of a chain that is visited again and again, and
     AAT_MOST_REQUESTS, make some 6 x 10^12 looks. A reel makes a run for each of its lines, one after the other.
   - A report tests LINE of each of its lines, which looks at the adjustments of the whole room, too, and then looks at each used
     adjustment three times: AAT_MOST_REPORTED lines of AAT_LARGEST_ROOM places have 8,355,840.
   - A turn is a class and an entry. Besides, at most: rearrangement moves the glyphs and tags of the line; contextual
     substitution makes two lookups; kerning adds 8 numbers; anchored marks make two lookups; insertion puts in 62 glyphs and
     moves the line, as long as there is room. The 18 turns of a ligature's step share 34 actions; each has 31 components at
     most, for each of which all homes are looked at. */

#ifndef AAT_H
#define AAT_H

/* A program without <stdint.h> and <stddef.h> defines AAT_OWN_TYPES before it includes this header. */
#ifdef AAT_OWN_TYPES
typedef __UINT8_TYPE__ uint8_t;
typedef __UINT16_TYPE__ uint16_t;
typedef __UINT32_TYPE__ uint32_t;
typedef __UINT64_TYPE__ uint64_t;
typedef __INT32_TYPE__ int32_t;
typedef __INT64_TYPE__ int64_t;
typedef __SIZE_TYPE__ size_t;
#else
#include <stddef.h>
#include <stdint.h>
#endif

/* Rises with every entry or value that is added; what is there stays. */
#define AAT_VERSION 15

#ifdef __cplusplus
extern "C" {
#endif

enum aat_answer {
    AAT_DONE = 0,    /* all was done, and the lent numbers hold the result */
    AAT_NOTHING = 1, /* nothing was found */
    AAT_TABLE = 2,   /* the table is longer than AAT_LONGEST_TABLE */
    AAT_LINE = 3,    /* the lent lengths, tags or homes are not a line's, its room is above AAT_LARGEST_ROOM, or what is lent for
                        a stored line is too small */
    AAT_PLACE = 4,   /* a window's start is above its end or above used, or a step's index or a place is above used */
    AAT_STATE = 5,   /* the state lent to a step is none that its machine can have on this line */
    AAT_HEAD = 6,    /* the start is past the table, or no state table, or subtable of the kind, can be read there */
    AAT_FULL = 7,    /* the next insertion would make the line longer than its room; what was done before it stays */
    AAT_ENDED = 8,   /* the work broke off, for want of an entry, a list or a slot of the stack; what was done before stays */
    AAT_LIMIT = 9,   /* a run has counted 65,535 heads and there is another; what was done before stays */
    AAT_REQUEST = 10, /* more features are asked for than AAT_MOST_REQUESTS */
    AAT_RECORD = 11, /* the bytes are no record of a line */
    AAT_RECORD_VERSION = 12, /* they begin as a record, of another version */
    AAT_TUPLES = 13, /* the kerx subtable has tuples, and the manual's reading of it is chosen */
    AAT_INDEX = 14, /* an index has more than AAT_MOST_ENTRIES, is another class table's, or the subtable has no class table */
    AAT_REEL = 15,   /* a reel or a report has too many lines, not a number for each, or parts that do not add up to the slices */
    AAT_ANCHOR = 16, /* the ankr table is longer than AAT_LONGEST_TABLE */
    AAT_OVERLAP = 17, /* two records that a mended table would keep share a glyph */
    AAT_SPACE = 18,  /* what is to be written does not fit where it is lent */
};

enum aat_verdict {
    AAT_NO_RECORDS = 0, /* a format without records: not 2, 4 or 6 */
    AAT_SORTED = 1,     /* first at most last in every record, and each last below the next first */
    AAT_BAD = 2,        /* some record is out of order or not wholly in the table */
    AAT_UNIT_SIZE = 3,  /* the table states a unit size, at start + 2, that is not its format's: 6 in 2 and 4, 4 in 6 */
};

/* Why nothing was found, which the entries that end in _why write with AAT_NOTHING alone. Reads are tried in the crate's order,
   and none behind one that fails. */
enum aat_why {
    AAT_NOT_COVERED = 1,    /* all that was tried could be read, and the table has nothing for the glyph or the pair */
    AAT_CUT_SHORT = 2,      /* a number that was to be read does not lie wholly in the table, or the start is past it */
    AAT_UNKNOWN_FORMAT = 3, /* the lookup table's format is none of the six: 0, 2, 4, 6, 8, 10 */
};

enum { AAT_LONGEST_TABLE = 16777216, AAT_LARGEST_ROOM = 32768, AAT_MOST_HEADS = 65535, AAT_DELETED = 0xFFFF };
enum { AAT_MOST_REQUESTS = 64, AAT_MOST_ENTRIES = 65535, AAT_MOST_LINES = 256, AAT_MOST_REPORTED = 255 };

/* A feature as a run is asked for it: its type times 65,536 plus its setting, both of 16 bits. */
#define AAT_FEATURE(type, setting) ((uint32_t)(type) * 65536 + (uint32_t)(setting))

/* How many numbers each state, cursor and row of fields has, and which number is which. */
enum aat_sizes {
    AAT_CURSOR = 2,
    AAT_CHAIN_FIELDS = 6,
    AAT_FEATURE_FIELDS = 5,
    AAT_SUBTABLE_FIELDS = 6,
    AAT_KERN_CURSOR = 3,
    AAT_KERN_FIELDS = 5,
    AAT_REARRANGEMENT_STATE = 4,
    AAT_WINDOW = 3,
    AAT_CONTEXTUAL_STATE = 4,
    AAT_LIGATURE_STATE = 66,
    AAT_INSERTION_STATE = 3,
    AAT_EDITS = 7,
    AAT_KERNING_STATE = 11,
    AAT_ANCHOR_STATE = 4,
    AAT_TOTALS = 3,
};

/* of a cursor; the version is kern's and kerx's alone */
enum aat_cursor { AAT_CURSOR_PLACE = 0, AAT_CURSOR_LEFT = 1, AAT_CURSOR_VERSION = 2 };

/* of the fields of a list's element: AAT_FOUND is 1 where there is one, and the others follow it */
enum { AAT_FOUND = 0 };
enum aat_chain { AAT_CHAIN_FLAGS = 1, AAT_CHAIN_FEATURES = 2, AAT_CHAIN_SUBTABLES = 4 }; /* the last two are cursors */
enum aat_feature { AAT_FEATURE_TYPE = 1, AAT_FEATURE_SETTING = 2, AAT_FEATURE_ENABLES = 3, AAT_FEATURE_KEEPS = 4 };
enum aat_subtable {
    AAT_SUBTABLE_START = 1,
    AAT_SUBTABLE_COVERAGE = 2,
    AAT_SUBTABLE_FLAGS = 3,
    AAT_SUBTABLE_KIND = 4,
    AAT_SUBTABLE_ORDER = 5,
};
enum aat_kern_subtable { AAT_KERN_START = 1, AAT_KERN_FORMAT = 2, AAT_KERN_PASSED_OVER = 3, AAT_KERN_TURNED = 4 };

/* of a machine's state: the state table's own is the first number of each */
enum { AAT_STATE_NUMBER = 0 };
enum aat_rearrangement { AAT_REARRANGEMENT_FIRST = 1, AAT_REARRANGEMENT_LAST = 2, AAT_REARRANGEMENT_CYCLES = 3 };
enum aat_contextual { AAT_CONTEXTUAL_MARKED = 1, AAT_CONTEXTUAL_MARK = 2, AAT_CONTEXTUAL_MARK_GLYPH = 3 };
enum aat_ligature { AAT_LIGATURE_DEPTH = 1, AAT_LIGATURE_PLACES = 2, AAT_LIGATURE_GLYPHS = 34 }; /* 32 of each */
enum aat_insertion { AAT_INSERTION_MARK = 1, AAT_INSERTION_CYCLES = 2 };
enum aat_kerning { AAT_KERNING_DEPTH = 1, AAT_KERNING_CYCLES = 2, AAT_KERNING_PLACES = 3 }; /* 8 of them */
enum aat_anchor { AAT_ANCHOR_MARK = 1, AAT_ANCHOR_MARK_GLYPH = 2, AAT_ANCHOR_CYCLES = 3 };

/* of what a step hands over to be made */
enum aat_window { AAT_WINDOW_FIRST = 0, AAT_WINDOW_LAST = 1, AAT_WINDOW_VERB = 2 };
enum aat_edits { AAT_EDITS_COUNT = 0, AAT_EDITS_FIRST = 1, AAT_EDITS_SECOND = 4 };
enum aat_edit { AAT_EDIT_PLACE = 0, AAT_EDIT_GLYPHS = 1, AAT_EDIT_BYTE = 2 }; /* from where its edit begins on */

/* of a report's totals */
enum aat_totals { AAT_TOTAL_SUM = 0, AAT_TOTAL_LARGEST = 1, AAT_TOTAL_SMALLEST = 2 };

enum aat_order { AAT_LAYOUT = 0, AAT_REVERSE_LAYOUT = 1, AAT_LOGICAL = 2, AAT_REVERSE_LOGICAL = 3 };

/* Lookups, classes and languages */

/* The element of 16 bits that a glyph has in the lookup table at start, in any of its six formats.
   Answers: AAT_DONE, AAT_NOTHING (no element, or it can't be read), AAT_TABLE.
   Writes: value. */
uint32_t aat_lookup(const uint8_t *table, size_t table_len, size_t start, uint16_t glyph, uint32_t *value);

/* The same, and why there is none.
   Answers and value: as with aat_lookup.
   Writes: value with AAT_DONE; why, an enum aat_why, with AAT_NOTHING. Of a record of format 2 the last glyph is read, and
   the first one only where the glyph does not lie behind that. */
uint32_t aat_lookup_why(const uint8_t *table, size_t table_len, size_t start, uint16_t glyph, uint32_t *value, uint32_t *why);

/* Whether the records of the lookup table at start are in order, so that a search by halves finds what is there.
   Answers: AAT_DONE, AAT_NOTHING (format or count can't be read), AAT_TABLE.
   Writes: verdict, an enum aat_verdict; record with AAT_BAD alone: the number of the first record that is out of order.
   With AAT_UNIT_SIZE no record is looked at or named; the unit size that the table states is its number of 16 bits at start + 2. */
uint32_t aat_survey(const uint8_t *table, size_t table_len, size_t start, uint32_t *verdict, uint32_t *record);

/* Mends the lookup table of format 2 or 6 at start whose records are out of order: writes to buffer a table of the same format
   and unit size with the kept records in rising order, byte for byte, and with its search fields worked out afresh, modulo
   65,536; zeros for no records. Of records of format 6 with one glyph the first is kept, and of format 2 each whose first glyph
   is not above its last. No sentinel is written; one that is counted is a record like the others. The new table is surveyed as
   AAT_SORTED, and each glyph finds in it what a look from the first record down finds in the old one.
   Answers: AAT_DONE; AAT_TABLE; AAT_HEAD (format, unit size or count can't be read, a format other than 2 and 6, a unit size
   other than 6 in format 2 and 4 in format 6, or a counted record that does not lie wholly in the table); AAT_OVERLAP (two kept
   records of format 2 share a glyph); AAT_SPACE (buffer_len is below 12 and the unit size for each kept record, for which 12 +
   6 for each counted one is always enough; or numbers_len is below the count). A count of 0 is AAT_DONE.
   Writes: buffer, size bytes of it; size; numbers: for each old record its new number, or 0xFFFF for one that was dropped. */
uint32_t aat_mend(const uint8_t *table, size_t table_len, size_t start, uint8_t *buffer, size_t buffer_len, uint16_t *numbers,
                  size_t numbers_len, size_t *size);

/* The class of a glyph in the extended (morx, kerx) or classic (kern) state table at start: 1 where the class table does
   not cover it, 2 for a deleted glyph.
   Answers: AAT_DONE, AAT_TABLE, AAT_HEAD (the start is past the table, or the state table's head can't be read).
   Writes: value. */
uint32_t aat_class_extended(const uint8_t *table, size_t table_len, size_t start, uint16_t glyph, uint32_t *value);
uint32_t aat_class_classic(const uint8_t *table, size_t table_len, size_t start, uint16_t glyph, uint32_t *value);

/* The index of the tag whose bytes are those of name, name_len of them, in the ltag table at start.
   Answers: AAT_DONE, AAT_NOTHING, AAT_TABLE.
   Writes: value. */
uint32_t aat_language_index(const uint8_t *table, size_t table_len, size_t start, const uint8_t *name, size_t name_len,
                            uint32_t *value);

/* The line

   A line is lent as glyphs and tags, one of each for every place of its room, and homes, one for every typed character: the
   tag of the glyph that it belongs to. The line itself is the first places, as many as used says. Their tags are the
   numbers below used, once each; every home is one of them, and there are no more homes than places. A line that is not so,
   slices of different room, or a room above AAT_LARGEST_ROOM is AAT_LINE. From a fresh line on, whatever the entries below
   do to it, every character belongs to exactly one place, and used is the number of characters and of the glyphs put in.
   From a line that was read on the same holds, where its length stands for the characters: each of them starts at the place
   of its home. */

/* Starts a line of homes_len characters, whose glyphs stand in the first places already.
   Answers: AAT_DONE, AAT_LINE (slices of different room, a room too large, or more characters than places).
   Writes: tags and homes, which count up from 0, the tags no further than the line; used, which is homes_len. */
uint32_t aat_fresh(const uint16_t *glyphs, size_t glyphs_len, uint16_t *tags, size_t tags_len, uint16_t *homes,
                   size_t homes_len, size_t *used);

/* Rearranges the window from the place start to the place end, both included and the end cut to the line, by the verb of
   this number modulo 16.
   Answers: AAT_DONE, AAT_LINE, AAT_PLACE (start above end, or above used).
   Writes: glyphs and tags, which move together. */
uint32_t aat_verb(uint16_t *glyphs, size_t glyphs_len, uint16_t *tags, size_t tags_len, const uint16_t *homes,
                  size_t homes_len, size_t used, uint16_t verb, size_t start, size_t end);

/* Inserts count glyphs, which lie in the table from the byte start on, two bytes each, before the glyph at place, or behind
   the last one where place equals used. So it makes what aat_insertion_step hands over.
   Answers: AAT_DONE; AAT_TABLE, AAT_LINE, AAT_PLACE (place above used); AAT_ENDED (start or one of the glyphs is not in the
   table); AAT_FULL (the line would be longer than its room), where it is not AAT_ENDED. All but AAT_DONE change nothing.
   Writes: glyphs and tags, which move together, inserted ones with the tags from used up; used. */
uint32_t aat_insert(const uint8_t *table, size_t table_len, size_t start, uint16_t count, uint16_t *glyphs, size_t glyphs_len,
                    uint16_t *tags, size_t tags_len, const uint16_t *homes, size_t homes_len, size_t *used, size_t place);

/* Stored lines

   A record is the bytes of a line for another box: the mark SLN, then 16-bit big-endian numbers: the version, the length,
   the number of characters, glyph and tag of each place, the homes. So it has 9 + 4 * length + 2 * characters bytes. A line of
   up to 4,096 places has version 1, a longer one version 2, which boxes with an AAT_VERSION below 6 don't know. Each line has one
   record, and what is accepted as a record is stored as the same bytes again. */

/* Stores the line as a record at the buffer's start.
   Answers: AAT_DONE, AAT_LINE (also where the buffer is too small).
   Writes: buffer, as far as the record goes; size, how many bytes that is. */
uint32_t aat_store_line(const uint16_t *glyphs, size_t glyphs_len, const uint16_t *tags, size_t tags_len, const uint16_t *homes,
                        size_t homes_len, size_t used, uint8_t *buffer, size_t buffer_len, size_t *size);

/* Reads the line of a record into the room that is lent; what that holds is not looked at. The record has to be one of a line
   that aat_store_line takes, in the version of its length, with no byte over or missing.
   Answers: AAT_DONE; AAT_TABLE (the record is longer than AAT_LONGEST_TABLE); AAT_RECORD_VERSION (the mark, and a version that is
   neither 1 nor 2, whatever follows); AAT_RECORD (any other bytes); AAT_LINE (glyphs and tags of different room, above AAT_LARGEST_ROOM or
   below the line's length, or fewer homes than characters).
   Writes: glyphs and tags, no further than the line; homes, no further than its characters; used, its length; characters: how
   many of the homes are the line's, which homes_len has to be in the calls that follow. */
uint32_t aat_read_line(const uint8_t *record, size_t record_len, uint16_t *glyphs, size_t glyphs_len, uint16_t *tags,
                       size_t tags_len, uint16_t *homes, size_t homes_len, size_t *used, size_t *characters);

/* Passes: one morx subtable over the whole line

   Answers of every pass: AAT_DONE; AAT_ENDED, with what was done before the subtable broke off; AAT_TABLE, AAT_LINE;
   AAT_HEAD where no subtable of the entry's kind can be read at start. */

/* Rearrangement (kind 0). Writes: glyphs and tags, which move together. */
uint32_t aat_rearrangement_pass(const uint8_t *table, size_t table_len, size_t start, uint16_t *glyphs, size_t glyphs_len,
                                uint16_t *tags, size_t tags_len, const uint16_t *homes, size_t homes_len, size_t used);

/* Contextual substitution (kind 1). Writes: glyphs. */
uint32_t aat_contextual_pass(const uint8_t *table, size_t table_len, size_t start, uint16_t *glyphs, size_t glyphs_len,
                             const uint16_t *tags, size_t tags_len, const uint16_t *homes, size_t homes_len, size_t used);

/* Ligatures (kind 2). Writes: glyphs, where a component's place becomes 0xFFFF; homes, where its characters go to the
   ligature. */
uint32_t aat_ligature_pass(const uint8_t *table, size_t table_len, size_t start, uint16_t *glyphs, size_t glyphs_len,
                           const uint16_t *tags, size_t tags_len, uint16_t *homes, size_t homes_len, size_t used);

/* Non-contextual substitution (kind 4). Writes: glyphs. It is never AAT_ENDED. */
uint32_t aat_noncontextual_pass(const uint8_t *table, size_t table_len, size_t start, uint16_t *glyphs, size_t glyphs_len,
                                const uint16_t *tags, size_t tags_len, const uint16_t *homes, size_t homes_len, size_t used);

/* Insertion (kind 5). AAT_FULL, too: the next insertion would not fit the room, and those before it stay.
   Writes: glyphs and tags, which move together, inserted ones with the tags from used up; used. */
uint32_t aat_insertion_pass(const uint8_t *table, size_t table_len, size_t start, uint16_t *glyphs, size_t glyphs_len,
                            uint16_t *tags, size_t tags_len, const uint16_t *homes, size_t homes_len, size_t *used);

/* The pass of whatever kind the subtable is; AAT_HEAD is for the kinds that are left out, too.
   Writes: what that kind's pass writes. */
uint32_t aat_morx_pass(const uint8_t *table, size_t table_len, size_t start, uint16_t *glyphs, size_t glyphs_len,
                       uint16_t *tags, size_t tags_len, uint16_t *homes, size_t homes_len, size_t *used);

/* A whole morx table */

/* Runs the morx table at start over the line, from right to left where that flag is set: every subtable that its chain's
   default flags choose and that is not for vertical text alone, in order. A subtable that can't be opened is passed over,
   one that breaks off ends alone, and a list ends where its next head can't be read.
   Answers: AAT_DONE, AAT_FULL (an insertion did not fit), AAT_LIMIT (65,535 heads were counted, and there is another), each
   with all that was done before; AAT_TABLE, AAT_LINE, AAT_HEAD (the start is past the table).
   Writes: glyphs, tags, homes, used; heads: how many heads of chains and subtables were read. */
uint32_t aat_morx_run(const uint8_t *table, size_t table_len, size_t start, uint32_t right_to_left, uint16_t *glyphs,
                      size_t glyphs_len, uint16_t *tags, size_t tags_len, uint16_t *homes, size_t homes_len, size_t *used,
                      uint32_t *heads);

/* The same with features that are asked for, each an AAT_FEATURE: a chain begins with its default flags, and its features are
   gone through in the table's order. One that is asked for clears the flags that its last field does not keep, then sets those
   of the field before. The flags at the end choose the chain's subtables. The list ends at the first feature that does not lie
   wholly in the table. Requests that no feature answers do nothing, and so do their order and repetition; features are not
   heads. With no requests it is aat_morx_run.
   Answers: as aat_morx_run; AAT_REQUEST (more than AAT_MOST_REQUESTS), behind AAT_TABLE.
   Writes: as aat_morx_run. */
uint32_t aat_morx_run_with(const uint8_t *table, size_t table_len, size_t start, uint32_t right_to_left,
                           const uint32_t *requests, size_t requests_len, uint16_t *glyphs, size_t glyphs_len, uint16_t *tags,
                           size_t tags_len, uint16_t *homes, size_t homes_len, size_t *used, uint32_t *heads);

/* Reels: many lines by one table

   The lines of a reel lie one behind the other in glyphs, tags and homes, and have one number each in rooms, characters, used,
   answers and heads. A reel of three lines, with rooms of 5, 3 and 4 places, and 3, 2 and 1 characters:

       line           0           1       2
       rooms          5           3       4                      3 of each: rooms_len, characters_len, used_len,
       characters     3           2       1                      answers_len and heads_len
       used           3           2       1
       answers, heads .           .       .
       glyphs, tags   0 1 2 3 4 | 0 1 2 | 0 1 2 3                12 of each: glyphs_len and tags_len
       homes          0 1 2     | 0 1   | 0                      6: homes_len

   Each line is run as by a call of its own on its part of the slices, with the same table, start, direction and requests; a
   line's neighbours make no difference to it. A line that is refused keeps all that was lent for it, the number for its heads,
   too. No answer of a line stops the rest, and heads are counted afresh for each.
   A line's answer is written to answers: as aat_morx_run_with, AAT_TABLE and AAT_REQUEST, too.
   Answers: AAT_DONE, whatever the lines' answers are, and with no lines at all; AAT_REEL, before every other test: more than
   AAT_MOST_LINES lines, numbers for lines of different length, rooms that do not add up to glyphs_len or to tags_len, or
   characters that do not add up to homes_len, where no sum is cut to 64 bits.
   Writes: used, answers, heads, glyphs, tags, homes. */

/* By the morx table at start. */
uint32_t aat_morx_reel(const uint8_t *table, size_t table_len, size_t start, uint32_t right_to_left, const uint32_t *requests,
                       size_t requests_len, const size_t *rooms, size_t rooms_len, const size_t *characters,
                       size_t characters_len, size_t *used, size_t used_len, uint32_t *answers, size_t answers_len,
                       uint32_t *heads, size_t heads_len, uint16_t *glyphs, size_t glyphs_len, uint16_t *tags, size_t tags_len,
                       uint16_t *homes, size_t homes_len);

/* By the mort table at start. */
uint32_t aat_mort_reel(const uint8_t *table, size_t table_len, size_t start, uint32_t right_to_left, const uint32_t *requests,
                       size_t requests_len, const size_t *rooms, size_t rooms_len, const size_t *characters,
                       size_t characters_len, size_t *used, size_t used_len, uint32_t *answers, size_t answers_len,
                       uint32_t *heads, size_t heads_len, uint16_t *glyphs, size_t glyphs_len, uint16_t *tags, size_t tags_len,
                       uint16_t *homes, size_t homes_len);

/* The lists of a morx table: its chains, and each chain's features and subtables

   A cursor is the byte of the table where its list's next element begins, and how many elements the list's count still
   gives; any two numbers may be lent as one. Where there is a next element, the entry leaves the cursor behind it, and its
   fields, the first of them 1. At the end of the list, where the count is used up or the element's head does not lie in the
   table, the answer is AAT_DONE, too, the fields are 0 each, and the cursor stays as it was. The other answer is AAT_TABLE. */

/* The cursor at the chains of the morx table at start. AAT_HEAD, too: the start is past the table. Writes: cursor. */
uint32_t aat_morx_chains(const uint8_t *table, size_t table_len, size_t start, uint64_t cursor[AAT_CURSOR]);

/* The next chain. Writes: cursor; fields: 1, the default flags, the cursor at its features, the cursor at its subtables. */
uint32_t aat_morx_next_chain(const uint8_t *table, size_t table_len, uint64_t cursor[AAT_CURSOR],
                             uint64_t fields[AAT_CHAIN_FIELDS]);

/* The next feature. Writes: cursor; fields: 1, the type, the setting, the flags that it enables, those that it does not
   disable. */
uint32_t aat_morx_next_feature(const uint8_t *table, size_t table_len, uint64_t cursor[AAT_CURSOR],
                               uint64_t fields[AAT_FEATURE_FIELDS]);

/* The next subtable. Writes: cursor; fields: 1, the byte where its head begins, which is the start for the passes, the
   coverage, the flags, the kind, and the order as aat_morx_order gives it. */
uint32_t aat_morx_next_subtable(const uint8_t *table, size_t table_len, uint64_t cursor[AAT_CURSOR],
                                uint64_t fields[AAT_SUBTABLE_FIELDS]);

/* The order in which a subtable of this morx coverage wants the glyphs; a mort coverage has other bits. It is always AAT_DONE.
   Writes: order: 0 layout, 1 reverse layout, 2 logical, 3 reverse logical. */
uint32_t aat_morx_order(uint32_t coverage, uint32_t *order);

/* Whether a line is turned for a subtable of this morx coverage. It is always AAT_DONE. Writes: reversed: 1 or 0. */
uint32_t aat_morx_should_reverse(uint32_t coverage, uint32_t right_to_left, uint32_t *reversed);

/* mort, the earlier edition of morx

   A chain's counts of features and subtables have 16 bits each, a subtable has a head of 8 bytes: length and coverage, of 16
   bits each, and flags. Of the coverage 0x8000 is for vertical text alone, unless 0x2000 is set, 0x4000 is descending order,
   and the low three bits are the kind; the others are not looked at. Two kinds are taken: rearrangement (0), over the classic
   state table, and non-contextual substitution (4), by a lookup whose format 10 obeys its unit size. The cursor at the chains
   is aat_morx_chains', and features are aat_morx_next_feature's. */

/* The pass of whichever of the two kinds the subtable is. A state table that can't be opened, class count 0, a new state below
   the state array and every other read that fails in the state table are AAT_ENDED; AAT_HEAD is for a head that is cut short,
   a kind that is not taken and a start past the table.
   Answers: AAT_DONE; AAT_ENDED, with what was done before; AAT_TABLE, AAT_LINE, AAT_HEAD.
   Writes: glyphs; tags, which move with them in rearrangement. homes and used stay as they are. */
uint32_t aat_mort_pass(const uint8_t *table, size_t table_len, size_t start, uint16_t *glyphs, size_t glyphs_len,
                       uint16_t *tags, size_t tags_len, uint16_t *homes, size_t homes_len, size_t *used);

/* Runs the mort table at start over the line, with features that are asked for, as aat_morx_run_with runs a morx table. The
   kinds that are not taken are passed over, and their heads are counted.
   Answers and writes: as aat_morx_run_with, but that it is never AAT_FULL, and homes and used stay as they are. */
uint32_t aat_mort_run(const uint8_t *table, size_t table_len, size_t start, uint32_t right_to_left, const uint32_t *requests,
                      size_t requests_len, uint16_t *glyphs, size_t glyphs_len, uint16_t *tags, size_t tags_len,
                      uint16_t *homes, size_t homes_len, size_t *used, uint32_t *heads);

/* The next chain and the next subtable, as those of a morx table; a subtable's kind is that of three bits, and its order layout
   or reverse layout. */
uint32_t aat_mort_next_chain(const uint8_t *table, size_t table_len, uint64_t cursor[AAT_CURSOR],
                             uint64_t fields[AAT_CHAIN_FIELDS]);
uint32_t aat_mort_next_subtable(const uint8_t *table, size_t table_len, uint64_t cursor[AAT_CURSOR],
                                uint64_t fields[AAT_SUBTABLE_FIELDS]);

/* Kerning

   It leaves the line as it is and adds to the adjustments, along, one for each place of the room; along_len is the room, or
   it is AAT_LINE. version is that of the list that the subtable stands in, the last number of the list's cursor. A version 0
   of kern is its old edition. */

/* What the kern or kerx subtable at start adds between two glyphs.
   Answers: AAT_DONE, AAT_NOTHING (no number for them), AAT_TABLE, AAT_HEAD (no subtable can be read, or its format has no
   pairs).
   Writes: value. */
uint32_t aat_kern_pair(const uint8_t *table, size_t table_len, size_t start, uint16_t version, uint16_t left, uint16_t right,
                       int32_t *value);
uint32_t aat_kerx_pair(const uint8_t *table, size_t table_len, size_t start, uint16_t version, uint16_t left, uint16_t right,
                       int32_t *value);

/* The same, and why there is no number.
   Answers and value: as with aat_kern_pair and aat_kerx_pair.
   Writes: value with AAT_DONE; why, an enum aat_why, with AAT_NOTHING. A search that ends without the pair is
   AAT_NOT_COVERED. Of class pairs (kerx format 2) the left glyph's lookup speaks first, then the right one's, then the
   number's read. */
uint32_t aat_kern_pair_why(const uint8_t *table, size_t table_len, size_t start, uint16_t version, uint16_t left, uint16_t right,
                           int32_t *value, uint32_t *why);
uint32_t aat_kerx_pair_why(const uint8_t *table, size_t table_len, size_t start, uint16_t version, uint16_t left, uint16_t right,
                           int32_t *value, uint32_t *why);

/* Adds what the kern or kerx subtable at start says of the line.
   Answers: AAT_DONE; AAT_ENDED, with what was added before the subtable broke off; AAT_TABLE; AAT_LINE, also for an
   adjustment beyond 2^40 in size; AAT_HEAD, also for the formats that are left out.
   Writes: along, below used. */
uint32_t aat_kern_pass(const uint8_t *table, size_t table_len, size_t start, uint16_t version, const uint16_t *glyphs,
                       size_t glyphs_len, const uint16_t *tags, size_t tags_len, const uint16_t *homes, size_t homes_len,
                       size_t used, int64_t *along, size_t along_len);
uint32_t aat_kerx_pass(const uint8_t *table, size_t table_len, size_t start, uint16_t version, const uint16_t *glyphs,
                       size_t glyphs_len, const uint16_t *tags, size_t tags_len, const uint16_t *homes, size_t homes_len,
                       size_t used, int64_t *along, size_t along_len);

/* Runs the kern table at start over the line; start 0 is no table. The adjustments of the line are set to 0 first. Vertical
   and cross-stream subtables are passed over.
   Answers: AAT_DONE, AAT_LIMIT (as with aat_morx_run), AAT_TABLE, AAT_LINE, AAT_HEAD (the start is past the table).
   Writes: along, below used; heads: how many heads of subtables were read. */
uint32_t aat_kern_run(const uint8_t *table, size_t table_len, size_t start, const uint16_t *glyphs, size_t glyphs_len,
                      const uint16_t *tags, size_t tags_len, const uint16_t *homes, size_t homes_len, size_t used,
                      int64_t *along, size_t along_len, uint32_t *heads);

/* The same by the kerx table, from right to left where that flag is set; subtables with variations are passed over, too.
   Glyphs and tags are turned for some subtables, and turned back: they are as they were. */
uint32_t aat_kerx_run(const uint8_t *table, size_t table_len, size_t start, uint32_t right_to_left, uint16_t *glyphs,
                      size_t glyphs_len, uint16_t *tags, size_t tags_len, const uint16_t *homes, size_t homes_len, size_t used,
                      int64_t *along, size_t along_len, uint32_t *heads);

/* What may be chosen for a pass or a run of kern or kerx: choices is a sum of these bits, and 0 chooses nothing. Bits without
   a name are not looked at. */
enum aat_choices {
    AAT_JOINED_PAIRS = 1, /* pairs (kern 0, kerx 0 and 2) are two glyphs below 0xFFFF with only 0xFFFF between them; else they
                             are neighbours, whatever their glyphs. The number goes to the first of the two, in the order of
                             work either way: in a line that is turned for a subtable, the first of the turned line */
    AAT_MANUAL_LISTS = 2, /* kerx is read as the manual has it: number k of a format 1 list lies at the value table's place plus
                             twice the index plus 2k, counted from the state table's start, and 0xFFFF ends the list, popping
                             nothing; format 10 of every lookup has elements of one byte at unit size 1, of two at 2, and none
                             at any other; a subtable whose tuple count, read from version 4 on, is not 0 is passed over by a
                             run and AAT_TUPLES of a pass or step, where it is not AAT_HEAD. kern does not look at this bit */
};

/* The passes and runs above by choices; with choices 0 they are those. Answers and writes: the same, and AAT_TUPLES of
   aat_kerx_pass_by.
   Two kerx tables with the same version and the same subtables of formats 0, 1 and 2, in any two orders, leave the same along
   after a run, whatever the choices and the direction, and where subtables break off, too. That holds where neither run is
   refused, there are AAT_MOST_HEADS subtables at most, each lies wholly in the table, and every byte that is read or tried for it
   lies inside the size that it states. */
uint32_t aat_kern_pass_by(const uint8_t *table, size_t table_len, size_t start, uint16_t version, const uint16_t *glyphs,
                          size_t glyphs_len, const uint16_t *tags, size_t tags_len, const uint16_t *homes, size_t homes_len,
                          size_t used, int64_t *along, size_t along_len, uint32_t choices);
uint32_t aat_kerx_pass_by(const uint8_t *table, size_t table_len, size_t start, uint16_t version, const uint16_t *glyphs,
                          size_t glyphs_len, const uint16_t *tags, size_t tags_len, const uint16_t *homes, size_t homes_len,
                          size_t used, int64_t *along, size_t along_len, uint32_t choices);
uint32_t aat_kern_run_by(const uint8_t *table, size_t table_len, size_t start, const uint16_t *glyphs, size_t glyphs_len,
                         const uint16_t *tags, size_t tags_len, const uint16_t *homes, size_t homes_len, size_t used,
                         int64_t *along, size_t along_len, uint32_t *heads, uint32_t choices);
uint32_t aat_kerx_run_by(const uint8_t *table, size_t table_len, size_t start, uint32_t right_to_left, uint16_t *glyphs,
                         size_t glyphs_len, uint16_t *tags, size_t tags_len, const uint16_t *homes, size_t homes_len,
                         size_t used, int64_t *along, size_t along_len, uint32_t *heads, uint32_t choices);

/* The pass and the run of kerx by choices, with marks that an ankr table anchors: format 4, action type 1, besides formats 0, 1
   and 2. The other entries leave format 4 out. ankr is a table of its own, from its start on; ankr_len 0 is no ankr table.
   The adjustment of a place is four numbers, each in a slice as long as the room: along; x and y, the marked glyph's anchor
   point less the current glyph's, from -65,535 to 65,535; and back, how many places back, in the order of work, the marked one
   is, which is 0 for none, and for a mark on the glyph itself. Where several are written the last stands; a distance of 255 and
   more, and a point that is not there, write nothing. Format 4 writes x, y and back, and leaves along; the other formats leave
   these three. In the manual's reading format 10 of the ankr table's lookup goes by its unit size, too.
   Answers: those of aat_kerx_pass_by, where format 4 is not AAT_HEAD, and of aat_kerx_run_by; AAT_ANCHOR, behind AAT_TABLE;
   AAT_LINE also where x_len, y_len or back_len is not glyphs_len.
   Writes: along, x, y and back, below used; a run sets them to 0 first, and turns them with the line, where a distance stays
   what it is; heads. A run's along and heads are those of aat_kerx_run_by, whatever ankr holds. */
uint32_t aat_kerx_pass_anchored(const uint8_t *table, size_t table_len, size_t start, uint16_t version, uint32_t choices,
                                const uint8_t *ankr, size_t ankr_len, const uint16_t *glyphs, size_t glyphs_len,
                                const uint16_t *tags, size_t tags_len, const uint16_t *homes, size_t homes_len, size_t used,
                                int64_t *along, size_t along_len, int32_t *x, size_t x_len, int32_t *y, size_t y_len,
                                uint16_t *back, size_t back_len);
uint32_t aat_kerx_run_anchored(const uint8_t *table, size_t table_len, size_t start, uint32_t right_to_left, uint32_t choices,
                               const uint8_t *ankr, size_t ankr_len, uint16_t *glyphs, size_t glyphs_len, uint16_t *tags,
                               size_t tags_len, const uint16_t *homes, size_t homes_len, size_t used, int64_t *along,
                               size_t along_len, int32_t *x, size_t x_len, int32_t *y, size_t y_len, uint16_t *back,
                               size_t back_len, uint32_t *heads);

/* A report on kerned lines

   How far kerning moved the glyphs of up to AAT_MOST_REPORTED lines. The lines are lent as a reel's, one behind the other in
   glyphs, tags and homes, with one number each in rooms, characters and used. Their adjustments lie one behind the other in along,
   one for each place of a room, as the runs above leave them. For each line the report tells the sum of its used adjustments, the
   largest and the smallest of them, 0 each for an empty line; and in totals the sum of all sums, the largest and the smallest of
   all used adjustments, among which an empty line has none. What is behind used does not count; a dot stands for it here:

       line           0               1       2
       rooms          5               3       4                  3 of each: rooms_len, characters_len, used_len,
       characters     3               0       2                  sums_len, largest_len and smallest_len
       used           3               0       2
       glyphs, tags   0  1  2   3 4 | 0 1 2 |  0  1 2 3          12 of each: glyphs_len, tags_len and along_len
       homes          0  1  2       |       |  0  1              5: homes_len
       along        -12 -1 -5   . . | . . . | -3 -7 . .
       sums         -18               0       -10                totals  -28
       largest       -1               0        -3                         -1
       smallest     -12               0        -7                        -12

   Answers: AAT_DONE, also with no lines at all, where the totals are 0 each.
   AAT_REEL, before AAT_LINE: more than AAT_MOST_REPORTED lines; six lengths that are not the same, those of rooms, characters,
   used, sums, largest and smallest; rooms that do not add up to glyphs_len, to tags_len or to along_len, or characters that do not
   add up to homes_len, where no sum is cut to 64 bits.
   AAT_LINE as for a pass, for any of the lines: what is lent for it is no line, or an adjustment anywhere in its room, behind used,
   too, is beyond 2^40 in size. So set along to 0 before the runs, which leave what is behind used. A run's own sums may be larger
   than 2^40: then the report is AAT_LINE.
   Writes: sums, largest, smallest and totals, with AAT_DONE alone. All are exact, since 255 x 32,768 x 2^40 is below 2^63. */
uint32_t aat_kerning_report(const size_t *rooms, size_t rooms_len, const size_t *characters, size_t characters_len,
                            const size_t *used, size_t used_len, const uint16_t *glyphs, size_t glyphs_len,
                            const uint16_t *tags, size_t tags_len, const uint16_t *homes, size_t homes_len,
                            const int64_t *along, size_t along_len, int64_t *sums, size_t sums_len, int64_t *largest,
                            size_t largest_len, int64_t *smallest, size_t smallest_len, int64_t totals[AAT_TOTALS]);

/* Classes by an index

   Most of a pass goes to the search of each glyph's class. Whoever shapes by the same subtable again and again keeps an index:
   a class for each glyph from 0 up to its length, of all glyphs of the font or of those that are frequent.
   - Fill it once: start is the state table's, 12 bytes behind that of its morx or kerx subtable, whatever the version, and choices
     are those of the passes to come, 0 for morx. class_start is where the class table begins in table.
   - Lend both to the passes by that subtable, as found by the cursors: what each does is then what the pass without an index
     does, only sooner. Glyphs above the index are searched for as before, and 0xFFFF has its own class 2 in any case.
   - An index that holds other numbers, or those of another font, is no fault: the pass goes by them, and ends.
   - Runs take none, since they go by many class tables; kern's classes are an array already.
   Answers of aat_index_classes: AAT_DONE, AAT_TABLE, AAT_HEAD, AAT_INDEX. Writes: index, *class_start.
   Those of the passes: as without an index (aat_morx_pass, aat_kerx_pass_anchored), and AAT_INDEX behind all other refusals, for
   an index_len above AAT_MOST_ENTRIES, a class_start that is not that of the subtable's class table, and a subtable that has none:
   non-contextual substitution, and pairs. */
uint32_t aat_index_classes(const uint8_t *table, size_t table_len, size_t start, uint32_t choices, uint16_t *index,
                           size_t index_len, size_t *class_start);
uint32_t aat_morx_pass_indexed(const uint8_t *table, size_t table_len, size_t start, uint16_t *glyphs, size_t glyphs_len,
                               uint16_t *tags, size_t tags_len, uint16_t *homes, size_t homes_len, size_t *used,
                               const uint16_t *index, size_t index_len, size_t class_start);
uint32_t aat_kerx_pass_indexed(const uint8_t *table, size_t table_len, size_t start, uint16_t version, uint32_t choices,
                               const uint8_t *ankr, size_t ankr_len, const uint16_t *glyphs, size_t glyphs_len,
                               const uint16_t *tags, size_t tags_len, const uint16_t *homes, size_t homes_len, size_t used,
                               int64_t *along, size_t along_len, int32_t *x, size_t x_len, int32_t *y, size_t y_len,
                               uint16_t *back, size_t back_len, const uint16_t *index, size_t index_len, size_t class_start);

/* The list of a kern or kerx table's subtables

   A cursor is the byte of the table where the list's next subtable begins, how many subtables its count still gives, and its
   version; any three numbers may be lent as one, and a version above 65,535 counts as 65,535. Otherwise it goes as with the
   lists of a morx table: a subtable's fields begin with 1, and at the end of the list, where the count is used up or the
   head can't be read, the answer is AAT_DONE, the fields are 0 each, and the cursor stays as it was. The other answer is
   AAT_TABLE. */

/* The cursor at the subtables of the kern or kerx table at start; start 0 is no table, and has none. AAT_HEAD, too: the start
   is past the table. Writes: cursor. */
uint32_t aat_kern_subtables(const uint8_t *table, size_t table_len, size_t start, uint64_t cursor[AAT_KERN_CURSOR]);
uint32_t aat_kerx_subtables(const uint8_t *table, size_t table_len, size_t start, uint64_t cursor[AAT_KERN_CURSOR]);

/* The next subtable. Writes: cursor; fields: 1, the byte where its head begins, which is the start for pairs, passes and
   steps, the format, whether a run passes over it, and whether a run from left to right turns the line for it, 1 or 0 each.
   In kerx a run from right to left turns the line where that is 0; in kern no run does, and it is 0. */
uint32_t aat_kern_next_subtable(const uint8_t *table, size_t table_len, uint64_t cursor[AAT_KERN_CURSOR],
                                uint64_t fields[AAT_KERN_FIELDS]);
uint32_t aat_kerx_next_subtable(const uint8_t *table, size_t table_len, uint64_t cursor[AAT_KERN_CURSOR],
                                uint64_t fields[AAT_KERN_FIELDS]);

/* Single steps of the machines

   A step is what a pass does at one place: index and glyph are those of the place, and ends is set at end of text, where a
   pass gives used and glyph 0xFFFF. state holds the machine's own numbers, in the order named; all are 0 at the start
   of a pass.
   Answers of every step: AAT_DONE; AAT_ENDED, with what was done before the step broke off; AAT_TABLE, AAT_LINE; AAT_PLACE
   (index above used); AAT_STATE (no state that the machine can have on this line); AAT_HEAD.
   Writes of every step: state; advance, how many places to go on, which is 0 with AAT_ENDED and AAT_FULL. */

/* Rearrangement, on a line of used places. state: the state table's, the first and the last mark, and the steps in a row
   that did not advance. Writes, too: window, what aat_verb is to be called with: first and last place, and verb; 0 each
   where there is no edit. */
uint32_t aat_rearrangement_step(uint64_t state[AAT_REARRANGEMENT_STATE], const uint8_t *table, size_t table_len, size_t start,
                                size_t used, size_t index, uint16_t glyph, uint32_t ends, size_t *advance,
                                uint64_t window[AAT_WINDOW]);

/* Contextual substitution. state: the state table's, whether a mark is set (1 or 0), its place, and the glyph remembered
   for it.
   Writes, too: glyphs. */
uint32_t aat_contextual_step(uint64_t state[AAT_CONTEXTUAL_STATE], const uint8_t *table, size_t table_len, size_t start,
                             uint16_t *glyphs, size_t glyphs_len, const uint16_t *tags, size_t tags_len, const uint16_t *homes,
                             size_t homes_len, size_t used, size_t index, uint16_t glyph, uint32_t ends, size_t *advance);

/* Ligatures. state: the state table's, how many slots of the stack are used, 32 places and 32 glyphs. Writes, too: glyphs,
   homes. */
uint32_t aat_ligature_step(uint64_t state[AAT_LIGATURE_STATE], const uint8_t *table, size_t table_len, size_t start,
                           uint16_t *glyphs, size_t glyphs_len, const uint16_t *tags, size_t tags_len, uint16_t *homes, size_t homes_len,
                           size_t used, size_t index, uint16_t glyph, uint32_t ends, size_t *advance);

/* Insertion, on a line of used places in a room of room. AAT_FULL, too. state: the state table's, the mark, and the steps
   in a row that did not advance. Writes, too: edits, what aat_insert is to be called with: how many times (0, 1 or 2), then
   each time the place, how many glyphs, and the byte of the table where they begin; the rest of it is 0. */
uint32_t aat_insertion_step(uint64_t state[AAT_INSERTION_STATE], const uint8_t *table, size_t table_len, size_t start,
                            size_t used, size_t room, size_t index, uint16_t glyph, uint32_t ends, size_t *advance,
                            uint64_t edits[AAT_EDITS]);

/* Kerning by format 1 of kern or kerx, on a line of used places; it has no end of text. AAT_LINE is for an along_len above
   AAT_LARGEST_ROOM or below used, and for an adjustment beyond 2^40 in size, and AAT_HEAD for every format but 1. state: the
   state table's, how many slots of the stack are used, the steps in a row that did not advance, and 8 places. Writes, too:
   along. */
uint32_t aat_kern_step(uint64_t state[AAT_KERNING_STATE], const uint8_t *table, size_t table_len, size_t start, uint16_t version,
                       size_t used, size_t index, uint16_t glyph, int64_t *along, size_t along_len, size_t *advance);
uint32_t aat_kerx_step(uint64_t state[AAT_KERNING_STATE], const uint8_t *table, size_t table_len, size_t start, uint16_t version,
                       size_t used, size_t index, uint16_t glyph, int64_t *along, size_t along_len, size_t *advance);

/* The same by choices (enum aat_choices), of which a step looks at AAT_MANUAL_LISTS; with choices 0 it is aat_kerx_step. The
   other answer is AAT_TUPLES. */
uint32_t aat_kerx_step_by(uint64_t state[AAT_KERNING_STATE], const uint8_t *table, size_t table_len, size_t start,
                          uint16_t version, size_t used, size_t index, uint16_t glyph, int64_t *along, size_t along_len,
                          size_t *advance, uint32_t choices);

/* Anchored marks by format 4 of kerx, by choices, of which a step looks at AAT_MANUAL_LISTS; it has no end of text. Other
   answers: AAT_ANCHOR, behind AAT_TABLE; AAT_TUPLES. AAT_LINE is as with aat_kerx_step, and for an x_len, y_len or back_len
   other than along_len; AAT_STATE is for a marked place above index, and for more than 17 steps that did not advance; AAT_HEAD is
   for every format but 4. state: the state table's, the marked place, its glyph, and the steps in a row that did not advance.
   Writes, too: x, y and back at index; where index is used nothing, though state and mark move. along stays as it was. */
uint32_t aat_anchor_step(uint64_t state[AAT_ANCHOR_STATE], const uint8_t *table, size_t table_len, size_t start,
                         uint16_t version, uint32_t choices, const uint8_t *ankr, size_t ankr_len, size_t used, size_t index,
                         uint16_t glyph, int64_t *along, size_t along_len, int32_t *x, size_t x_len, int32_t *y, size_t y_len,
                         uint16_t *back, size_t back_len, size_t *advance);

#ifdef __cplusplus
}
#endif

#endif
