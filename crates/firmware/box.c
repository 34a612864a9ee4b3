/* The box: answers calls on standard input by the static library's entries, on standard output.

   A call is its number in one byte, then its arguments. A reply is the entry's answer, then every lent number and every part
   of a line as the call left it. All numbers are little-endian; their sizes in bytes:

       0 table                 length 4, the bytes               no reply: the calls that follow are about this table
       1 lookup                start 8, glyph 2, value 4         answer 4, value 4
       2 survey                start 8, verdict 4, record 4      answer 4, verdict 4, record 4
       3 class_extended        start 8, glyph 2, value 4         answer 4, value 4
       4 class_classic         start 8, glyph 2, value 4         answer 4, value 4
       5 language_index        start 8, name, value 4            answer 4, value 4
       6 fresh                 glyphs, tags, homes, used 8       answer 4, glyphs, tags, homes, used 8
       7 verb                  glyphs, tags, homes, used 8,      answer 4, glyphs, tags, homes
                               verb 2, start 8, end 8
       8 rearrangement_pass    glyphs, tags, homes, used 8,      answer 4, glyphs, tags, homes
                               start 8
       9 noncontextual_pass    as 8                              as 8
      10 contextual_pass       as 8                              as 8
      11 ligature_pass         as 8                              as 8
      12 insertion_pass        as 8                              answer 4, glyphs, tags, homes, used 8
      13 morx_pass             as 8                              as 12
      14 morx_run              as 8, then direction 4, heads 4   answer 4, glyphs, tags, homes, heads 4, used 8
      15 rearrangement_step    state 4 x 8, length 8, start 8,   answer 4, state, advance 8, window
                               index 8, glyph 2, ends 4,
                               advance 8, window 3 x 8
      16 contextual_step       state 4 x 8, glyphs, tags,        answer 4, glyphs, tags, homes, state, advance 8
                               homes, used 8, start 8,
                               index 8, glyph 2, ends 4,
                               advance 8
      17 ligature_step         as 16, state 66 x 8               as 16
      18 insertion_step        state 3 x 8, length 8, room 8,    answer 4, state, advance 8, edits
                               start 8, index 8, glyph 2,
                               ends 4, advance 8, edits 7 x 8
      19 kern_pair             start 8, version 2, left 2,       answer 4, value 4
                               right 2, value 4
      20 kerx_pair             as 19                             as 19
      21 kern_pass             as 8, then along, version 2       answer 4, glyphs, tags, homes, along
      22 kerx_pass             as 21                             as 21
      23 kern_run              as 8, then along, heads 4         answer 4, glyphs, tags, homes, along, heads 4
      24 kerx_run              as 23, then direction 4           as 23
      25 kern_step             state 11 x 8, along, length 8,    answer 4, along, state, advance 8
                               version 2, start 8, index 8,
                               glyph 2, advance 8
      26 kerx_step             as 25                             as 25
      27 morx_chains           start 8, cursor 2 x 8             answer 4, cursor
      28 morx_next_chain       cursor 2 x 8, fields 6 x 8        answer 4, cursor, fields
      29 morx_next_feature     cursor 2 x 8, fields 5 x 8        as 28
      30 morx_next_subtable    as 28                             as 28
      31 morx_order            coverage 4, order 4               answer 4, order 4
      32 morx_should_reverse   coverage 4, direction 4,          answer 4, turned 4
                               turned 4
      33 kern_subtables        start 8, cursor 3 x 8             answer 4, cursor
      34 kerx_subtables        as 33                             as 33
      35 kern_next_subtable    cursor 3 x 8, fields 5 x 8        answer 4, cursor, fields
      36 kerx_next_subtable    as 35                             as 35
      37 insert                as 8, then count 2, place 8       as 12
      38 lookup_why            as 1, then why 4                  answer 4, value 4, why 4
      39 kern_pair_why         as 19, then why 4                 answer 4, value 4, why 4
      40 kerx_pair_why         as 39                             as 39
      41 kern_pass_by          as 21, then choices 4             as 21
      42 kerx_pass_by          as 41                             as 21
      43 kern_run_by           as 23, then choices 4             as 23
      44 kerx_run_by           as 24, then choices 4             as 23
      45 mend                  start 8, buffer, size 8, numbers  answer 4, size 8, buffer, numbers
      46 store_line            glyphs, tags, homes, used 8,      answer 4, glyphs, tags, homes, size 8, buffer
                               buffer, size 8
      47 read_line             glyphs, tags, homes, used 8,      answer 4, glyphs, tags, homes, used 8, characters 8
                               characters 8
      48 morx_run_with         as 14, then requests              as 14
      49 kerx_step_by          as 26, then choices 4             as 25
      50 kerx_pass_anchored    as 8, then along, ankr, x, y,     answer 4, glyphs, tags, homes, along, x, y, back
                               back, version 2, choices 4
      51 kerx_run_anchored     as 8, then along, ankr, x, y,     as 50, then heads 4
                               back, heads 4, direction 4,
                               choices 4
      52 anchor_step           state 4 x 8, along, ankr, x, y,   answer 4, along, x, y, back, state, advance 8
                               back, length 8, version 2,
                               start 8, index 8, glyph 2,
                               advance 8, choices 4
      53 mort_run              as 48                             as 14
      54 mort_pass             as 8                              as 12
      55 mort_next_chain       as 28                             as 28
      56 mort_next_subtable    as 28                             as 28
      57 morx_reel             start 8, direction 4, requests,   answer 4, used, answers, heads, glyphs, tags, homes
                               rooms, characters, used,
                               answers, heads, glyphs, tags,
                               homes, of all lines
      58 mort_reel             as 57                             as 57
      59 index_classes         start 8, choices 4, length 4,     answer 4, index, class start 8
                               number 2, class start 8
      60 morx_pass_indexed     as 8, then index, class start 8   answer 4, glyphs, tags, homes, sum 8, used 8
      61 kerx_pass_indexed     as 50, then index, class start 8  as 50, then sum 8
      62 kerning_report        rooms, characters, used, glyphs,  answer 4, sums, largest, smallest, totals
                               tags, homes, along, of all
                               lines, sums, largest, smallest,
                               totals 3 x 8

   A name or a buffer is its length 4 and the bytes. Glyphs, tags, homes and new numbers of records are each a count 4 and so many
   numbers 2, and so are distances back; the adjustments along the line are a count 4 and so many numbers 8, x and y each a count
   4 and so many numbers 4; a reply has the bytes or numbers alone. Requests are a count 4 and so many numbers 4. An ankr table is
   its length 4, then a count 4 and so many bytes, which it begins with; the others are 0. Of a reel, rooms, characters and used
   are each a count 4 and so many numbers 8, answers and heads a count 4 and so many numbers 4; of a report, along, sums, largest and
   smallest are as the adjustments. An index of classes is its length 4,
   then a count 4 and so many numbers 2, which it begins with; the others are 0. One that is to be filled holds the number told in
   each entry, and in a reply it is its first 64 numbers 2, and a sum 8 of all. The record that is read is the table.

   Replies are sent when the input runs dry. Exit status 0 when it ends between calls, 1 for anything out of this form. */

#define AAT_OWN_TYPES
#include "aat.h"

long read(int file, void *to, size_t length);
long write(int file, const void *from, size_t length);
_Noreturn void exit(int status);

/* Longer than the longest table, so that the refusal can be asked for. */
static uint8_t table[AAT_LONGEST_TABLE + 4096];
static size_t table_len;

/* Longer than a tag of ltag can be. */
static uint8_t name[65536 + 64];

/* Glyphs, tags or homes: longer than a line, so that the refusal can be asked for. */
struct slice {
    uint16_t numbers[AAT_LARGEST_ROOM + 64];
    size_t len;
};

static struct slice glyphs, tags, homes;
static size_t used;

/* The adjustments along a line, as many as a slice has numbers. */
static int64_t along[AAT_LARGEST_ROOM + 64];
static size_t along_len;

/* What is lent for anchored marks, and an ankr table longer than is taken. */
static int32_t x[AAT_LARGEST_ROOM + 64], y[AAT_LARGEST_ROOM + 64];
static size_t x_len, y_len;
static struct slice back;
static uint8_t ankr[AAT_LONGEST_TABLE + 4096];
static size_t ankr_len, ankr_told; /* all bytes behind those told are 0 */

/* An index of classes: more entries than are taken. */
static uint16_t classes[65536 + 64];
static size_t classes_len, class_start;

/* Bytes that an entry may write: longer than a table, so that it can be seen that no length is refused. */
static uint8_t buffer[AAT_LONGEST_TABLE + 4096];
static size_t buffer_len, size;

/* The new numbers of a lookup's records: more than there can be. */
static uint16_t numbers[65536 + 64];

/* More requests than are taken, so that the refusal can be asked for. */
static uint32_t requests[1024];

/* The lines of a reel: more than are taken, so that the refusal can be asked for. */
struct reel {
    size_t rooms[512], characters[512], used[512];
    uint32_t answers[512], heads[512];
    size_t rooms_len, characters_len, used_len, answers_len, heads_len;
};

static struct reel reel;

/* Their glyphs, tags or homes: more than the largest reel has. */
struct reel_slice {
    uint16_t numbers[(AAT_MOST_LINES + 1) * AAT_LARGEST_ROOM];
    size_t len;
};

static struct reel_slice reel_glyphs, reel_tags, reel_homes;

/* A step's state, what it is told, and what it hands over. */
static uint64_t state[AAT_LIGATURE_STATE], edits[AAT_EDITS];
static size_t start, index, advance;
static uint16_t glyph, version;
static uint32_t ends;

/* Where a list goes on, and what its next element has. */
static uint64_t cursor[AAT_KERN_CURSOR], fields[AAT_CHAIN_FIELDS];

static uint8_t input[65536], output[65536];
static size_t input_len, input_at, output_len;

static void send(void) {
    size_t sent = 0;
    while (sent < output_len) {
        long more = write(1, output + sent, output_len - sent);
        if (more <= 0) exit(1);
        sent += (size_t)more;
    }
    output_len = 0;
}

static int input_is_left(void) {
    if (input_at < input_len) return 1;
    send();
    long more = read(0, input, sizeof input);
    if (more < 0) exit(1);
    input_at = 0;
    input_len = (size_t)more;
    return more != 0;
}

static uint8_t take_byte(void) {
    if (!input_is_left()) exit(1);
    return input[input_at++];
}

static uint64_t take(int bytes) {
    uint64_t number = 0;
    for (int i = 0; i < bytes; i++) number |= (uint64_t)take_byte() << (8 * i);
    return number;
}

static void put(uint64_t number, int bytes) {
    for (int i = 0; i < bytes; i++) {
        if (output_len == sizeof output) send();
        output[output_len++] = (uint8_t)(number >> (8 * i));
    }
}

static size_t take_bytes(uint8_t *bytes, size_t most) {
    size_t len = take(4);
    if (len > most) exit(1);
    for (size_t i = 0; i < len; i++) bytes[i] = take_byte();
    return len;
}

static size_t take_words(uint32_t *words, size_t most) {
    size_t len = take(4);
    if (len > most) exit(1);
    for (size_t i = 0; i < len; i++) words[i] = (uint32_t)take(4);
    return len;
}

static void put_words(const uint32_t *words, size_t len) {
    for (size_t i = 0; i < len; i++) put(words[i], 4);
}

static void take_slice(struct slice *slice) {
    slice->len = take(4);
    if (slice->len > sizeof slice->numbers / sizeof slice->numbers[0]) exit(1);
    for (size_t i = 0; i < slice->len; i++) slice->numbers[i] = (uint16_t)take(2);
}

static void put_slice(const struct slice *slice) {
    for (size_t i = 0; i < slice->len; i++) put(slice->numbers[i], 2);
}

static size_t take_signed(int64_t *to, size_t most) {
    size_t len = take(4);
    if (len > most) exit(1);
    for (size_t i = 0; i < len; i++) to[i] = (int64_t)take(8);
    return len;
}

static void put_signed(const int64_t *from, size_t len) {
    for (size_t i = 0; i < len; i++) put((uint64_t)from[i], 8);
}

static void take_along(void) {
    along_len = take_signed(along, sizeof along / sizeof along[0]);
}

static void put_along(void) {
    put_signed(along, along_len);
}

static size_t take_longs(int32_t *numbers, size_t most) {
    size_t len = take(4);
    if (len > most) exit(1);
    for (size_t i = 0; i < len; i++) numbers[i] = (int32_t)take(4);
    return len;
}

static void put_longs(const int32_t *numbers, size_t len) {
    for (size_t i = 0; i < len; i++) put((uint32_t)numbers[i], 4);
}

static void take_marks(void) {
    ankr_len = take(4);
    if (ankr_len > sizeof ankr) exit(1);
    size_t told = take_bytes(ankr, ankr_len);
    for (size_t i = told; i < ankr_told; i++) ankr[i] = 0;
    ankr_told = told;
    x_len = take_longs(x, sizeof x / sizeof x[0]);
    y_len = take_longs(y, sizeof y / sizeof y[0]);
    take_slice(&back);
}

static void put_marks(void) {
    put_longs(x, x_len);
    put_longs(y, y_len);
    put_slice(&back);
}

static void take_line(void) {
    take_slice(&glyphs);
    take_slice(&tags);
    take_slice(&homes);
    used = take(8);
}

static void put_line(void) {
    put_slice(&glyphs);
    put_slice(&tags);
    put_slice(&homes);
}

static void take_buffer(void) {
    buffer_len = take_bytes(buffer, sizeof buffer);
    size = take(8);
}

static void put_buffer(void) {
    put(size, 8);
    for (size_t i = 0; i < buffer_len; i++) put(buffer[i], 1);
}

static void take_numbers(uint64_t *numbers, int count) {
    for (int i = 0; i < count; i++) numbers[i] = take(8);
}

static void put_numbers(const uint64_t *numbers, int count) {
    for (int i = 0; i < count; i++) put(numbers[i], 8);
}

static void take_told(void) {
    start = take(8);
    index = take(8);
    glyph = (uint16_t)take(2);
    ends = (uint32_t)take(4);
    advance = take(8);
}

static void take_table(void) {
    table_len = take_bytes(table, sizeof table);
}

typedef uint32_t value_of_glyph(const uint8_t *, size_t, size_t, uint16_t, uint32_t *);

/* An entry that gives the value of a glyph: lookup or one of the two classes. */
static void look(value_of_glyph *entry) {
    start = take(8);
    glyph = (uint16_t)take(2);
    uint32_t value = (uint32_t)take(4);
    put(entry(table, table_len, start, glyph, &value), 4);
    put(value, 4);
}

static void lookup_why(void) {
    start = take(8);
    glyph = (uint16_t)take(2);
    uint32_t value = (uint32_t)take(4);
    uint32_t why = (uint32_t)take(4);
    put(aat_lookup_why(table, table_len, start, glyph, &value, &why), 4);
    put(value, 4);
    put(why, 4);
}

static void survey(void) {
    start = take(8);
    uint32_t verdict = (uint32_t)take(4);
    uint32_t record = (uint32_t)take(4);
    put(aat_survey(table, table_len, start, &verdict, &record), 4);
    put(verdict, 4);
    put(record, 4);
}

static void language_index(void) {
    start = take(8);
    size_t name_len = take_bytes(name, sizeof name);
    uint32_t value = (uint32_t)take(4);
    put(aat_language_index(table, table_len, start, name, name_len, &value), 4);
    put(value, 4);
}

static void fresh(void) {
    take_line();
    put(aat_fresh(glyphs.numbers, glyphs.len, tags.numbers, tags.len, homes.numbers, homes.len, &used), 4);
    put_line();
    put(used, 8);
}

static void verb(void) {
    take_line();
    uint16_t number = (uint16_t)take(2);
    size_t first = take(8);
    size_t last = take(8);
    put(aat_verb(glyphs.numbers, glyphs.len, tags.numbers, tags.len, homes.numbers, homes.len, used, number, first, last), 4);
    put_line();
}

/* The arguments of a pass, but for the used length. */
#define TABLE_AND_LINE \
    table, table_len, start, glyphs.numbers, glyphs.len, tags.numbers, tags.len, homes.numbers, homes.len

static void take_pass(void) {
    take_line();
    start = take(8);
}

static void put_pass(uint32_t answered) {
    put(answered, 4);
    put_line();
}

static void put_growing_pass(uint32_t answered) {
    put_pass(answered);
    put(used, 8);
}

static void insert(void) {
    take_pass();
    uint16_t count = (uint16_t)take(2);
    size_t place = take(8);
    put_growing_pass(aat_insert(table, table_len, start, count, glyphs.numbers, glyphs.len, tags.numbers, tags.len, homes.numbers,
                                homes.len, &used, place));
}

static void morx_run(void) {
    take_pass();
    uint32_t right_to_left = (uint32_t)take(4);
    uint32_t heads = (uint32_t)take(4);
    put(aat_morx_run(table, table_len, start, right_to_left, glyphs.numbers, glyphs.len, tags.numbers, tags.len,
                     homes.numbers, homes.len, &used, &heads),
        4);
    put_line();
    put(heads, 4);
    put(used, 8);
}

typedef uint32_t run_with_requests(const uint8_t *, size_t, size_t, uint32_t, const uint32_t *, size_t, uint16_t *, size_t,
                                   uint16_t *, size_t, uint16_t *, size_t, size_t *, uint32_t *);

static void run_with(run_with_requests *entry) {
    take_pass();
    uint32_t right_to_left = (uint32_t)take(4);
    uint32_t heads = (uint32_t)take(4);
    size_t requests_len = take_words(requests, sizeof requests / sizeof requests[0]);
    put(entry(table, table_len, start, right_to_left, requests, requests_len, glyphs.numbers, glyphs.len, tags.numbers, tags.len,
              homes.numbers, homes.len, &used, &heads),
        4);
    put_line();
    put(heads, 4);
    put(used, 8);
}

static void mort_pass(void) {
    take_pass();
    put_growing_pass(aat_mort_pass(TABLE_AND_LINE, &used));
}

static size_t take_sizes(size_t *sizes) {
    size_t len = take(4);
    if (len > sizeof reel.rooms / sizeof reel.rooms[0]) exit(1);
    for (size_t i = 0; i < len; i++) sizes[i] = take(8);
    return len;
}

static void take_reel_slice(struct reel_slice *slice) {
    slice->len = take(4);
    if (slice->len > sizeof slice->numbers / sizeof slice->numbers[0]) exit(1);
    for (size_t i = 0; i < slice->len; i++) slice->numbers[i] = (uint16_t)take(2);
}

static void put_reel_slice(const struct reel_slice *slice) {
    for (size_t i = 0; i < slice->len; i++) put(slice->numbers[i], 2);
}

typedef uint32_t reel_entry(const uint8_t *, size_t, size_t, uint32_t, const uint32_t *, size_t, const size_t *, size_t, const size_t *,
                            size_t, size_t *, size_t, uint32_t *, size_t, uint32_t *, size_t, uint16_t *, size_t, uint16_t *, size_t,
                            uint16_t *, size_t);

static void run_reel(reel_entry *entry) {
    start = take(8);
    uint32_t right_to_left = (uint32_t)take(4);
    size_t requests_len = take_words(requests, sizeof requests / sizeof requests[0]);
    reel.rooms_len = take_sizes(reel.rooms);
    reel.characters_len = take_sizes(reel.characters);
    reel.used_len = take_sizes(reel.used);
    reel.answers_len = take_words(reel.answers, sizeof reel.answers / sizeof reel.answers[0]);
    reel.heads_len = take_words(reel.heads, sizeof reel.heads / sizeof reel.heads[0]);
    take_reel_slice(&reel_glyphs);
    take_reel_slice(&reel_tags);
    take_reel_slice(&reel_homes);
    put(entry(table, table_len, start, right_to_left, requests, requests_len, reel.rooms, reel.rooms_len, reel.characters,
              reel.characters_len, reel.used, reel.used_len, reel.answers, reel.answers_len, reel.heads, reel.heads_len,
              reel_glyphs.numbers, reel_glyphs.len, reel_tags.numbers, reel_tags.len, reel_homes.numbers, reel_homes.len),
        4);
    for (size_t i = 0; i < reel.used_len; i++) put(reel.used[i], 8);
    put_words(reel.answers, reel.answers_len);
    put_words(reel.heads, reel.heads_len);
    put_reel_slice(&reel_glyphs);
    put_reel_slice(&reel_tags);
    put_reel_slice(&reel_homes);
}

/* The adjustments of all lines, and what is told of those of each. */
static int64_t report_along[(AAT_MOST_LINES + 1) * AAT_LARGEST_ROOM];
static int64_t sums[512], largest[512], smallest[512];

static void kerning_report(void) {
    int64_t totals[AAT_TOTALS];
    reel.rooms_len = take_sizes(reel.rooms);
    reel.characters_len = take_sizes(reel.characters);
    reel.used_len = take_sizes(reel.used);
    take_reel_slice(&reel_glyphs);
    take_reel_slice(&reel_tags);
    take_reel_slice(&reel_homes);
    size_t report_len = take_signed(report_along, sizeof report_along / sizeof report_along[0]);
    size_t sums_len = take_signed(sums, sizeof sums / sizeof sums[0]);
    size_t largest_len = take_signed(largest, sizeof largest / sizeof largest[0]);
    size_t smallest_len = take_signed(smallest, sizeof smallest / sizeof smallest[0]);
    for (int i = 0; i < AAT_TOTALS; i++) totals[i] = (int64_t)take(8);
    put(aat_kerning_report(reel.rooms, reel.rooms_len, reel.characters, reel.characters_len, reel.used, reel.used_len,
                           reel_glyphs.numbers, reel_glyphs.len, reel_tags.numbers, reel_tags.len, reel_homes.numbers, reel_homes.len,
                           report_along, report_len, sums, sums_len, largest, largest_len, smallest, smallest_len, totals),
        4);
    put_signed(sums, sums_len);
    put_signed(largest, largest_len);
    put_signed(smallest, smallest_len);
    put_signed(totals, AAT_TOTALS);
}

static void rearrangement_step(void) {
    take_numbers(state, 4);
    size_t length = take(8);
    take_told();
    take_numbers(edits, 3);
    put(aat_rearrangement_step(state, table, table_len, start, length, index, glyph, ends, &advance, edits), 4);
    put_numbers(state, 4);
    put(advance, 8);
    put_numbers(edits, 3);
}

static void contextual_step(void) {
    take_numbers(state, 4);
    take_line();
    take_told();
    put(aat_contextual_step(state, TABLE_AND_LINE, used, index, glyph, ends, &advance), 4);
    put_line();
    put_numbers(state, 4);
    put(advance, 8);
}

static void ligature_step(void) {
    take_numbers(state, 66);
    take_line();
    take_told();
    put(aat_ligature_step(state, TABLE_AND_LINE, used, index, glyph, ends, &advance), 4);
    put_line();
    put_numbers(state, 66);
    put(advance, 8);
}

static void insertion_step(void) {
    take_numbers(state, 3);
    size_t length = take(8);
    size_t room = take(8);
    take_told();
    take_numbers(edits, 7);
    put(aat_insertion_step(state, table, table_len, start, length, room, index, glyph, ends, &advance, edits), 4);
    put_numbers(state, 3);
    put(advance, 8);
    put_numbers(edits, 7);
}

typedef uint32_t value_of_pair(const uint8_t *, size_t, size_t, uint16_t, uint16_t, uint16_t, int32_t *);

static void pair(value_of_pair *entry) {
    start = take(8);
    version = (uint16_t)take(2);
    uint16_t left = (uint16_t)take(2);
    uint16_t right = (uint16_t)take(2);
    int32_t value = (int32_t)take(4);
    put(entry(table, table_len, start, version, left, right, &value), 4);
    put((uint32_t)value, 4);
}

typedef uint32_t reason_of_pair(const uint8_t *, size_t, size_t, uint16_t, uint16_t, uint16_t, int32_t *, uint32_t *);

static void pair_why(reason_of_pair *entry) {
    start = take(8);
    version = (uint16_t)take(2);
    uint16_t left = (uint16_t)take(2);
    uint16_t right = (uint16_t)take(2);
    int32_t value = (int32_t)take(4);
    uint32_t why = (uint32_t)take(4);
    put(entry(table, table_len, start, version, left, right, &value, &why), 4);
    put((uint32_t)value, 4);
    put(why, 4);
}

typedef uint32_t kerning_pass(const uint8_t *, size_t, size_t, uint16_t, const uint16_t *, size_t, const uint16_t *, size_t,
                              const uint16_t *, size_t, size_t, int64_t *, size_t);

static void take_kerning(void) {
    take_pass();
    take_along();
}

static void put_kerning(uint32_t answered) {
    put_pass(answered);
    put_along();
}

static void kern(kerning_pass *entry) {
    take_kerning();
    version = (uint16_t)take(2);
    put_kerning(entry(table, table_len, start, version, glyphs.numbers, glyphs.len, tags.numbers, tags.len, homes.numbers,
                      homes.len, used, along, along_len));
}

typedef uint32_t kerning_pass_by(const uint8_t *, size_t, size_t, uint16_t, const uint16_t *, size_t, const uint16_t *, size_t,
                                 const uint16_t *, size_t, size_t, int64_t *, size_t, uint32_t);

static void kern_by(kerning_pass_by *entry) {
    take_kerning();
    version = (uint16_t)take(2);
    uint32_t choices = (uint32_t)take(4);
    put_kerning(entry(table, table_len, start, version, glyphs.numbers, glyphs.len, tags.numbers, tags.len, homes.numbers,
                      homes.len, used, along, along_len, choices));
}

static void kern_run(void) {
    take_kerning();
    uint32_t heads = (uint32_t)take(4);
    put_kerning(aat_kern_run(TABLE_AND_LINE, used, along, along_len, &heads));
    put(heads, 4);
}

static void kern_run_by(void) {
    take_kerning();
    uint32_t heads = (uint32_t)take(4);
    uint32_t choices = (uint32_t)take(4);
    put_kerning(aat_kern_run_by(TABLE_AND_LINE, used, along, along_len, &heads, choices));
    put(heads, 4);
}

static void kerx_run(void) {
    take_kerning();
    uint32_t heads = (uint32_t)take(4);
    uint32_t right_to_left = (uint32_t)take(4);
    put_kerning(aat_kerx_run(table, table_len, start, right_to_left, glyphs.numbers, glyphs.len, tags.numbers, tags.len,
                             homes.numbers, homes.len, used, along, along_len, &heads));
    put(heads, 4);
}

static void kerx_run_by(void) {
    take_kerning();
    uint32_t heads = (uint32_t)take(4);
    uint32_t right_to_left = (uint32_t)take(4);
    uint32_t choices = (uint32_t)take(4);
    put_kerning(aat_kerx_run_by(table, table_len, start, right_to_left, glyphs.numbers, glyphs.len, tags.numbers, tags.len,
                                homes.numbers, homes.len, used, along, along_len, &heads, choices));
    put(heads, 4);
}

typedef uint32_t kerning_step(uint64_t *, const uint8_t *, size_t, size_t, uint16_t, size_t, size_t, uint16_t, int64_t *,
                              size_t, size_t *);

static void take_kerning_step(void) {
    take_numbers(state, 11);
    take_along();
    used = take(8);
    version = (uint16_t)take(2);
    start = take(8);
    index = take(8);
    glyph = (uint16_t)take(2);
    advance = take(8);
}

static void put_kerning_step(uint32_t answered) {
    put(answered, 4);
    put_along();
    put_numbers(state, 11);
    put(advance, 8);
}

static void kern_one(kerning_step *entry) {
    take_kerning_step();
    put_kerning_step(entry(state, table, table_len, start, version, used, index, glyph, along, along_len, &advance));
}

static void kerx_one_by(void) {
    take_kerning_step();
    uint32_t choices = (uint32_t)take(4);
    put_kerning_step(aat_kerx_step_by(state, table, table_len, start, version, used, index, glyph, along, along_len, &advance,
                                      choices));
}

/* What is lent for marks, as an entry's arguments. */
#define MARKS x, x_len, y, y_len, back.numbers, back.len

static void put_anchored(uint32_t answered) {
    put_kerning(answered);
    put_marks();
}

static void kerx_pass_anchored(void) {
    take_kerning();
    take_marks();
    version = (uint16_t)take(2);
    uint32_t choices = (uint32_t)take(4);
    put_anchored(aat_kerx_pass_anchored(table, table_len, start, version, choices, ankr, ankr_len, glyphs.numbers, glyphs.len,
                                        tags.numbers, tags.len, homes.numbers, homes.len, used, along, along_len, MARKS));
}

static void kerx_run_anchored(void) {
    take_kerning();
    take_marks();
    uint32_t heads = (uint32_t)take(4);
    uint32_t right_to_left = (uint32_t)take(4);
    uint32_t choices = (uint32_t)take(4);
    put_anchored(aat_kerx_run_anchored(table, table_len, start, right_to_left, choices, ankr, ankr_len, glyphs.numbers,
                                       glyphs.len, tags.numbers, tags.len, homes.numbers, homes.len, used, along, along_len,
                                       MARKS, &heads));
    put(heads, 4);
}

static void anchor_step(void) {
    take_numbers(state, 4);
    take_along();
    take_marks();
    used = take(8);
    version = (uint16_t)take(2);
    start = take(8);
    index = take(8);
    glyph = (uint16_t)take(2);
    advance = take(8);
    uint32_t choices = (uint32_t)take(4);
    put(aat_anchor_step(state, table, table_len, start, version, choices, ankr, ankr_len, used, index, glyph, along, along_len,
                        MARKS, &advance),
        4);
    put_along();
    put_marks();
    put_numbers(state, 4);
    put(advance, 8);
}

static void take_index(void) {
    classes_len = take(4);
    size_t told = take(4);
    if (classes_len > sizeof classes / sizeof classes[0] || told > classes_len) exit(1);
    for (size_t i = 0; i < classes_len; i++) classes[i] = i < told ? (uint16_t)take(2) : 0;
    class_start = take(8);
}

static void put_sum(void) {
    uint64_t sum = 0;
    for (size_t i = 0; i < classes_len; i++) sum = sum * 31 + classes[i] + 1;
    put(sum, 8);
}

static void index_classes(void) {
    start = take(8);
    uint32_t choices = (uint32_t)take(4);
    classes_len = take(4);
    if (classes_len > sizeof classes / sizeof classes[0]) exit(1);
    uint16_t number = (uint16_t)take(2);
    for (size_t i = 0; i < classes_len; i++) classes[i] = number;
    class_start = take(8);
    put(aat_index_classes(table, table_len, start, choices, classes, classes_len, &class_start), 4);
    for (size_t i = 0; i < classes_len && i < 64; i++) put(classes[i], 2);
    put_sum();
    put(class_start, 8);
}

static void morx_pass_indexed(void) {
    take_pass();
    take_index();
    put_pass(aat_morx_pass_indexed(TABLE_AND_LINE, &used, classes, classes_len, class_start));
    put_sum();
    put(used, 8);
}

static void kerx_pass_indexed(void) {
    take_kerning();
    take_marks();
    version = (uint16_t)take(2);
    uint32_t choices = (uint32_t)take(4);
    take_index();
    put_anchored(aat_kerx_pass_indexed(table, table_len, start, version, choices, ankr, ankr_len, glyphs.numbers, glyphs.len,
                                       tags.numbers, tags.len, homes.numbers, homes.len, used, along, along_len, MARKS, classes,
                                       classes_len, class_start));
    put_sum();
}

typedef uint32_t start_of_list(const uint8_t *, size_t, size_t, uint64_t *);

/* The cursor at a list, of so many numbers. */
static void list(start_of_list *entry, int numbers) {
    start = take(8);
    take_numbers(cursor, numbers);
    put(entry(table, table_len, start, cursor), 4);
    put_numbers(cursor, numbers);
}

typedef uint32_t next_of_list(const uint8_t *, size_t, uint64_t *, uint64_t *);

static void next(next_of_list *entry, int numbers, int count) {
    take_numbers(cursor, numbers);
    take_numbers(fields, count);
    put(entry(table, table_len, cursor, fields), 4);
    put_numbers(cursor, numbers);
    put_numbers(fields, count);
}

static void morx_order(void) {
    uint32_t coverage = (uint32_t)take(4);
    uint32_t order = (uint32_t)take(4);
    put(aat_morx_order(coverage, &order), 4);
    put(order, 4);
}

static void morx_should_reverse(void) {
    uint32_t coverage = (uint32_t)take(4);
    uint32_t right_to_left = (uint32_t)take(4);
    uint32_t turned = (uint32_t)take(4);
    put(aat_morx_should_reverse(coverage, right_to_left, &turned), 4);
    put(turned, 4);
}

static void mend(void) {
    start = take(8);
    take_buffer();
    size_t numbers_len = take(4);
    if (numbers_len > sizeof numbers / sizeof numbers[0]) exit(1);
    for (size_t i = 0; i < numbers_len; i++) numbers[i] = (uint16_t)take(2);
    put(aat_mend(table, table_len, start, buffer, buffer_len, numbers, numbers_len, &size), 4);
    put_buffer();
    for (size_t i = 0; i < numbers_len; i++) put(numbers[i], 2);
}

static void store_line(void) {
    take_line();
    take_buffer();
    put_pass(aat_store_line(glyphs.numbers, glyphs.len, tags.numbers, tags.len, homes.numbers, homes.len, used, buffer, buffer_len,
                            &size));
    put_buffer();
}

static void read_line(void) {
    take_line();
    size_t characters = take(8);
    put_growing_pass(aat_read_line(table, table_len, glyphs.numbers, glyphs.len, tags.numbers, tags.len, homes.numbers, homes.len,
                                   &used, &characters));
    put(characters, 8);
}

static void answer(uint8_t call) {
    if (8 <= call && call <= 13) take_pass();
    switch (call) {
    case 0: take_table(); break;
    case 1: look(aat_lookup); break;
    case 2: survey(); break;
    case 3: look(aat_class_extended); break;
    case 4: look(aat_class_classic); break;
    case 5: language_index(); break;
    case 6: fresh(); break;
    case 7: verb(); break;
    case 8: put_pass(aat_rearrangement_pass(TABLE_AND_LINE, used)); break;
    case 9: put_pass(aat_noncontextual_pass(TABLE_AND_LINE, used)); break;
    case 10: put_pass(aat_contextual_pass(TABLE_AND_LINE, used)); break;
    case 11: put_pass(aat_ligature_pass(TABLE_AND_LINE, used)); break;
    case 12: put_growing_pass(aat_insertion_pass(TABLE_AND_LINE, &used)); break;
    case 13: put_growing_pass(aat_morx_pass(TABLE_AND_LINE, &used)); break;
    case 14: morx_run(); break;
    case 15: rearrangement_step(); break;
    case 16: contextual_step(); break;
    case 17: ligature_step(); break;
    case 18: insertion_step(); break;
    case 19: pair(aat_kern_pair); break;
    case 20: pair(aat_kerx_pair); break;
    case 21: kern(aat_kern_pass); break;
    case 22: kern(aat_kerx_pass); break;
    case 23: kern_run(); break;
    case 24: kerx_run(); break;
    case 25: kern_one(aat_kern_step); break;
    case 26: kern_one(aat_kerx_step); break;
    case 27: list(aat_morx_chains, 2); break;
    case 28: next(aat_morx_next_chain, 2, 6); break;
    case 29: next(aat_morx_next_feature, 2, 5); break;
    case 30: next(aat_morx_next_subtable, 2, 6); break;
    case 31: morx_order(); break;
    case 32: morx_should_reverse(); break;
    case 33: list(aat_kern_subtables, 3); break;
    case 34: list(aat_kerx_subtables, 3); break;
    case 35: next(aat_kern_next_subtable, 3, 5); break;
    case 36: next(aat_kerx_next_subtable, 3, 5); break;
    case 37: insert(); break;
    case 38: lookup_why(); break;
    case 39: pair_why(aat_kern_pair_why); break;
    case 40: pair_why(aat_kerx_pair_why); break;
    case 41: kern_by(aat_kern_pass_by); break;
    case 42: kern_by(aat_kerx_pass_by); break;
    case 43: kern_run_by(); break;
    case 44: kerx_run_by(); break;
    case 45: mend(); break;
    case 46: store_line(); break;
    case 47: read_line(); break;
    case 48: run_with(aat_morx_run_with); break;
    case 49: kerx_one_by(); break;
    case 50: kerx_pass_anchored(); break;
    case 51: kerx_run_anchored(); break;
    case 52: anchor_step(); break;
    case 53: run_with(aat_mort_run); break;
    case 54: mort_pass(); break;
    case 55: next(aat_mort_next_chain, 2, 6); break;
    case 56: next(aat_mort_next_subtable, 2, 6); break;
    case 57: run_reel(aat_morx_reel); break;
    case 58: run_reel(aat_mort_reel); break;
    case 59: index_classes(); break;
    case 60: morx_pass_indexed(); break;
    case 61: kerx_pass_indexed(); break;
    case 62: kerning_report(); break;
    default: exit(1);
    }
}

int main(void) {
    while (input_is_left()) answer(take_byte());
    return 0;
}
