//! The calls of both sides, for their times.

use crate::bench::timing::Worked;
use crate::reference::anchored::Anchored;
use crate::reference::kerning::Kerned;
use crate::reference::line::Line;
use crate::tables::random::Random;

impl Line {
    /// So many places with any glyphs below the limit, their tags in any order, in a room.
    pub fn any(random: &mut Random, length: usize, room: usize, limit: usize) -> Self {
        let homes: Vec<u16> = (0..length as u16).collect();
        let mut tags = homes.clone();
        random.shuffle(&mut tags);
        tags.resize(room, 0);
        let glyphs = (0..room).map(|_| random.below(limit) as u16).collect();
        Line { glyphs, tags, homes, used: length as u64 }
    }
}

/// A few places of a line: to look at all would take a time of its own.
fn some_places(line: &Line) -> [usize; 7] {
    let last = line.length() - 1;
    [0, 1, 2, last / 2, last - 2, last - 1, last]
}

impl Worked for Line {
    fn places(&self) -> usize {
        self.length()
    }

    fn glance(&self) -> u64 {
        let add = |seen, place: usize| seen * 31 + u64::from(self.glyphs[place]) * 7 + u64::from(self.tags[place]);
        some_places(self).into_iter().fold(self.used, add)
    }
}

impl Worked for Kerned {
    fn places(&self) -> usize {
        self.line.length()
    }

    fn glance(&self) -> u64 {
        let add = |seen: u64, place: usize| seen.wrapping_mul(31).wrapping_add(self.along[place] as u64);
        some_places(&self.line).into_iter().fold(self.line.glance(), add)
    }
}

impl Worked for Anchored {
    fn places(&self) -> usize {
        self.kerned.places()
    }

    fn glance(&self) -> u64 {
        let mark =
            |place: usize| [self.marks.x[place] as u64, self.marks.y[place] as u64, self.marks.back[place].into()];
        let add = |seen: u64, number: u64| seen.wrapping_mul(31).wrapping_add(number);
        some_places(&self.kerned.line).into_iter().flat_map(mark).fold(self.kerned.glance(), add)
    }
}

/// The tables that a line is shaped and kerned by; kerx's begins behind a few bytes, as the crate takes none at 0.
pub struct Tables {
    pub morx: Vec<u8>,
    pub kerx: Vec<u8>,
}

/// The proved entries.
pub mod ours {
    use super::{Anchored, Kerned, Line, Tables};
    use crate::reference::anchored::Marks;
    use crate::reference::kerning::{Kerning, ALONE_AT};
    use crate::reference::kerning_choices::JOINED_PAIRS;
    use crate::reference::reel::Reel;
    use crate::wire::entries::Entry;

    extern "C" {
        fn aat_lookup(table: *const u8, table_len: usize, start: usize, glyph: u16, value: *mut u32) -> u32;
        fn aat_class_extended(table: *const u8, table_len: usize, start: usize, glyph: u16, value: *mut u32) -> u32;
        fn aat_index_classes(
            table: *const u8,
            table_len: usize,
            start: usize,
            choices: u32,
            index: *mut u16,
            index_len: usize,
            class_start: *mut usize,
        ) -> u32;
        fn aat_class_classic(table: *const u8, table_len: usize, start: usize, glyph: u16, value: *mut u32) -> u32;
        fn aat_language_index(
            table: *const u8,
            table_len: usize,
            start: usize,
            name: *const u8,
            name_len: usize,
            value: *mut u32,
        ) -> u32;
        fn aat_fresh(
            glyphs: *const u16,
            glyphs_len: usize,
            tags: *mut u16,
            tags_len: usize,
            homes: *mut u16,
            homes_len: usize,
            used: *mut u64,
        ) -> u32;
        fn aat_verb(
            glyphs: *mut u16,
            glyphs_len: usize,
            tags: *mut u16,
            tags_len: usize,
            homes: *const u16,
            homes_len: usize,
            used: usize,
            verb: u16,
            start: usize,
            end: usize,
        ) -> u32;
        fn aat_mend(
            table: *const u8,
            table_len: usize,
            start: usize,
            buffer: *mut u8,
            buffer_len: usize,
            numbers: *mut u16,
            numbers_len: usize,
            size: *mut usize,
        ) -> u32;
        fn aat_store_line(
            glyphs: *const u16,
            glyphs_len: usize,
            tags: *const u16,
            tags_len: usize,
            homes: *const u16,
            homes_len: usize,
            used: usize,
            buffer: *mut u8,
            buffer_len: usize,
            size: *mut usize,
        ) -> u32;
        fn aat_read_line(
            record: *const u8,
            record_len: usize,
            glyphs: *mut u16,
            glyphs_len: usize,
            tags: *mut u16,
            tags_len: usize,
            homes: *mut u16,
            homes_len: usize,
            used: *mut u64,
            characters: *mut usize,
        ) -> u32;
        fn aat_morx_reel(
            table: *const u8,
            table_len: usize,
            start: usize,
            right_to_left: u32,
            requests: *const u32,
            requests_len: usize,
            rooms: *const u64,
            rooms_len: usize,
            characters: *const u64,
            characters_len: usize,
            used: *mut u64,
            used_len: usize,
            answers: *mut u32,
            answers_len: usize,
            heads: *mut u32,
            heads_len: usize,
            glyphs: *mut u16,
            glyphs_len: usize,
            tags: *mut u16,
            tags_len: usize,
            homes: *mut u16,
            homes_len: usize,
        ) -> u32;
    }

    /// Declares entries that are lent a table, its start and a line, with what they are told before the line and behind it.
    macro_rules! on_lines {
        ($($entry:ident($($before:ty),*; $($behind:ty),*);)*) => {
            extern "C" {
                $(fn $entry(
                    table: *const u8,
                    table_len: usize,
                    start: usize,
                    $(_: $before,)*
                    glyphs: *mut u16,
                    glyphs_len: usize,
                    tags: *mut u16,
                    tags_len: usize,
                    homes: *mut u16,
                    homes_len: usize,
                    $(_: $behind),*
                ) -> u32;)*
            }
        };
    }

    on_lines! {
        aat_rearrangement_pass(; usize);
        aat_noncontextual_pass(; usize);
        aat_contextual_pass(; usize);
        aat_ligature_pass(; usize);
        aat_insertion_pass(; *mut u64);
        aat_morx_run(u32; *mut u64, *mut u32);
        aat_morx_run_with(u32, *const u32, usize; *mut u64, *mut u32);
        aat_kern_pass(u16; usize, *mut i64, usize);
        aat_kerx_pass(u16; usize, *mut i64, usize);
        aat_kern_pass_by(u16; usize, *mut i64, usize, u32);
        aat_kerx_pass_by(u16; usize, *mut i64, usize, u32);
        aat_kerx_pass_anchored(
            u16, u32, *const u8, usize;
            usize, *mut i64, usize, *mut i32, usize, *mut i32, usize, *mut u16, usize
        );
        aat_kerx_pass_indexed(
            u16, u32, *const u8, usize;
            usize, *mut i64, usize, *mut i32, usize, *mut i32, usize, *mut u16, usize, *const u16, usize, usize
        );
        aat_morx_pass_indexed(; *mut u64, *const u16, usize, usize);
        aat_kern_run(; usize, *mut i64, usize, *mut u32);
        aat_kerx_run(u32; usize, *mut i64, usize, *mut u32);
    }

    /// Calls such an entry, which has to answer DONE.
    macro_rules! call {
        ($entry:ident, $table:expr, $start:expr, [$($before:expr),*], $line:expr, [$($behind:expr),*]) => {{
            let (table, glyphs_len, homes_len): (&[u8], _, _) = ($table, $line.glyphs.len(), $line.homes.len());
            let answer = unsafe {
                $entry(
                    table.as_ptr(),
                    table.len(),
                    $start,
                    $($before,)*
                    $line.glyphs.as_mut_ptr(),
                    glyphs_len,
                    $line.tags.as_mut_ptr(),
                    glyphs_len,
                    $line.homes.as_mut_ptr(),
                    homes_len,
                    $($behind),*
                )
            };
            assert_eq!(answer, 0, stringify!($entry));
        }};
    }

    /// The element of a glyph.
    #[inline(always)]
    pub fn lookup(table: &[u8], glyph: u16) -> Option<u32> {
        found(|value| unsafe { aat_lookup(table.as_ptr(), table.len(), 0, glyph, value) })
    }

    /// The class of a glyph in an extended state table.
    #[inline(always)]
    pub fn class_extended(table: &[u8], glyph: u16) -> Option<u32> {
        found(|value| unsafe { aat_class_extended(table.as_ptr(), table.len(), 0, glyph, value) })
    }

    /// The class of a glyph in a classic state table.
    #[inline(always)]
    pub fn class_classic(table: &[u8], glyph: u16) -> Option<u32> {
        found(|value| unsafe { aat_class_classic(table.as_ptr(), table.len(), 0, glyph, value) })
    }

    /// The index of a language.
    #[inline(always)]
    pub fn language_index(table: &[u8], name: &str) -> Option<u32> {
        found(|value| unsafe { aat_language_index(table.as_ptr(), table.len(), 0, name.as_ptr(), name.len(), value) })
    }

    #[inline(always)]
    fn found(call: impl FnOnce(&mut u32) -> u32) -> Option<u32> {
        let mut value = 0;
        let answer = call(&mut value);
        (answer == 0).then(|| value)
    }

    /// A verb on the whole line.
    #[inline(always)]
    pub fn verb(line: &mut Line, verb: u16) {
        let (glyphs, tags, homes) = (line.glyphs.as_mut_ptr(), line.tags.as_mut_ptr(), line.homes.as_ptr());
        let (room, characters, used) = (line.glyphs.len(), line.homes.len(), line.length());
        let answer = unsafe { aat_verb(glyphs, room, tags, room, homes, characters, used, verb, 0, used - 1) };
        assert_eq!(answer, 0, "a verb on a line");
    }

    /// A pass over the line by the subtable that the table begins with.
    #[inline(always)]
    pub fn pass(entry: Entry, line: &mut Line, table: &[u8]) {
        let length = line.length();
        match entry {
            Entry::RearrangementPass => call!(aat_rearrangement_pass, table, 0, [], line, [length]),
            Entry::NoncontextualPass => call!(aat_noncontextual_pass, table, 0, [], line, [length]),
            Entry::ContextualPass => call!(aat_contextual_pass, table, 0, [], line, [length]),
            Entry::LigaturePass => call!(aat_ligature_pass, table, 0, [], line, [length]),
            Entry::InsertionPass => call!(aat_insertion_pass, table, 0, [], line, [&mut line.used]),
            _ => panic!("no pass"),
        }
    }

    /// A run of a morx table over the line, from left to right.
    #[inline(always)]
    pub fn run(line: &mut Line, table: &[u8]) {
        let mut heads = 0;
        call!(aat_morx_run, table, 0, [0], line, [&mut line.used, &mut heads]);
    }

    /// The same with these features asked for.
    #[inline(always)]
    pub fn run_with(line: &mut Line, table: &[u8], requests: &[u32]) {
        let (mut heads, asked, count) = (0, requests.as_ptr(), requests.len());
        call!(aat_morx_run_with, table, 0, [0, asked, count], line, [&mut line.used, &mut heads]);
    }

    /// A reel's run by a morx table, from left to right; each of its lines has to be DONE.
    pub fn reel(reel: &mut Reel, table: &[u8]) {
        let Reel { rooms, characters, used, answers, heads, glyphs, tags, homes } = reel;
        let lines = rooms.len();
        let answer = unsafe {
            aat_morx_reel(
                table.as_ptr(),
                table.len(),
                0,
                0,
                NO_REQUESTS.as_ptr(),
                0,
                rooms.as_ptr(),
                lines,
                characters.as_ptr(),
                lines,
                used.as_mut_ptr(),
                lines,
                answers.as_mut_ptr(),
                lines,
                heads.as_mut_ptr(),
                lines,
                glyphs.as_mut_ptr(),
                glyphs.len(),
                tags.as_mut_ptr(),
                tags.len(),
                homes.as_mut_ptr(),
                homes.len(),
            )
        };
        assert!(answer == 0 && answers.iter().all(|answer| *answer == 0), "a reel of lines");
    }

    /// The same by a call for each line.
    pub fn runs_of_reel(reel: &mut Reel, table: &[u8]) {
        let (mut place, mut home) = (0, 0);
        for line in 0..reel.rooms.len() {
            let (room, characters) = (reel.rooms[line] as usize, reel.characters[line] as usize);
            reel.answers[line] = unsafe {
                aat_morx_run_with(
                    table.as_ptr(),
                    table.len(),
                    0,
                    0,
                    NO_REQUESTS.as_ptr(),
                    0,
                    reel.glyphs[place..].as_mut_ptr(),
                    room,
                    reel.tags[place..].as_mut_ptr(),
                    room,
                    reel.homes[home..].as_mut_ptr(),
                    characters,
                    &mut reel.used[line],
                    &mut reel.heads[line],
                )
            };
            (place, home) = (place + room, home + characters);
        }
        assert!(reel.answers.iter().all(|answer| *answer == 0), "runs of lines");
    }

    const NO_REQUESTS: [u32; 1] = [0];

    /// The mended lookup table that the table begins with.
    #[inline(always)]
    pub fn mend(table: &[u8], buffer: &mut [u8], numbers: &mut [u16]) {
        let (written, length, list, count) = (buffer.as_mut_ptr(), buffer.len(), numbers.as_mut_ptr(), numbers.len());
        let mut size = 0;
        let answer = unsafe { aat_mend(table.as_ptr(), table.len(), 0, written, length, list, count, &mut size) };
        assert_eq!(answer, 0, "a table that is mended");
    }

    /// The record of a line.
    #[inline(always)]
    pub fn store_line(line: &Line, record: &mut [u8]) {
        let (glyphs, tags, homes) = (line.glyphs.as_ptr(), line.tags.as_ptr(), line.homes.as_ptr());
        let (room, characters, used) = (line.glyphs.len(), line.homes.len(), line.length());
        let (written, length, mut size) = (record.as_mut_ptr(), record.len(), 0);
        let answer =
            unsafe { aat_store_line(glyphs, room, tags, room, homes, characters, used, written, length, &mut size) };
        assert_eq!(answer, 0, "a line that is stored");
    }

    /// The line of a record.
    #[inline(always)]
    pub fn read_line(record: &[u8], line: &mut Line) {
        let (glyphs, tags, homes) = (line.glyphs.as_mut_ptr(), line.tags.as_mut_ptr(), line.homes.as_mut_ptr());
        let (room, characters) = (line.glyphs.len(), line.homes.len());
        let (read, length, mut count) = (record.as_ptr(), record.len(), 0);
        let used = &mut line.used;
        let answer =
            unsafe { aat_read_line(read, length, glyphs, room, tags, room, homes, characters, used, &mut count) };
        assert_eq!(answer, 0, "a record that is read");
    }

    /// A kerning pass by the subtable that the table begins with.
    #[inline(always)]
    pub fn kerning_pass(kerning: Kerning, version: u16, kerned: &mut Kerned, table: &[u8]) {
        let Kerned { line, along } = kerned;
        let (length, room, along) = (line.length(), along.len(), along.as_mut_ptr());
        match kerning {
            Kerning::Kern => call!(aat_kern_pass, table, 0, [version], line, [length, along, room]),
            Kerning::Kerx => call!(aat_kerx_pass, table, 0, [version], line, [length, along, room]),
        }
    }

    /// The same by joined pairs.
    #[inline(always)]
    pub fn joined_pass(kerning: Kerning, version: u16, kerned: &mut Kerned, table: &[u8]) {
        let Kerned { line, along } = kerned;
        let (length, room, along, joined) = (line.length(), along.len(), along.as_mut_ptr(), JOINED_PAIRS);
        match kerning {
            Kerning::Kern => call!(aat_kern_pass_by, table, 0, [version], line, [length, along, room, joined]),
            Kerning::Kerx => call!(aat_kerx_pass_by, table, 0, [version], line, [length, along, room, joined]),
        }
    }

    /// The pass of marks by the subtable that the table begins with.
    #[inline(always)]
    pub fn anchored_pass(version: u16, anchored: &mut Anchored, table: &[u8], ankr: &[u8]) {
        let Anchored { kerned: Kerned { line, along }, marks: Marks { x, y, back } } = anchored;
        let (length, room, along) = (line.length(), along.len(), along.as_mut_ptr());
        let (x, y, back, points, count) =
            (x.as_mut_ptr(), y.as_mut_ptr(), back.as_mut_ptr(), ankr.as_ptr(), ankr.len());
        call!(
            aat_kerx_pass_anchored,
            table,
            0,
            [version, 0, points, count],
            line,
            [length, along, room, x, room, y, room, back, room]
        );
    }

    /// Fills an index by the state table at a start; where its class table begins.
    #[inline(always)]
    pub fn index_classes(table: &[u8], start: usize, index: &mut [u16]) -> usize {
        let (numbers, count, mut begins) = (index.as_mut_ptr(), index.len(), 0);
        let answer = unsafe { aat_index_classes(table.as_ptr(), table.len(), start, 0, numbers, count, &mut begins) };
        assert_eq!(answer, 0, "an index that is filled");
        begins
    }

    /// A pass over the line by the subtable that the table begins with, and an index.
    #[inline(always)]
    pub fn indexed_pass(line: &mut Line, table: &[u8], index: &[u16], start: usize) {
        let (numbers, count) = (index.as_ptr(), index.len());
        call!(aat_morx_pass_indexed, table, 0, [], line, [&mut line.used, numbers, count, start]);
    }

    /// A pass of kerx by the subtable that the table begins with, and an index.
    #[inline(always)]
    pub fn indexed_kerx_pass(
        version: u16,
        anchored: &mut Anchored,
        table: &[u8],
        ankr: &[u8],
        index: &[u16],
        start: usize,
    ) {
        let Anchored { kerned: Kerned { line, along }, marks: Marks { x, y, back } } = anchored;
        let (length, room, along) = (line.length(), along.len(), along.as_mut_ptr());
        let (x, y, back, points, bytes) =
            (x.as_mut_ptr(), y.as_mut_ptr(), back.as_mut_ptr(), ankr.as_ptr(), ankr.len());
        let (numbers, count) = (index.as_ptr(), index.len());
        call!(
            aat_kerx_pass_indexed,
            table,
            0,
            [version, 0, points, bytes],
            line,
            [length, along, room, x, room, y, room, back, room, numbers, count, start]
        );
    }

    /// A run of the kern or kerx table that begins at a start, from left to right.
    #[inline(always)]
    pub fn kerning_run(kerning: Kerning, kerned: &mut Kerned, table: &[u8], start: usize) {
        let Kerned { line, along } = kerned;
        let (length, room, along, mut heads) = (line.length(), along.len(), along.as_mut_ptr(), 0);
        match kerning {
            Kerning::Kern => call!(aat_kern_run, table, start, [], line, [length, along, room, &mut heads]),
            Kerning::Kerx => call!(aat_kerx_run, table, start, [0], line, [length, along, room, &mut heads]),
        }
    }

    /// Starts a line of the glyphs that stand in its first places, shapes it and kerns it.
    #[inline(always)]
    pub fn shape(kerned: &mut Kerned, tables: &Tables) {
        let line = &mut kerned.line;
        let (glyphs, tags, homes) = (line.glyphs.as_ptr(), line.tags.as_mut_ptr(), line.homes.as_mut_ptr());
        let (room, characters) = (line.glyphs.len(), line.homes.len());
        let answer = unsafe { aat_fresh(glyphs, room, tags, room, homes, characters, &mut line.used) };
        assert_eq!(answer, 0, "a fresh line");
        run(line, &tables.morx);
        kerning_run(Kerning::Kerx, kerned, &tables.kerx, ALONE_AT);
    }
}

/// The crate, each call a call as ours are, so that no part of it leaves the loop.
pub mod theirs {
    use super::{Anchored, Kerned, Line, Tables};
    use crate::reference::kerning::{make_steps, Kerning, Subtable, ALONE_AT};
    use crate::reference::kerning_choices::add_joined_pairs;
    use crate::reference::oracle::aat::{self, kern, kerx, morx, ExtendedStateTable, StateTable};
    use crate::reference::oracle::Bytes;
    use crate::reference::passes_by_crate::{self, is_chosen};
    use crate::reference::run::flags_of;
    use crate::tables::morx::the_subtable;

    /// The element of a glyph.
    #[inline(never)]
    pub fn lookup(table: &[u8], glyph: u16) -> Option<u32> {
        aat::lookup::<u16>(&Bytes::new(table), 0, glyph).map(u32::from)
    }

    /// The class of a glyph in an extended state table.
    #[inline(never)]
    pub fn class_extended(table: &[u8], glyph: u16) -> Option<u32> {
        ExtendedStateTable::new(&Bytes::new(table)).map(|states| states.class(glyph).into())
    }

    /// The classes of all glyphs below the length of a slice.
    #[inline(never)]
    pub fn classes(table: &[u8], index: &mut [u16]) {
        let states = ExtendedStateTable::new(&Bytes::new(table)).expect("a state table");
        index.iter_mut().zip(0..).for_each(|(class, glyph)| *class = states.class(glyph));
    }

    /// The class of a glyph in a classic state table.
    #[inline(never)]
    pub fn class_classic(table: &[u8], glyph: u16) -> Option<u32> {
        StateTable::new(&Bytes::new(table)).map(|states| states.class(glyph).into())
    }

    /// The index of a language.
    #[inline(never)]
    pub fn language_index(table: &[u8], name: &str) -> Option<u32> {
        morx::language_index(table, 0, name)
    }

    /// A rearrangement of the whole line.
    #[inline(never)]
    pub fn verb(line: &mut Line, rearrange: &morx::Rearrange) {
        let length = line.length();
        rearrange.apply(&mut line.glyphs[..length]);
        rearrange.apply(&mut line.tags[..length]);
    }

    /// A pass over the line by the subtable of a morx table.
    #[inline(never)]
    pub fn pass(line: &mut Line, table: &[u8]) {
        let subtable = the_subtable(table).expect("a subtable");
        assert_eq!(passes_by_crate::pass(&subtable, line).number(), 0, "a pass over a line");
    }

    /// A run of a morx table over the line, from left to right.
    #[inline(never)]
    pub fn run(line: &mut Line, table: &[u8]) {
        for chain in morx::chains(table, 0) {
            run_chain(line, &chain, chain.default_flags());
        }
    }

    /// The same with these features asked for.
    #[inline(never)]
    pub fn run_with(line: &mut Line, table: &[u8], requests: &[u32]) {
        for chain in morx::chains(table, 0) {
            run_chain(line, &chain, flags_of(&chain, requests));
        }
    }

    #[inline(always)]
    fn run_chain(line: &mut Line, chain: &morx::Chain, flags: u32) {
        for subtable in chain.subtables().filter(|subtable| is_chosen(flags, subtable)) {
            if let Some(kind) = subtable.kind() {
                let is_turned = subtable.should_reverse(false);
                if is_turned {
                    line.reverse();
                }
                passes_by_crate::pass(&kind, line);
                if is_turned {
                    line.reverse();
                }
            }
        }
    }

    /// A kerning pass by the subtable of a table of one.
    #[inline(never)]
    pub fn kerning_pass(kerning: Kerning, kerned: &mut Kerned, table: &[u8]) {
        let subtable = Subtable::first(kerning, table).expect("a subtable");
        let (glyphs, along) = kerned.used();
        assert_eq!(subtable.add(glyphs, along).number(), 0, "a kerning pass over a line");
    }

    /// The same by joined pairs, over the crate's numbers of pairs.
    #[inline(never)]
    pub fn joined_pass(kerning: Kerning, kerned: &mut Kerned, table: &[u8]) {
        let subtable = Subtable::first(kerning, table).expect("a subtable");
        let (glyphs, along) = kerned.used();
        add_joined_pairs(&subtable, glyphs, along);
    }

    /// The pass of marks by the subtable of a table of one, behind which the ankr table lies.
    #[inline(never)]
    pub fn anchored_pass(anchored: &mut Anchored, font: &[u8], ankr: usize) {
        let subtable = kerx::subtables(font, ALONE_AT as u32, ankr as u32).next().and_then(|subtable| subtable.kind());
        let machine = match subtable {
            Some(kerx::SubtableKind::Format4(machine)) => machine,
            _ => panic!("no marks"),
        };
        let Anchored { kerned, marks } = anchored;
        let (glyphs, _) = kerned.used();
        let mut state = kerx::Format4State::new();
        let answer = make_steps(glyphs, |place, glyph| {
            machine.next(&mut state, place, glyph, |place, distance, x, y| {
                marks.write(glyphs.len(), place, (x as i32, y as i32, distance as u16));
                Some(())
            })
        });
        assert_eq!(answer.number(), 0, "a pass of marks over a line");
    }

    /// A run of the kern or kerx table that begins at a start, from left to right.
    #[inline(never)]
    pub fn kerning_run(kerning: Kerning, kerned: &mut Kerned, table: &[u8], start: usize) {
        kerned.used().1.fill(0);
        match kerning {
            Kerning::Kern => kern::subtables(table, start as u32)
                .filter(|subtable| subtable.is_horizontal() && !subtable.cross_stream())
                .for_each(|subtable| add(kerned, Subtable::of_kern(&subtable))),
            Kerning::Kerx => kerx::subtables(table, start as u32, 0)
                .filter(|it| !it.is_vertical() && !it.is_cross_stream() && !it.has_variations())
                .for_each(|subtable| {
                    let is_turned = subtable.should_reverse(false);
                    if is_turned {
                        kerned.reverse();
                    }
                    add(kerned, Subtable::of_kerx(&subtable));
                    if is_turned {
                        kerned.reverse();
                    }
                }),
        }
    }

    /// Starts a line of the glyphs that stand in its first places, shapes it and kerns it.
    #[inline(never)]
    pub fn shape(kerned: &mut Kerned, tables: &Tables) {
        let Line { tags, homes, used, .. } = &mut kerned.line;
        for (character, (tag, home)) in tags.iter_mut().zip(homes.iter_mut()).enumerate() {
            *tag = character as u16;
            *home = character as u16;
        }
        *used = homes.len() as u64;
        run(&mut kerned.line, &tables.morx);
        kerning_run(Kerning::Kerx, kerned, &tables.kerx, ALONE_AT);
    }

    fn add(kerned: &mut Kerned, subtable: Option<Subtable>) {
        if let Some(subtable) = subtable {
            let (glyphs, along) = kerned.used();
            subtable.add(glyphs, along);
        }
    }
}
