//! Lines whose times are taken from typed glyphs to kerned ones, as a box has them.

use crate::bench::harfbuzz::Harfbuzz;
use crate::bench::sides::{ours, theirs, Tables};
use crate::bench::text::{searched, Drawn, GLYPHS};
use crate::bench::timed_kerning::{class_pairs, KERX};
use crate::bench::timed_passes::{contextual, inserting, ligating, rearranging};
use crate::bench::timed_text::{LINES, PLACES};
use crate::bench::timing::{Group, Subject};
use crate::font::sfnt::typed_characters;
use crate::reference::kerning::{Kerned, ALONE_AT};
use crate::reference::line::{Line, DELETED};
use crate::reference::pass::line_of;
use crate::tables::kerning::Pair;
use crate::tables::morx::{chain, morx, subtable};
use crate::tables::random::Random;
use std::rc::Rc;

/// Different lines of text, each started, run through a morx table of every kind of machine, and through a kerx table.
pub fn group(random: &mut Random) -> Group {
    let (morx, covered) = morx_table(random);
    let glyphs = Drawn::Text.lines(random, &covered, LINES, PLACES);
    let lines: Vec<Kerned> = glyphs.iter().map(|glyphs| typed(glyphs)).collect();
    let kerx = KERX.table(&[ordered_pairs(random, &morx, &lines), class_pairs(random, GLYPHS)]);
    let tables = Rc::new(Tables { morx, kerx: [&[0; ALONE_AT], &kerx[..]].concat() });
    let name = format!("fresh, run of morx, run of kerx, text, {} lines of {} places", LINES, PLACES);
    let (beside, note) = beside_harfbuzz(format!("{}, beside HarfBuzz", name), tables.clone(), &lines);
    let our_tables = tables.clone();
    let ours = move |kerned: &mut Kerned| ours::shape(kerned, &our_tables);
    let theirs = move |kerned: &mut Kerned| theirs::shape(kerned, &tables);
    let mut subjects = vec![Subject::of_lines(name, LINES, lines, ours, theirs)];
    subjects.extend(beside);
    Group { heading: "A line from typed glyphs to kerned ones", subjects, note }
}

/// The same with HarfBuzz in the crate's place, where it is there, and how its work is another.
fn beside_harfbuzz(name: String, tables: Rc<Tables>, lines: &[Kerned]) -> (Option<Subject>, String) {
    let mut harfbuzz = match Harfbuzz::open(GLYPHS, &tables.morx, &tables.kerx[ALONE_AT..]) {
        Some(harfbuzz) => harfbuzz,
        None => return (None, "HarfBuzz was not measured, as its library is not there".into()),
    };
    let typed = |kerned: &Kerned| typed_characters(&kerned.line.glyphs[..kerned.line.length()]);
    let characters: Vec<Vec<u32>> = lines.iter().map(typed).collect();
    let mut line = lines[0].clone();
    let mut differ = (lines.iter().zip(&characters)).filter_map(|(fresh, typed)| {
        line.clone_from(fresh);
        ours::shape(&mut line, &tables);
        harfbuzz.shape(typed);
        let (ours, its) = (left_of(&line.line), harfbuzz.glyphs());
        (ours != its).then(|| format!("{:?} where ours are {:?}", its, ours))
    });
    let glyphs = match differ.next() {
        None => "its glyphs are ours on every line, its kerning was not compared".into(),
        Some(first) => format!("its glyphs differ on {} lines, on the first {}", 1 + differ.count(), first),
    };
    let note = format!(
        "HarfBuzz {}, besides morx and kerx, sets its buffer up, maps characters to glyphs by cmap, sets advances, merges clusters \
         and takes deleted glyphs out before it kerns; {}",
        harfbuzz.version(),
        glyphs
    );
    let fresh = lines.to_vec();
    let ours = move || {
        for kerned in &fresh {
            line.clone_from(kerned);
            ours::shape(&mut line, &tables);
        }
    };
    let its = move || characters.iter().for_each(|typed| harfbuzz.shape(typed));
    (Some(Subject::of_turns(name, PLACES, lines.len(), ours, its)), note)
}

/// A line of these glyphs, in a room of twice its places, and its adjustments.
fn typed(glyphs: &[u16]) -> Kerned {
    let line = line_of(glyphs, 2 * glyphs.len());
    Kerned { along: vec![0; line.glyphs.len()], line }
}

/// A morx table of five subtables, one of each kind, by lookup tables of 256 records for the same glyphs, and these. Each
/// machine acts at two neighbours.
fn morx_table(random: &mut Random) -> (Vec<u8>, Vec<u16>) {
    let (_, covered) = searched(6, 256, || 0);
    let (substitutes, _) = searched(6, 256, || random.among(&covered));
    let mut subtables = vec![subtable(4, &substitutes)];
    for actions in [contextual(true), ligating(GLYPHS), rearranging(true), inserting(1)] {
        let (classes, _) = searched(6, 256, || 4 + random.below(4) as u16);
        subtables.push(actions.of_neighbours(classes));
    }
    (morx(&[chain(1, &[], &subtables)]), covered)
}

/// The glyphs of a line but for those that are deleted.
fn left_of(line: &Line) -> Vec<u16> {
    line.glyphs[..line.length()].iter().copied().filter(|glyph| *glyph != DELETED).collect()
}

/// 2,000 pairs of the glyphs that these lines have when they are shaped.
fn ordered_pairs(random: &mut Random, morx: &[u8], lines: &[Kerned]) -> Vec<u8> {
    let shaped = |kerned: &Kerned| {
        let mut line = kerned.line.clone();
        theirs::run(&mut line, morx);
        left_of(&line)
    };
    let mut glyphs: Vec<u16> = lines.iter().flat_map(shaped).collect();
    glyphs.sort_unstable();
    glyphs.dedup();
    let mut pairs: Vec<Pair> =
        glyphs.iter().flat_map(|left| glyphs.iter().map(move |right| (*left, *right, 30))).collect();
    random.shuffle(&mut pairs);
    pairs.truncate(2_000);
    pairs.sort_unstable();
    KERX.subtable(KERX.plain(), 0, &KERX.pairs(pairs.len() as u32, &pairs))
}
