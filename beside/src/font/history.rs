//! What each subtable did to a line, in the words of its history.

use crate::font::met::{Rows, Subtable};
use crate::font::show::{more, Look};
use crate::reference::anchored::{Mark, Marks};
use crate::reference::anchored_by_copy as anchored;
use crate::reference::carried::Moved;
use crate::reference::kerning::{self, Kerned};
use crate::reference::kerning_by_copy::{machines, Machine};
use crate::reference::line::Line;
use crate::reference::opened::aat::kerx::Format4;
use crate::reference::opened::aat::morx::{
    ContextualState, InsertionState, LigatureState, RearrangementState, SubtableKind,
};
use crate::reference::oracle::{caught_as_none, Answer, Fault};
use crate::reference::pass::{make_steps, stepped};
use crate::reference::run::{Run, Visit};
use crate::reference::steps_by_copy::verb_of;
use crate::reference::{kerning_run, line, mort};

/// An edit of a line, the glyph that a write puts over another, the number that kerning adds, or a mark that is anchored.
enum Edit {
    Window { first: usize, last: usize, verb: u16 },
    Reversal,
    Insertion { place: usize, glyphs: Vec<u16> },
    Ligature { place: usize, glyph: u16, components: Vec<usize> },
    Write { place: usize, before: u16, glyph: u16 },
    Addition { place: usize, number: i64 },
    Mark { place: usize, mark: Mark },
}

impl Edit {
    /// What the history has of it.
    fn moved(&self) -> Option<Moved> {
        Some(match self {
            Edit::Window { first, last, verb } => Moved::Window { first: *first, last: *last, verb: *verb },
            Edit::Reversal => Moved::Reversal,
            Edit::Insertion { place, glyphs } => Moved::Insertion { place: *place, count: glyphs.len() },
            Edit::Ligature { place, components, .. } => {
                Moved::Ligature { place: *place, components: components.clone() }
            }
            Edit::Write { .. } | Edit::Addition { .. } | Edit::Mark { .. } => return None,
        })
    }

    fn describe(&self, look: &Look) -> String {
        let named = |glyphs: &[u16]| glyphs.iter().map(|glyph| look.called(*glyph)).collect::<Vec<_>>().join(" ");
        match self {
            Edit::Window { first, last, verb } => {
                format!("window {} to {}, verb {}: {}", first, last, verb, line::drawn(*verb))
            }
            Edit::Reversal => "reversal of the line".into(),
            Edit::Insertion { place, glyphs } => {
                format!("insertion at {} of {}: {}", place, glyphs.len(), named(glyphs))
            }
            Edit::Ligature { place, glyph, components } => {
                let components: Vec<String> = components.iter().map(usize::to_string).collect();
                format!("ligature at {}: {}, components {}", place, named(&[*glyph]), components.join(" "))
            }
            Edit::Write { place, before, glyph } => {
                format!("write at {}: {} over {}", place, named(&[*glyph]), named(&[*before]))
            }
            Edit::Addition { place, number } => format!("addition at {}: {}", place, number),
            Edit::Mark { place, mark: (x, y, back) } => format!("mark at {}: {} {}, {} back", place, x, y, back),
        }
    }
}

/// What a run of a morx table by the crate's copy adds to the history, which it makes.
pub fn moves_of(run: &Run, line: &mut Line) -> Result<Vec<Moved>, Fault> {
    let (mut left, mut moves, mut fault) = (line.clone(), Vec::new(), None);
    run.make(line, &mut |visit, _| match tell_visit(&visit, &mut left) {
        Ok(told) => moves.extend(told.edits.iter().filter_map(|(_, edit)| edit.moved())),
        Err(other) => fault = Some(other),
    })?;
    fault.or((left != *line).then_some(Fault::Disputed)).map_or(Ok(moves), Err)
}

/// What a subtable did: which it is, whether it was at work, and its edits, each with the place of its step.
struct Told {
    subtable: Subtable,
    about: String,
    edits: Vec<(usize, Edit)>,
    /// How its pass went, if not to the end of the line.
    end: Option<String>,
}

impl Told {
    fn print(&self, look: &Look, rows: &Rows) {
        println!("{}: {}", self.subtable, self.about);
        for (place, edit) in self.edits.iter().take(look.most) {
            match edit {
                Edit::Reversal => println!("  {}", edit.describe(look)),
                _ => println!("  step at {}: {}", place, edit.describe(look)),
            }
        }
        if self.edits.len() > look.most {
            println!("  .. {} of {} edits are not shown", self.edits.len() - look.most, self.edits.len());
        }
        if let Some(end) = &self.end {
            println!("  {}", end);
        }
        for (row, spots) in rows {
            let here: Vec<_> = spots.iter().filter(|spot| spot.subtable == self.subtable).collect();
            if let [first, others @ ..] = &here[..] {
                let place = first.place.map_or(String::new(), |place| format!(" at {}", place));
                println!("  meets row {}{}{}", row, place, more(others.len()));
            }
        }
    }
}

/// Tells the runs' subtables, as many as are shown.
struct Teller<'a> {
    look: &'a Look<'a>,
    rows: &'a Rows,
    told: usize,
}

impl Teller<'_> {
    fn tell(&mut self, told: &Told) {
        if self.told < self.look.most {
            told.print(self.look, self.rows);
        }
        self.told += 1;
    }

    fn say(&self, words: String) {
        if self.told < self.look.most {
            println!("{}", words);
        }
    }

    fn end(&self, answer: Answer<()>, heads: u32) {
        if self.told > self.look.most {
            println!(".. {} of {} subtables are not shown", self.told - self.look.most, self.told);
        }
        if answer == Answer::Limit {
            println!("LIMIT: {} heads are counted, and there are more; the run ends", heads);
        }
    }
}

/// Tells the run of a morx table by the crate; disputed where a pass that was told left another line.
pub fn tell_morx(run: &Run, line: &mut Line, look: &Look, rows: &Rows) -> Result<(), Fault> {
    let mut teller = Teller { look, rows, told: 0 };
    let (mut left, mut fault, mut chain) = (line.clone(), None, None);
    let show = &mut |visit: Visit, line: &Line| {
        if chain != Some(visit.number.0) {
            chain = Some(visit.number.0);
            let default = format!("morx chain {}: default flags {:08X}", visit.number.0, visit.default_flags);
            let asked_for = format!(", by the features {:08X}", visit.chain_flags);
            teller.say(default + if run.requests.is_empty() { "" } else { &asked_for });
        }
        if left != *line {
            fault = Some(Fault::Disputed);
        }
        left.clone_from(line);
        match tell_visit(&visit, &mut left) {
            Ok(told) => teller.tell(&told),
            Err(other) => fault = Some(other),
        }
    };
    let (answer, heads) = run.make(line, show)?;
    teller.end(answer, heads);
    fault.or((left != *line).then_some(Fault::Disputed)).map_or(Ok(()), Err)
}

/// Tells the history of a run of a mort table, by its model.
pub fn tell_mort(run: &Run, line: &mut Line, look: &Look) {
    let mut edits = Vec::new();
    let (answer, heads) = mort::run(run, line, &mut |edit| edits.push(edit));
    println!("mort: edits: {}", edits.len());
    for edit in edits.iter().take(look.most) {
        match edit {
            Moved::Window { first, last, verb } => {
                println!("  window {} to {}, verb {}: {}", first, last, verb, line::drawn(*verb))
            }
            _ => println!("  reversal of the line"),
        }
    }
    Teller { look, rows: &Rows::new(), told: 0 }.end(answer, heads);
}

fn tell_visit(visit: &Visit, line: &mut Line) -> Result<Told, Fault> {
    const KINDS: [&str; 6] = ["rearrangement", "contextual", "ligature", "kind 3", "non-contextual", "insertion"];
    let kind = visit.coverage & 0xFF;
    let kind = KINDS.get(kind as usize).map_or_else(|| format!("kind {}", kind), |kind| kind.to_string());
    let head = format!("{}, coverage {:08X}, flags {:08X}", kind, visit.coverage, visit.flags);
    let mut told =
        Told { subtable: Subtable::of_morx(visit.number), about: String::new(), edits: Vec::new(), end: None };
    let verdict = match &visit.opened {
        _ if visit.chain_flags & visit.flags == 0 => {
            let flags = if visit.chain_flags == visit.default_flags { "default flags" } else { "flags" };
            format!("passed over, as the chain's {} {:08X} have none of its own", flags, visit.chain_flags)
        }
        _ if !visit.is_chosen => "passed over, as it is for vertical text".into(),
        None => "passed over, as it can't be opened".into(),
        Some(_) if visit.is_turned => "chosen, turned".into(),
        Some(_) => "chosen".into(),
    };
    told.about = format!("{}: {}", head, verdict);
    if let (Some((_, subtable)), true) = (&visit.opened, visit.is_chosen) {
        let see = &mut |place, edit| told.edits.push((place, edit));
        if visit.is_turned {
            line.reverse();
            see(0, Edit::Reversal);
        }
        let mut at = 0;
        let answer = caught_as_none(|| Some(pass(subtable, line, &mut at, see)))?.unwrap_or(Answer::Ended);
        if visit.is_turned {
            line.reverse();
            see(0, Edit::Reversal);
        }
        told.end = end(answer, at, line.glyphs.len());
    }
    Ok(told)
}

/// How a pass whose last step was at a place ended, if not at the end of the line.
fn end(answer: Answer<()>, at: usize, room: usize) -> Option<String> {
    match answer {
        Answer::Done(()) => None,
        Answer::Full => Some(format!("FULL in the step at {}: the room has {} places; the run ends", at, room)),
        _ => Some(format!("ENDED in the step at {}", at)),
    }
}

/// The pass by the crate's copy, as `passes_by_crate` has it for the crate; it tells the place of its last step, and each edit.
fn pass(subtable: &SubtableKind, line: &mut Line, at: &mut usize, see: &mut dyn FnMut(usize, Edit)) -> Answer<()> {
    let mut steps = |line: &mut Line, step: &mut dyn FnMut(&mut Line, usize, u16, bool) -> Answer<usize>| {
        make_steps(line, |line, place, glyph, is_end| {
            *at = place;
            step(line, place, glyph, is_end)
        })
    };
    match subtable {
        SubtableKind::Rearrangement(machine) => {
            let mut state = RearrangementState::new();
            steps(line, &mut |line, place, glyph, is_end| {
                stepped(machine.next(&mut state, place, glyph, is_end, |window| {
                    let (first, last, verb) = (window.start, window.end, verb_of(window) as u16);
                    see(place, Edit::Window { first, last, verb });
                    line.rearrange(first, last, verb);
                    Some(())
                }))
            })
        }
        SubtableKind::Contextual(machine) => {
            let mut state = ContextualState::new();
            steps(line, &mut |line, place, glyph, is_end| {
                let write = |at: usize, glyph| {
                    if let Some(before) = line.glyphs[..line.length()].get(at) {
                        see(place, Edit::Write { place: at, before: *before, glyph });
                    }
                    line.write(at, glyph);
                    Some(())
                };
                stepped(machine.next(&mut state, place, glyph, is_end, write).map(|()| 1))
            })
        }
        SubtableKind::Ligature(machine) => {
            let mut state = LigatureState::new();
            steps(line, &mut |line, place, glyph, is_end| {
                let ligate = |at, glyph, components: &[usize]| {
                    see(place, Edit::Ligature { place: at, glyph, components: components.to_vec() });
                    line.ligate(at, glyph, components);
                    Some(())
                };
                stepped(machine.next(&mut state, place, glyph, is_end, ligate).map(|()| 1))
            })
        }
        SubtableKind::NonContextual(lookup) => {
            for place in 0..line.length() {
                let before = line.glyphs[place];
                if let Some(glyph) = lookup.substitute(before) {
                    see(place, Edit::Write { place, before, glyph });
                    line.write(place, glyph);
                }
            }
            Answer::Done(())
        }
        SubtableKind::Insertion(machine) => {
            let mut state = InsertionState::new();
            steps(line, &mut |line, place, glyph, is_end| {
                let mut fits = true;
                let given = machine.next(&mut state, place, glyph, is_end, |at, glyphs| {
                    fits = line.insert(at, glyphs.len(), glyphs.iter());
                    if fits {
                        see(place, Edit::Insertion { place: at, glyphs: glyphs.iter().collect() });
                    }
                    fits.then_some(())
                });
                if fits {
                    stepped(given)
                } else {
                    Answer::Full
                }
            })
        }
    }
}

/// Tells the run of a kern or kerx table.
pub fn tell_kerning(
    run: &kerning_run::Run,
    ankr: &[u8],
    lent: &mut Kerned,
    look: &Look,
    rows: &Rows,
) -> Result<(), Fault> {
    let mut teller = Teller { look, rows, told: 0 };
    let mut fault = None;
    let mut copies = machines(run.kerning, run.table, run.start as u32);
    let is_marked = run.kerning == kerning::Kerning::Kerx && !ankr.is_empty();
    let mut anchors = is_marked.then(|| anchored::machines(run.table, run.start as u32, ankr));
    let mut number = 0;
    let show = &mut |visit: &kerning_run::Visit, lent: &Kerned| {
        let subtable = Subtable::of_list(run.kerning.name(), number);
        let machine = copies.next().flatten();
        let anchor = anchors.as_mut().and_then(|anchors| anchors.next().flatten());
        let told = match anchor {
            Some(anchor) if visit.passed_over.is_none() => tell_marks(subtable, visit, &anchor, lent),
            _ => tell_kerning_visit(subtable, visit, machine, lent),
        };
        match told {
            Ok(told) => teller.tell(&told),
            Err(other) => fault = Some(other),
        }
        number += 1;
    };
    let (answer, heads) = run.make_showing(lent, show)?;
    teller.end(answer, heads);
    fault.map_or(Ok(()), Err)
}

fn tell_kerning_visit(
    subtable: Subtable,
    visit: &kerning_run::Visit,
    machine: Option<Machine>,
    lent: &Kerned,
) -> Result<Told, Fault> {
    let head = visit.subtable.as_ref().map_or("nothing that can be read", kerning::Subtable::name);
    let mut told = Told { subtable, about: String::new(), edits: Vec::new(), end: None };
    let verdict = match (visit.passed_over, &visit.subtable) {
        (Some(why), _) => format!("passed over, as it is {}", why),
        (None, None) => "passed over".into(),
        (None, Some(_)) if visit.is_turned => "chosen, turned".into(),
        (None, Some(_)) => "chosen".into(),
    };
    told.about = format!("{}: {}", head, verdict);
    if let (Some(pairs), None) = (&visit.subtable, visit.passed_over) {
        let mut lent = lent.clone();
        if visit.is_turned {
            lent.reverse();
            told.edits.push((0, Edit::Reversal));
        }
        let (glyphs, along) = lent.used();
        match machine {
            Some(machine) => add_steps(&machine, glyphs, along, &mut told)?,
            None => told.edits.extend(glyphs.windows(2).enumerate().filter_map(|(place, pair)| {
                let number = pairs.get(pair[0], pair[1]).done()?.into();
                Some((place, Edit::Addition { place, number }))
            })),
        }
        if visit.is_turned {
            told.edits.push((0, Edit::Reversal));
        }
    }
    Ok(told)
}

/// What each step of a machine of format 4 writes.
fn tell_marks(subtable: Subtable, visit: &kerning_run::Visit, machine: &Format4, lent: &Kerned) -> Result<Told, Fault> {
    let turned = if visit.is_turned { ", turned" } else { "" };
    let mut told = Told { subtable, about: format!("anchored marks: chosen{}", turned), edits: Vec::new(), end: None };
    let mut lent = lent.clone();
    if visit.is_turned {
        lent.reverse();
        told.edits.push((0, Edit::Reversal));
    }
    let (glyphs, _) = lent.used();
    let (mut state, mut at) = ([0; 4], 0);
    let mut fault = None;
    let answer = kerning::make_steps(glyphs, |place, glyph| {
        // Whatever it is now, a mark that is written can be told from it.
        let mut marks = Marks { back: vec![u16::MAX; glyphs.len()], ..Marks::none(glyphs.len()) };
        at = place;
        let answer = anchored::step(machine, &mut state, place, glyph, glyphs.len(), &mut marks);
        if marks.back[place] != u16::MAX {
            told.edits.push((place, Edit::Mark { place, mark: marks.of_places(glyphs.len())[place] }));
        }
        answer.map_err(|other| fault = Some(other)).ok()?.done()
    });
    if visit.is_turned {
        told.edits.push((0, Edit::Reversal));
    }
    told.end = end(answer, at, glyphs.len());
    fault.map_or(Ok(told), Err)
}

/// What each step of a machine adds.
fn add_steps(machine: &Machine, glyphs: &[u16], along: &mut [i64], told: &mut Told) -> Result<(), Fault> {
    let (mut before, mut at) = (along.to_vec(), 0);
    let mut see = |step: usize, along: &[i64]| {
        for (place, (before, now)) in before.iter_mut().zip(along).enumerate() {
            if before != now {
                told.edits.push((step, Edit::Addition { place, number: *now - *before }));
                *before = *now;
            }
        }
    };
    let answer = machine.pass(glyphs, along, &mut |_, place, along| {
        see(at, along);
        at = place;
    })?;
    see(at, along);
    told.end = end(answer, at, glyphs.len());
    Ok(())
}
