//! The ligature kind: bodies of its subtables.

use crate::reference::line::{Line, DELETED};
use crate::reference::oracle::Answer;
use crate::reference::pass::line_of;
use crate::tables::kinds::{Example, Kind};
use crate::tables::lookup::words;
use crate::tables::morx::{any_machine, body_of, small_machine, Placed};
use crate::tables::random::Random;
use crate::wire::entries::Entry;
use std::ops::Range;

/// Ligatures.
pub const KIND: Kind =
    Kind { name: "ligature", number: 2, pass: Entry::LigaturePass, examples, short_bodies, any_body, limits };

const PUSH: u16 = 0x8000;
const STAY: u16 = 0x4000;
const ACT: u16 = 0x2000;

const LAST: u32 = 0x8000_0000;
const STORE: u32 = 0x4000_0000;

/// An action: its flags, and the signed offset from a glyph to its component.
fn action(flags: u32, offset: i32) -> u32 {
    flags | offset as u32 & 0x3FFF_FFFF
}

/// What stands behind the entries.
fn lists(actions: &[u32], components: &[u16], ligatures: &[u16]) -> [Vec<u8>; 3] {
    let actions = actions.iter().flat_map(|action| action.to_be_bytes()).collect();
    [actions, words(components), words(ligatures)]
}

/// A body that does nothing but by these entries, over the classes 4 and 5 of the glyphs 10 and 11. An action of these flags
/// adds 0 for glyph 10, 1 for 11 and more for a few behind them; the ligatures are 20, 21, 10, 11 and so on.
fn small_body(entries: &[Placed], flags: &[u32]) -> Vec<u8> {
    let actions: Vec<u32> = flags.iter().map(|flags| action(*flags, -10)).collect();
    small_machine(2, 2, &[0, 0], entries, &small_lists(&actions))
}

/// These actions with components that count up and the ligatures 20, 21, 10, 11 and so on.
fn small_lists(actions: &[u32]) -> [Vec<u8>; 3] {
    let components: Vec<u16> = (0..12).collect();
    lists(actions, &components, &[20, 21, 10, 11].repeat(30))
}

/// A body whose one action, for glyph 10, is this word.
fn one_action(action: u32) -> Vec<u8> {
    small_machine(1, 1, &[0, 0], &[(0, 4, &[0, PUSH | ACT, 0])], &small_lists(&[action]))
}

/// A body that makes a ligature of each 10 and the 11 behind it, and takes it from the stack at the next 10.
pub fn pairs() -> Vec<u8> {
    let entries: [Placed; 3] = [(0, 4, &[1, ACT | STAY, 2]), (1, 4, &[0, PUSH, 0]), (0, 5, &[0, PUSH | ACT, 0])];
    small_body(&entries, &[0, LAST, 0, 0])
}

/// A body that asks for the most at each 10: pushed once and then eight times at each place, it makes a ligature of the first place
/// again and again, as often as actions are followed, with eight components each, for which all homes are looked at.
pub fn most_scans() -> Vec<u8> {
    let pushes: Vec<[u16; 3]> = (0..9).map(|state| [state + 1, PUSH | STAY, 0]).collect();
    let mut entries: Vec<Placed> = (0..9).zip(&pushes).map(|(state, entry)| (state, 4, &entry[..])).collect();
    entries.push((9, 4, &[1, ACT, 0]));
    let actions = [[action(0, -10); 8].to_vec(), vec![action(STORE, -10); 26]].concat();
    small_machine(1, 10, &[0, 0], &entries, &lists(&actions, &[0; 12], &[10; 40]))
}

/// The table of an entry that acts for each of two glyphs, 5 and 6, and stores twice.
const STORES_TWICE: &str = "0002000000000001000000010000009400000000000000010000008400000002000000010000000600\
    00001c0000002600000032000000440000004c0000006e000800050002000400050000000000000000000100020000000000000000800000\
    000000a00000007ffffffbbffffffb0000000100000000000000000000000000000000000000000000000000000000000200140015001600\
    170018";

/// The same with a third glyph, which is popped first: the sum runs on behind a store.
const SUM_RUNS_ON: &str = "000200000000000100000001000000b00000000000000001000000a0000000020000000100000007000000\
    1c0000002800000044000000560000006200000088000800050003000400040005000000000000000000010002000000000000000000000001\
    000200000000000000000000800000000000a00000003ffffffb7ffffffbbffffffb000000010001000000000000000000000000000000000000\
    0000000000000000000000020002001400150016001700180019";

/// The second entry for 6 is found by the class that 6 had, although a ligature stands there.
const CLASS_IS_KEPT: &str = "0002000000000001000000010000008c00000000000000010000007c00000002000000010000000600000\
    01c000000260000003e0000005600000062000000660008000500020004000500000000000000000001000200000000000000000000000300000\
    00000000000800000000001e00000000000a00000023ffffffbbffffffbbffffffb0000000400140015001600170018";

/// The entry for the end of text acts.
const ACTS_AT_END: &str = "000200000000000100000001000000700000000000000001000000600000000200000001000000060000001\
    c0000002600000032000000440000004c00000050000800050002000400050002000000000000000100010000000000000000800000000000200\
    000003ffffffbbffffffb0000000000140015";

/// What the documents say of stacks, actions, components and the end of a pass, and tables on which the crate and the manual
/// part.
fn examples() -> Vec<Example> {
    use Answer::{Done, Ended};
    let push: Placed = (0, 4, &[0, PUSH, 0]);
    let act: Placed = (0, 5, &[0, PUSH | ACT, 0]);
    let act_alone: Placed = (0, 5, &[0, ACT, 0]);
    let push_twice: Placed = (0, 4, &[1, PUSH | STAY, 0]);
    let again: Placed = (1, 4, &[0, PUSH, 0]);
    let twice: [Placed; 3] = [push, (0, 5, &[1, PUSH | STAY, 0]), (1, 5, &[0, PUSH | ACT, 0])];
    let at_end: Placed = (0, 0, &[0, PUSH | ACT, 0]);
    let far_action: Placed = (0, 5, &[0, PUSH | ACT, 900]);
    let none = DELETED;
    let pair = [0, LAST];
    vec![
        Example::new(small_body(&[push, act], &pair), &[10, 11, 12], &[21, none, 12], Done(())).homes(&[0, 0, 2]),
        Example::new(small_body(&[push, act], &[LAST]), &[10, 11], &[10, 21], Done(())).homes(&[0, 1]),
        Example::new(small_body(&[push, act], &[0]), &[10, 10], &[10, 10], Done(())).homes(&[0, 1]),
        Example::new(small_body(&[push_twice, again, act_alone], &pair), &[10, 11], &[20, 11], Done(())).homes(&[0, 1]),
        Example::new(small_body(&[push_twice, again, act], &[0, 0, LAST]), &[10, 11], &[21, none], Done(()))
            .homes(&[0, 0]),
        Example::new(small_body(&twice, &[0, 0, LAST]), &[10, 11], &[10, none], Done(())).homes(&[0, 0]),
        Example::new(small_body(&[push, at_end], &[0, LAST]), &[10], &[10], Ended).homes(&[0]),
        Example::new(small_body(&[push, far_action], &pair), &[10, 11], &[10, 11], Ended),
        Example::new(small_body(&[act], &[LAST]), &[], &[], Done(())),
        // 30 bits are -1, the least and the largest number.
        Example::new(one_action(LAST | 0x3FFF_FFFF), &[10], &[21], Done(())).homes(&[0]),
        Example::new(one_action(LAST | 0x2000_0000), &[10], &[10], Ended).homes(&[0]),
        Example::new(one_action(LAST | 0x1FFF_FFFF), &[10], &[10], Ended).homes(&[0]),
        Example::new(body_of(STORES_TWICE), &[5, 6], &[5, 23], Done(())).homes(&[0, 1]),
        Example::new(body_of(SUM_RUNS_ON), &[5, 6, 7], &[5, 24, none], Done(())).homes(&[0, 1, 1]),
        Example::new(body_of(CLASS_IS_KEPT), &[5, 6], &[24, 24], Done(())).homes(&[0, 0]),
        Example::new(body_of(ACTS_AT_END), &[5, 6], &[20, none], Done(())).homes(&[0, 0]),
    ]
}

/// Every entry for one glyph, with every one for the other, with two for the end of text, and with lists of every few
/// actions.
fn short_bodies(hand_over: &mut dyn FnMut(Vec<u8>)) {
    let entries = all_entries();
    let lists = [[0, 0, LAST], [0, LAST, 0], [STORE, LAST, 0], [0, STORE, 0], [STORE, STORE, STORE], [0, 0, 0]];
    for actions in lists {
        for entry in &entries {
            for other in &entries {
                for end in [[0, 0, 0], [1, ACT, 0]] {
                    hand_over(small_body(&[(0, 4, entry), (0, 5, other), (0, 0, &end)], &actions));
                }
            }
        }
    }
}

/// All flags, with some first actions for those that act.
fn all_entries() -> Vec<[u16; 3]> {
    let quiet = [0, PUSH, STAY, PUSH | STAY].map(|flags| [0, flags, 0]);
    let acting = quiet.iter().flat_map(|[state, flags, _]| [0, 1, 3].map(|first| [*state, flags | ACT, first]));
    quiet.into_iter().chain(acting).collect()
}

/// Any machine with any lists; some never advance, some always, some act seldom, and some lists are long.
fn any_body(random: &mut Random, glyphs: &Range<u16>) -> Vec<u8> {
    let stays = random.among(&[0, 1, 1, 1, 2, 4]);
    let acts = random.among(&[1, 2, 2, 5]);
    let lasts = random.among(&[2, 3, 20, 1_000]);
    let size = random.among(&[1, 2, 4, 4, 8, 35, 50]);
    let actions: Vec<u32> = (0..size).map(|_| any_action(random, glyphs, lasts)).collect();
    let components: Vec<u16> = (0..glyphs.len() + 2 + random.below(20)).map(|_| any_component(random)).collect();
    let ligatures: Vec<u16> = (0..random.among(&[4, 20, 60])).map(|_| any_ligature(random, glyphs)).collect();
    let any_entry = |random: &mut Random| {
        let mut flags = random.among(&[0, PUSH, PUSH, PUSH]) | if random.once_in(acts) { ACT } else { 0 };
        if random.below(4) < stays {
            flags |= STAY;
        }
        if random.once_in(16) {
            flags |= random.word() & 0x1FFF;
        }
        vec![flags, if random.once_in(30) { random.word() } else { random.below(size) as u16 }]
    };
    any_machine(random, glyphs, &any_entry, &lists(&actions, &components, &ligatures))
}

fn any_action(random: &mut Random, glyphs: &Range<u16>, lasts: usize) -> u32 {
    let flags = match random.below(lasts) {
        0 => LAST | random.among(&[0, STORE]),
        1 => STORE,
        _ => 0,
    };
    let right = random.below(3) as i32 - i32::from(glyphs.start);
    match random.below(40) {
        0 => action(flags, random.number() as i32),
        1 => action(flags, right - 4),
        _ => action(flags, right),
    }
}

fn any_component(random: &mut Random) -> u16 {
    match random.below(30) {
        0 => random.word(),
        _ => random.among(&[0, 0, 0, 1, 2, 5]),
    }
}

fn any_ligature(random: &mut Random, glyphs: &Range<u16>) -> u16 {
    match random.below(12) {
        0 => random.word(),
        1 => DELETED,
        _ => glyphs.start + random.below(glyphs.len()) as u16,
    }
}

fn limits(hand_over: &mut dyn FnMut(Vec<u8>, Line)) {
    deep_stacks(hand_over);
    last_actions(hand_over);
}

/// Stacks about as deep as they can be, under lists about as long as can be followed; the glyph behind those pushed acts, or
/// the end of text.
fn deep_stacks(hand_over: &mut dyn FnMut(Vec<u8>, Line)) {
    for pushes in [1, 2, 15, 16, 17, 18, 30, 31, 32, 33, 34] {
        for size in [1, 2, 16, 17, 18, 30, 31, 32, 33, 34, 35, 50] {
            for (flags, last) in [(0, 0), (0, LAST), (0, STORE), (STORE, STORE), (STORE, LAST)] {
                let actions = [vec![flags; size - 1], vec![last]].concat();
                for acting in [ACT, ACT | STAY, ACT | PUSH, ACT | PUSH | STAY] {
                    for class in [0, 5] {
                        let entries: [Placed; 2] = [(0, 4, &[0, PUSH, 0]), (0, class, &[0, acting, 0])];
                        let glyphs = [vec![10; pushes], vec![11, 10]].concat();
                        let line = line_of(&glyphs[..pushes + usize::from(class) / 3], pushes + 2);
                        hand_over(small_body(&entries, &actions), line);
                    }
                }
            }
        }
    }
}

/// Lists that end with action 65,535, or just before it and are read on.
fn last_actions(hand_over: &mut dyn FnMut(Vec<u8>, Line)) {
    let most = 1 << 16;
    for (size, flags) in [(most, LAST), (most, STORE), (most, 0), (most - 1, 0), (most - 1, LAST)] {
        let mut actions = vec![0; most - 3];
        actions.extend([0, STORE, flags]);
        for first in [0xFFFD, 0xFFFE, 0xFFFF] {
            let entries: [Placed; 2] = [(0, 4, &[0, PUSH, 0]), (0, 5, &[0, PUSH | ACT, first])];
            hand_over(small_body(&entries, &actions[most - size..]), line_of(&[10, 10, 10, 11], 4));
        }
    }
}
