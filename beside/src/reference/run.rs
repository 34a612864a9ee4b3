//! Document 01's whole run of a morx table, over the crate's chains and subtables, with the features that W-202 lets be asked for.

use crate::reference::line::Line;
use crate::reference::opened::aat::morx as opened;
use crate::reference::oracle::aat::morx::{chains, Chain, Feature, Subtable};
use crate::reference::oracle::{caught, Answer, Fault, LONGEST_TABLE};
use crate::reference::passes_by_crate::{caught_pass, is_chosen};

/// The most heads that are counted.
pub const MOST_HEADS: u32 = 65_535;

/// The most requests that are not refused.
pub const MOST_REQUESTS: usize = 64;

/// The request for a setting of a feature's type.
pub fn request(kind: u16, setting: u16) -> u32 {
    u32::from(kind) << 16 | u32::from(setting)
}

/// The flags that choose a chain's subtables: its own, changed by each feature that is asked for, in the table's order.
pub fn flags_of(chain: &Chain, requests: &[u32]) -> u32 {
    let is_asked_for = |feature: &Feature| requests.contains(&request(feature.selector, feature.setting_selector));
    let change = |flags, feature: Feature| flags & feature.disable_flags | feature.enable_flags;
    // Without requests the features are not looked at; there may be very many.
    let features = if requests.is_empty() { None } else { Some(chain.features()) };
    features.into_iter().flatten().filter(is_asked_for).fold(chain.default_flags(), change)
}

/// A subtable on the way of a run.
pub struct Visit<'a> {
    /// The number of its chain, and its own among the chain's.
    pub number: (u32, u32),
    pub default_flags: u32,
    /// The same after the features that were asked for, which choose.
    pub chain_flags: u32,
    pub coverage: u32,
    pub flags: u32,
    /// Whether the run makes its pass, if it is of a kind that can be read.
    pub is_chosen: bool,
    /// Whether the line is turned round for it.
    pub is_turned: bool,
    /// The same subtable, by the crate's copy, and where it begins in the table.
    pub opened: Option<(usize, opened::SubtableKind<'a>)>,
}

/// A run from this place of a table on, on a line whose text runs this way, with these features asked for.
pub struct Run<'a> {
    pub table: &'a [u8],
    pub start: u64,
    pub right_to_left: bool,
    pub requests: &'a [u32],
}

/// What a run from this place of a table on is refused for, on what is a line or not.
pub fn refusal_of_run(table: &[u8], is_line: bool, start: u64) -> Option<Answer<()>> {
    let refusals = [
        (table.len() > LONGEST_TABLE, Answer::Table),
        (!is_line, Answer::Line),
        (start > table.len() as u64, Answer::Head),
    ];
    refusals.into_iter().find(|refusal| refusal.0).map(|refusal| refusal.1)
}

impl Run<'_> {
    /// What the run is refused for.
    pub fn refusal(&self, line: &Line) -> Option<Answer<()>> {
        match refusal_of_run(self.table, line.is_line(), self.start) {
            Some(Answer::Table) => Some(Answer::Table),
            _ if self.requests.len() > MOST_REQUESTS => Some(Answer::Request),
            refusal => refusal,
        }
    }

    /// The answer and the heads that were counted; each subtable is shown before its pass, with the line.
    pub fn make(&self, line: &mut Line, show: &mut dyn FnMut(Visit, &Line)) -> Result<(Answer<()>, u32), Fault> {
        let start = self.start as u32;
        let (mut heads, mut number) = (0, (0, 0));
        let mut copies = opened::chains(self.table, start);
        let mut left = chains(self.table, start);
        while let Some(chain) = caught(|| left.next())? {
            let copy = copies.next();
            if heads == MOST_HEADS {
                return Ok((Answer::Limit, heads));
            }
            heads += 1;
            let flags = caught(|| flags_of(&chain, self.requests))?;
            let mut copies = copy.map(|copy| copy.subtables());
            let mut left = chain.subtables();
            while let Some(subtable) = caught(|| left.next())? {
                let copy = copies.as_mut().and_then(|copies| copies.next());
                if heads == MOST_HEADS {
                    return Ok((Answer::Limit, heads));
                }
                heads += 1;
                let opened = copy.and_then(|copy| Some((self.start as usize + copy.offset, copy.kind()?)));
                let visit = self.visit(number, [chain.default_flags(), flags], &subtable, opened);
                let (is_chosen, is_turned) = (visit.is_chosen, visit.is_turned);
                show(visit, line);
                if is_chosen && self.pass(&subtable, is_turned, line)? == Answer::Full {
                    return Ok((Answer::Full, heads));
                }
                number.1 += 1;
            }
            number = (number.0 + 1, 0);
        }
        Ok((Answer::Done(()), heads))
    }

    fn visit<'a>(
        &self,
        number: (u32, u32),
        [default_flags, chain_flags]: [u32; 2],
        subtable: &Subtable,
        opened: Option<(usize, opened::SubtableKind<'a>)>,
    ) -> Visit<'a> {
        Visit {
            number,
            default_flags,
            chain_flags,
            coverage: subtable.coverage(),
            flags: subtable.flags(),
            is_chosen: is_chosen(chain_flags, subtable),
            is_turned: subtable.should_reverse(self.right_to_left),
            opened,
        }
    }

    /// The pass by a subtable that was chosen, the line turned round before and after where that is asked for.
    fn pass(&self, subtable: &Subtable, is_turned: bool, line: &mut Line) -> Result<Answer<()>, Fault> {
        let kind = match caught(|| subtable.kind())? {
            Some(kind) => kind,
            None => return Ok(Answer::Head),
        };
        if is_turned {
            line.reverse();
        }
        let answer = caught_pass(&kind, line)?;
        if is_turned {
            line.reverse();
        }
        Ok(answer)
    }
}
