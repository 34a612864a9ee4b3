//! Document 01's whole run of a kern or kerx table, over the crate's subtables.

use crate::reference::kerning::{Kerned, Kerning, Subtable};
use crate::reference::kerning_choices::Choices;
use crate::reference::oracle::aat::{kern, kerx};
use crate::reference::oracle::{caught, Answer, Fault};
use crate::reference::run::{refusal_of_run, MOST_HEADS};

/// A whole run of the table whose list begins at `start`.
#[derive(Clone, Copy)]
pub struct Run<'a> {
    pub kerning: Kerning,
    pub table: &'a [u8],
    pub start: u64,
    pub right_to_left: bool,
    pub choices: Choices,
}

/// A subtable on the way of a run.
pub struct Visit<'a> {
    /// Why it is passed over, if it is.
    pub passed_over: Option<&'static str>,
    /// Whether line and adjustments are turned round for it.
    pub is_turned: bool,
    pub subtable: Option<Subtable<'a>>,
}

impl<'a> Run<'a> {
    /// What the run is refused for.
    pub fn refusal(&self, lent: &Kerned) -> Option<Answer<()>> {
        refusal_of_run(self.table, lent.is_line(), self.start)
    }

    /// The answer and the heads that were counted.
    pub fn make(&self, lent: &mut Kerned) -> Result<(Answer<()>, u32), Fault> {
        self.make_showing(lent, &mut |_, _| {})
    }

    /// The same, each subtable shown before its pass.
    pub fn make_showing(
        &self,
        lent: &mut Kerned,
        show: &mut dyn FnMut(&Visit, &Kerned),
    ) -> Result<(Answer<()>, u32), Fault> {
        lent.used().1.fill(0);
        let mut heads = 0;
        let mut left = Visit::all(self.kerning, self.table, self.start as u32, self.right_to_left);
        while let Some(visit) = caught(|| left.next())? {
            if heads == MOST_HEADS {
                return Ok((Answer::Limit, heads));
            }
            heads += 1;
            show(&visit, lent);
            visit.make(lent, self.choices)?;
        }
        Ok((Answer::Done(()), heads))
    }
}

/// The first reason that holds.
fn first_of<const N: usize>(reasons: [(bool, &'static str); N]) -> Option<&'static str> {
    reasons.into_iter().find(|reason| reason.0).map(|reason| reason.1)
}

/// The subtables of a list, one after the other.
pub type Visits<'a> = Box<dyn Iterator<Item = Visit<'a>> + 'a>;

impl<'a> Visit<'a> {
    /// Those of the list that begins at a start.
    pub fn all(kerning: Kerning, table: &'a [u8], start: u32, right_to_left: bool) -> Visits<'a> {
        match kerning {
            Kerning::Kern => Box::new(kern::subtables(table, start).map(|subtable| Visit {
                passed_over: first_of([
                    (!subtable.is_horizontal(), "not for horizontal text"),
                    (subtable.cross_stream(), "across the line"),
                ]),
                is_turned: false,
                subtable: Subtable::of_kern(&subtable),
            })),
            Kerning::Kerx => Box::new(kerx::subtables(table, start, 0).map(move |subtable| Visit {
                passed_over: first_of([
                    (subtable.is_vertical(), "for vertical text"),
                    (subtable.is_cross_stream(), "across the line"),
                    (subtable.has_variations(), "for variations"),
                ]),
                is_turned: subtable.should_reverse(right_to_left),
                subtable: Subtable::of_kerx(&subtable),
            })),
        }
    }

    /// The pass, the line turned round before and after where that is asked for.
    fn make(&self, lent: &mut Kerned, choices: Choices) -> Result<(), Fault> {
        let subtable = match &self.subtable {
            Some(subtable) if self.passed_over.is_none() => subtable,
            _ => return Ok(()),
        };
        if self.is_turned {
            lent.reverse();
        }
        lent.pass(subtable, choices)?;
        if self.is_turned {
            lent.reverse();
        }
        Ok(())
    }
}
