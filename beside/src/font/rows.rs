//! The rows of docs/DIFFERENCES.md.

/// A row: its number, what it says of the crate, and what its line in beside/tried becomes by the crate, by HarfBuzz, and by the
/// box in the manual's reading, where its table has a column for that.
pub struct Row {
    pub number: u32,
    pub what: &'static str,
    pub by_crate: &'static str,
    pub by_harfbuzz: &'static str,
    pub by_manual: Option<&'static str>,
}

const DIFFERENCES: &str = include_str!("../../../docs/DIFFERENCES.md");

/// What stands in a cell of a row that has no line which the box, or hb-shape, could be asked for.
pub const NOT_RUN: &str = "-";

/// The column of what the box makes of a line in the manual's reading of kerx.
pub const BY_MANUAL: &str = "Box by the manual";

/// All rows, each by the head of its table.
pub fn rows() -> Vec<Row> {
    let mut head = Vec::new();
    let mut rows = Vec::new();
    for line in DIFFERENCES.lines() {
        let cells: Vec<&str> = line.trim_matches('|').split('|').map(str::trim).collect();
        match cells[0].parse() {
            Ok(number) => {
                let cell = |name| head.iter().position(|column| *column == name).and_then(|column| cells.get(column));
                // What stands in brackets is said of the result.
                let told = |name| cell(name).map(|cell: &&str| cell.split(" (").next().unwrap_or(cell));
                let result = |name| told(name).unwrap_or(NOT_RUN);
                let what = cells.get(1).copied().unwrap_or("");
                let [by_crate, by_harfbuzz] = ["Crate", "HarfBuzz"].map(result);
                rows.push(Row { number, what, by_crate, by_harfbuzz, by_manual: told(BY_MANUAL) });
            }
            Err(_) if cells[0] == "No." => head = cells,
            Err(_) => {}
        }
    }
    rows
}

impl Row {
    /// Whether HarfBuzz says otherwise: of glyphs it does not show those that are deleted.
    pub fn parts(&self) -> bool {
        let glyphs = self.by_crate.split(' ').filter(|word| *word != "FFFF").collect::<Vec<_>>().join(" ");
        self.by_harfbuzz != NOT_RUN && self.by_harfbuzz != glyphs
    }
}
