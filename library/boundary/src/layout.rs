//! How a build lays the record of a text out, and the numbers of an older one as they stand now.

use megzhoi::raw::{ASSIGNMENT_ENTRIES, EDGES, EDGE_ENTRIES, RECORD_ENTRIES};

#[derive(Clone, Copy, Debug, PartialEq, Eq)]
pub enum Layout {
    /// SPECIFICATION 15.2.
    Now,
    /// From before a clock could be set to more than 0: an edge has one entry for each clock, 1 where it sets it to 0.
    Resets,
}

/// An edge up to its assignments, and the clocks.
const FRONT: usize = 17;
const CLOCKS: usize = 3;

/// Entries of an edge, and of a whole record, where a clock has one entry.
const EDGE_BEFORE: usize = FRONT + CLOCKS;
const RECORD_BEFORE: usize = EDGES + (RECORD_ENTRIES - EDGES) / EDGE_ENTRIES * EDGE_BEFORE;

impl Layout {
    /// How many numbers a record has.
    pub fn entries(self) -> usize {
        match self {
            Layout::Now => RECORD_ENTRIES,
            Layout::Resets => RECORD_BEFORE,
        }
    }

    /// The layout of a record that a build wrote into entries of which each held `untouched`, more than there are in
    /// any: the library writes the filling too, so that the last number tells.
    pub(crate) fn of(record: &[usize], untouched: usize) -> Layout {
        let written = record.iter().rposition(|entry| *entry != untouched).map_or(0, |last| last + 1);
        let found = [Layout::Now, Layout::Resets].into_iter().find(|layout| layout.entries() == written);
        found.unwrap_or_else(|| panic!("a record of {written} numbers"))
    }

    /// The numbers of a whole record in this layout as SPECIFICATION 15.2 has them: an edge that sets a clock to 0
    /// assigns it, and both the value and the largest one written are 0.
    pub fn moved(self, record: &[usize]) -> Vec<usize> {
        if self == Layout::Now {
            return record.to_vec();
        }
        let (front, edges) = record.split_at(EDGES);
        let mut moved = front.to_vec();
        for edge in edges.chunks(EDGE_BEFORE) {
            moved.extend_from_slice(&edge[..FRONT]);
            for made in &edge[FRONT..] {
                let mut assignment = [0; ASSIGNMENT_ENTRIES];
                assignment[0] = *made;
                moved.extend(assignment);
            }
        }
        moved
    }
}
