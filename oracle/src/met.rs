// The largest values of a table: each step of a hunt is held to them, and what was met is kept.

use crate::turbulence::{own, tension};

/// A value and the range that it must lie in.
pub struct Bound {
    pub value: &'static str,
    pub lowest: i128,
    pub highest: i128,
}

pub const fn within(value: &'static str, limit: i128) -> Bound {
    Bound { value, lowest: -limit, highest: limit }
}

pub const fn up_to(value: &'static str, highest: i128) -> Bound {
    Bound { value, lowest: 0, highest }
}

/// The least and the greatest that was met of each value of a table.
pub struct Met {
    bounds: &'static [Bound],
    met: Vec<Option<(i128, i128)>>,
}

impl Met {
    pub fn nothing(bounds: &'static [Bound]) -> Met {
        Met { bounds, met: vec![None; bounds.len()] }
    }

    pub(crate) fn note(&mut self, value: &str, number: i128) {
        let at = self.bounds.iter().position(|bound| bound.value == value).expect("a value of the table");
        let (least, greatest) = self.met[at].unwrap_or((number, number));
        self.met[at] = Some((least.min(number), greatest.max(number)));
    }

    /// Notes what follows from the stress of a cell with plain relaxation p.
    pub(crate) fn note_stress<const AXES: usize>(&mut self, stress: &[[i128; AXES]; AXES], p: i32) {
        for (a, row) in stress.iter().enumerate() {
            for (b, &entry) in row.iter().enumerate() {
                self.note(if a == b { "stress on the diagonal" } else { "stress off the diagonal" }, entry);
            }
        }
        let tension = tension(stress);
        let own = own(p, tension);
        self.note("tension", tension);
        self.note("first root", own.first);
        self.note("under the second root", own.under);
        self.note("second root", own.second);
        self.note("divisor of own p", own.divisor);
        self.note("numerator of own p", own.numerator);
        self.note("own p", own.p.into());
        self.note("p less own p", (p - own.p).into());
    }

    /// A value that left its range, if there is one.
    pub fn breach(&self) -> Option<String> {
        self.lines().find(|(inside, _)| !inside).map(|(_, line)| line)
    }

    /// For each value that was met whether it kept its range, and a line that says so.
    pub fn lines(&self) -> impl Iterator<Item = (bool, String)> + '_ {
        self.bounds.iter().zip(&self.met).filter_map(|(Bound { value, lowest, highest }, met)| {
            let (least, greatest) = (*met)?;
            let line = format!("{value}: {least} to {greatest}, allowed {lowest} to {highest}");
            Some((*lowest <= least && greatest <= *highest, line))
        })
    }
}
