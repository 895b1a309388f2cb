//! The plans of the cases that document 01 writes out, plans of the greatest lengths, and what is refused before what, on the model
//! and on the library.

use crate::call::{accepted, refused, Buffers, Call};
use crate::compare::Case;
use crate::fixed::{Done, Fixed, KIND};
use crate::graphs;
use crate::planned::record;
use crate::sheets;
use lugloquat::sys::Answer;

/// Document 01's D.
const D: &[u8] = b"L 00 01\nL 00 02\nL 01 03\nL 02 03\n";

/// Runs them all.
pub fn check(fixed: &mut Fixed) -> Done {
    fixed.plans_of_d()?;
    fixed.refused_plans_of_d()?;
    fixed.listing_of_d()?;
    fixed.sheets_that_are_not_valid()?;
    fixed.vertices_of_plans()?;
    fixed.greatest_plans()?;
    fixed.plan_of_the_complete_graph()?;
    fixed.plans_written()
}

/// Refused at a record.
pub fn refused_at(place: u64, number: u64) -> Answer {
    Answer { place, ..refused(number) }
}

impl Fixed {
    /// Reads a plan into the sheet, which then has the words that this leaves.
    pub fn read(&mut self, n: usize, sheet: &mut Vec<u64>, plan: &[u8], wanted: Answer) -> Done {
        let lent = Buffers { sheet: sheet.clone(), bytes: plan.to_vec() };
        let case = Case { n, call: Call::ReadPlan, lent, kind: KIND, known: None };
        *sheet = self.run(&case, wanted)?.sheet;
        Ok(())
    }

    /// Writes a plan into so many bytes, which may be any: the first are the plan wanted, the rest stay.
    fn write(&mut self, n: usize, sheet: &[u64], length: usize, plan: &[u8]) -> Done {
        let bytes = self.rng.bytes(length);
        let wanted = [plan, &bytes[plan.len()..]].concat();
        let lent = Buffers { sheet: sheet.to_vec(), bytes };
        let case = Case { n, call: Call::WritePlan, lent, kind: KIND, known: None };
        let after = self.run(&case, accepted(plan.len() as u64))?;
        if after.bytes == wanted {
            return Ok(());
        }
        let [wanted, got] = [&wanted, &after.bytes].map(|bytes| bytes.escape_ascii());
        Err(format!("wanted the plan {wanted}, got {got}"))
    }

    fn write_refused(&mut self, n: usize, sheet: &[u64], length: usize, number: u64) -> Done {
        let lent = Buffers { sheet: sheet.to_vec(), bytes: self.rng.bytes(length) };
        let case = Case { n, call: Call::WritePlan, lent, kind: KIND, known: None };
        self.run(&case, refused(number)).map(|_| ())
    }

    /// D, and the plan that closes a cycle through two of its records.
    fn plans_of_d(&mut self) -> Done {
        let (n, mut sheet) = (5, empty(5));
        self.read(n, &mut sheet, D, accepted(4))?;
        let d = sheet.clone();
        self.read(n, &mut sheet, b"L 04 00\nL 03 04\n", refused_at(2, 8))?;
        self.read(n, &mut sheet, b"", accepted(4))?;
        self.read(n, &mut sheet, b"L 01 04\nL 04 03\n", accepted(6))?;
        self.step(n, Call::PathCount { from: 0, to: 3 }, &mut sheet, accepted(3))?;
        self.read(n, &mut sheet, b"T 01 04\nT 04 03\nL 03 04\nT 03 04\n", accepted(4))?;
        if sheet != d {
            return Err(format!("wanted D's words {d:x?}, got {sheet:x?}"));
        }
        Ok(())
    }

    /// The first record that is refused gives the number and the place, whatever comes after it.
    fn refused_plans_of_d(&mut self) -> Done {
        let (n, mut sheet) = (5, empty(5));
        self.read(n, &mut sheet, D, accepted(4))?;
        for (plan, wanted) in [
            (&b"L 03 03\nnothing\n"[..], refused_at(1, 5)),
            (b"T 03 03\nL 03 03\n", refused_at(1, 7)),
            (b"L 03 04\nL 05 00\nL 04 03\n", refused_at(2, 3)),
            (b"L 03 04\nL 03 04\n", refused_at(2, 6)),
            (b"L 03 04\nT 04 03\n", refused_at(2, 7)),
            (b"L 03 04\nT 03 04\nT 03 04\n", refused_at(3, 7)),
            (b"L 03 04\nL 04 00\nT 03 04\n", refused_at(2, 8)),
            (b"L 03 04\nl 04 00\n", refused_at(2, 14)),
            (b"L 99 99\r", refused_at(1, 14)),
            (b"\nL 03 04", refused_at(1, 14)),
            (b"L 3 04\nL", refused_at(1, 14)),
            (b"L 03 04", refused(13)),
            (b"L 03 04\nL 04 00", refused(13)),
            (b"L 03 04\nL 04", refused(13)),
            (b"L 03 04\n\n", refused(13)),
            (b"\n", refused(13)),
        ] {
            self.read(n, &mut sheet, plan, wanted)?;
        }
        Ok(())
    }

    /// Document 01's listing: D in a sheet of 64 vertices, and a cycle of three.
    fn listing_of_d(&mut self) -> Done {
        let (n, mut sheet) = (64, empty(64));
        self.read(n, &mut sheet, D, accepted(4))?;
        self.counts_of_d(n, &mut sheet)?;
        self.read(n, &mut sheet, b"L 03 63\nL 63 62\nL 62 00\n", refused_at(3, 8))
    }

    /// 9 comes before 13, and also where nothing would change.
    fn sheets_that_are_not_valid(&mut self) -> Done {
        let mut sheet = empty(2);
        self.read(2, &mut sheet, b"", accepted(0))?;
        self.read(2, &mut sheet, b"L 00 01", refused(13))?;
        sheet[3] = 1;
        for plan in [&b""[..], b"L 00 01", b"L 00 01\n", b"none", &[b'L'; 32_769]] {
            self.read(2, &mut sheet, plan, refused(9))?;
        }
        self.write_refused(2, &sheet, 0, 9)?;
        sheet[0] = 2;
        self.write_refused(2, &sheet[..5], 0, 2)?;
        self.write(2, &sheet, 8, b"L 00 01\n")
    }

    fn vertices_of_plans(&mut self) -> Done {
        let mut largest = empty(64);
        for plan in [b"L 64 00\n", b"L 00 64\n", b"T 64 00\n", b"L 99 99\n", b"T 00 80\n"] {
            self.read(64, &mut largest, plan, refused_at(1, 3))?;
        }
        self.read(64, &mut largest, b"L 63 00\nL 62 63\n", accepted(2))?;
        let mut one = empty(1);
        self.read(1, &mut one, b"L 00 01\n", refused_at(1, 3))?;
        self.read(1, &mut one, b"L 00 00\n", refused_at(1, 5))?;
        self.read(1, &mut one, b"T 00 00\n", refused_at(1, 7))?;
        self.read(1, &mut one, b"", accepted(0))
    }

    /// Up to 4,096 records, which insert one edge and delete it by turns.
    fn greatest_plans(&mut self) -> Done {
        for n in [2, 64] {
            let (from, to) = (n - 1, 0);
            let both = [record('L', from, to), record('T', from, to)].concat();
            let mut sheet = empty(n);
            self.read(n, &mut sheet, &both.repeat(2_048), accepted(0))?;
            self.read(n, &mut sheet, &both.repeat(2_048)[..32_760], accepted(1))?;
            self.read(n, &mut sheet, &both.repeat(2_048), refused_at(1, 6))?;
            self.read(n, &mut sheet, &both.repeat(2_049)[8..32_776], accepted(1))?;
            self.read(n, &mut sheet, &both.repeat(2_049)[8..32_777], refused(13))?;
            self.read(n, &mut sheet, &both.repeat(2_049)[8..32_784], refused(13))?;
            self.read(n, &mut sheet, &both.repeat(2_048)[8..32_767], refused(13))?;
            let broken = [&both.repeat(2_048)[8..], b"L 00 01\r"].concat();
            self.read(n, &mut sheet, &broken, refused_at(4_096, 14))?;
        }
        Ok(())
    }

    /// An edge from every lower vertex to every higher one: 2,016 records, read and written.
    fn plan_of_the_complete_graph(&mut self) -> Done {
        let (n, mut sheet) = (64, empty(64));
        let graph = graphs::complete(&mut self.rng, n);
        let plan: Vec<u8> = graphs::edges(&graph)
            .iter()
            .flat_map(|&(from, to)| record('L', from, to))
            .collect();
        self.read(n, &mut sheet, &plan, accepted(2_016))?;
        let ends = Call::PathCount { from: 0, to: 63 };
        self.step(n, ends, &mut sheet, accepted(4_611_686_018_427_387_904))?;
        self.write(n, &sheet, 16_128, &plan)?;
        self.write_refused(n, &sheet, 16_127, 10)?;
        let back: Vec<u8> = plan
            .chunks(8)
            .rev()
            .flat_map(|record| [b"T", &record[1..]].concat())
            .collect();
        self.read(n, &mut sheet, &back, accepted(0))?;
        self.step(n, ends, &mut sheet, accepted(0))
    }

    /// Into as many bytes as it takes, into more, into none where there is no edge, and into too few.
    fn plans_written(&mut self) -> Done {
        let mut sheet = empty(5);
        self.write(5, &sheet, 0, b"")?;
        self.write(5, &sheet, 9, b"")?;
        self.read(5, &mut sheet, b"L 02 03\nL 01 03\nL 00 02\nL 00 01\n", accepted(4))?;
        for length in [32, 33, 40, 200] {
            self.write(5, &sheet, length, D)?;
        }
        for length in [0, 8, 24, 31] {
            self.write_refused(5, &sheet, length, 10)?;
        }
        Ok(())
    }
}

/// The empty sheet of n vertices.
pub fn empty(n: usize) -> Vec<u64> {
    sheets::valid_sheet_of(&graphs::of_rule(n, |_, _| false))
}
