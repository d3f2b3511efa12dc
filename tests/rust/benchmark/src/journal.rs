//! Applying with a journal beside applying without one, and taking back, beside one memcpy of the
//! master measured in turn with them.

use std::hint::black_box;

use fantanolive::raw;
use generator::journal::enough;

use crate::clock::seconds;
use crate::input::{adds, changes, falling, Input, MANY};
use crate::once::measured_call;
use crate::{cell, median, run, Buffers};

/// What applying with a journal writes.
struct Journaled {
    buffers: Buffers,
    journal: Vec<u8>,
    result: [u64; 6],
}

impl Journaled {
    fn fresh(input: &Input) -> Journaled {
        Journaled {
            buffers: Buffers::fresh(input),
            journal: vec![4; enough(input.details)],
            result: [0; 6],
        }
    }

    fn apply(&mut self, input: &Input) {
        let answer = raw::apply_journaled(
            &mut self.buffers.master,
            input.rows,
            &input.batch,
            &input.list,
            2007,
            &mut self.buffers.verdicts,
            &mut self.buffers.rejects,
            &mut self.journal,
            &mut self.result,
        );
        assert_eq!(answer, 0, "{} was refused", input.name);
    }

    fn take_back(&mut self) -> u64 {
        let (rows, length) = (self.result[4] as usize, self.result[5] as usize);
        let (journal, mut before) = (&self.journal[..length], 0);
        let answer = raw::take_back(&mut self.buffers.master, rows, journal, &mut before);
        assert_eq!(answer, 0, "taking back was refused");
        before
    }
}

/// One call for its instructions.
pub fn once_apply(input: &Input) {
    let mut journaled = Journaled::fresh(input);
    measured_call(&mut || journaled.apply(input));
}

/// One call for its instructions, behind the batch.
pub fn once_take_back(input: &Input) {
    let mut journaled = Journaled::fresh(input);
    journaled.apply(input);
    measured_call(&mut || {
        journaled.take_back();
    });
}

/// Medians of a copy of the master, of the batch without a journal, with one, and of taking back.
fn times(input: &Input, repetitions: usize) -> [f64; 4] {
    let mut times: [Vec<f64>; 4] = Default::default();
    let (mut plain, mut journaled) = (Buffers::fresh(input), Journaled::fresh(input));
    for _ in 0..repetitions {
        let (from, to) = (&input.master, &mut plain.master);
        times[0].push(seconds(|| black_box(to).copy_from_slice(black_box(from))));
        journaled.buffers.master.copy_from_slice(&input.master);
        times[1].push(seconds(|| run(0, input, black_box(&mut plain))));
        times[2].push(seconds(|| black_box(&mut journaled).apply(input)));
        let same = plain.master == journaled.buffers.master;
        assert!(
            same && plain.rejects == journaled.buffers.rejects,
            "journaled differs"
        );
        let mut before = 0;
        times[3].push(seconds(|| before = black_box(&mut journaled).take_back()));
        assert_eq!(before, input.rows as u64, "another row count");
        let old = input.rows * 200;
        let back = journaled.buffers.master[..old] == input.master[..old];
        assert!(back, "other rows are back");
    }
    times.map(|series| median(&series))
}

pub fn measured(repetitions: usize) -> Vec<String> {
    let inputs = [
        changes("65535 rows, 100 changes", MANY, 100),
        changes("65535 rows, 65535 changes", MANY, MANY),
        adds("45875 rows, 19660 adds", 45_875, 19_660, false),
        adds(
            "45875 rows, 65535 details, 19660 adds",
            45_875,
            19_660,
            true,
        ),
        falling("no rows, 65535 adds falling", MANY),
    ];
    let mut lines = vec![format!(
        "{:<40}{:>22}{:>22}{:>8}{:>22}",
        "x counts copies of the master", "without a journal", "with one", "more", "taking back"
    )];
    for input in &inputs {
        let [copy, plain, journaled, back] = times(input, repetitions);
        let more = format!("{:.0} %", 100.0 * (journaled / plain - 1.0));
        let [plain, journaled, back] = [plain, journaled, back].map(|time| cell(Some(time), copy));
        lines.push(format!(
            "{:<40}{plain:>22}{journaled:>22}{more:>8}{back:>22}",
            input.name
        ));
    }
    lines
}
