//! Converting 16 MB to EBCDIC and back, beside one memcpy of the file measured in turn with it.

use std::hint::black_box;

use fantanolive::raw;
use generator::files::{accepted, Direction};
use generator::rng::Rng;

use crate::clock::seconds;
use crate::{median, print_lines, Line, ENGINES};

pub const BYTES: usize = 16 * 1024 * 1024;

/// Medians, in seconds.
pub struct Conversions {
    copy: f64,
    /// By direction.
    lines: [Line; 2],
}

pub fn converting(repetitions: usize) -> Conversions {
    let file = accepted(&mut Rng::new(1), Direction::ToEbcdic, BYTES);
    let mut copy = vec![1; BYTES];
    let (mut ebcdic, mut ascii) = (copy.clone(), copy.clone());
    let (mut other, mut copies) = (copy.clone(), Vec::new());
    let mut times: [[Vec<f64>; ENGINES]; 2] = Default::default();
    for _ in 0..repetitions {
        let (mut place, mut answers) = (0, [1; 2]);
        copies.push(seconds(|| {
            black_box(&mut copy[..]).copy_from_slice(black_box(&file));
        }));
        times[0][0].push(seconds(|| {
            answers[0] = raw::to_ebcdic(black_box(&file), black_box(&mut ebcdic), &mut place);
        }));
        times[1][0].push(seconds(|| {
            answers[1] = raw::to_ascii(black_box(&ebcdic), black_box(&mut ascii), &mut place);
        }));
        assert_eq!(answers, [0; 2], "converting was refused");
        assert!(ascii == file, "there and back differs");
        let mut done = [Ok(()); 2];
        times[0][2].push(seconds(|| {
            done[0] = speed::to_ebcdic(black_box(&file), black_box(&mut other));
        }));
        assert!(other == ebcdic, "to_ebcdic differs");
        times[1][2].push(seconds(|| {
            done[1] = speed::to_ascii(black_box(&ebcdic), black_box(&mut other));
        }));
        assert!(done == [Ok(()); 2] && other == ascii, "to_ascii differs");
    }
    // The reference is slow: once is enough.
    let mut done = Ok(());
    times[0][1].push(seconds(|| done = reference::to_ebcdic(&file, &mut other)));
    assert!(done.is_ok() && other == ebcdic, "to_ebcdic differs");
    times[1][1].push(seconds(|| done = reference::to_ascii(&ebcdic, &mut other)));
    assert!(done.is_ok() && other == ascii, "to_ascii differs");
    let line = |name: &str, engines: &[Vec<f64>; ENGINES]| Line {
        name: name.to_string(),
        times: [0, 1, 2].map(|engine| Some(median(&engines[engine]))),
    };
    Conversions {
        copy: median(&copies),
        lines: [
            line("to EBCDIC", &times[0]),
            line("and back to ASCII", &times[1]),
        ],
    }
}

impl Conversions {
    pub fn print(&self) {
        println!(
            "one memcpy of {BYTES} bytes: {:.2} ms; below, x counts such copies",
            self.copy * 1e3
        );
        print_lines("16 MB", &self.lines, self.copy);
    }
}
