//! Times of the library and the reference as multiples of one memcpy measured in turn with them.

use std::hint::black_box;

use crate::clock::seconds;
use crate::{cell, median};

pub struct Times {
    copy: f64,
    library: f64,
    reference: f64,
}

/// Medians over repetitions; the copy is made before each pair of calls.
pub fn times(
    repetitions: usize,
    from: &[u8],
    mut library: impl FnMut(),
    mut reference: impl FnMut(),
) -> Times {
    let mut to = vec![1; from.len()];
    let mut series = [Vec::new(), Vec::new(), Vec::new()];
    for _ in 0..repetitions {
        series[0].push(seconds(|| {
            black_box(&mut to[..]).copy_from_slice(black_box(from))
        }));
        series[1].push(seconds(&mut library));
        series[2].push(seconds(&mut reference));
    }
    let [copy, library, reference] = series.map(|times| median(&times));
    Times {
        copy,
        library,
        reference,
    }
}

/// The head of a table whose times are multiples of a copy, named.
pub fn head(name: &str, copied: &str) -> String {
    let name = format!("{name}; x counts copies of {copied}");
    format!("{name:<60}{:>22}{:>22}", "library", "reference")
}

pub fn line(name: &str, times: &Times) -> String {
    let both = [times.library, times.reference];
    let [library, reference] = both.map(|time| cell(Some(time), times.copy));
    format!("{name:<60}{library:>22}{reference:>22}")
}
