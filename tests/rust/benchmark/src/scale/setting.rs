//! Buffers of a size, and how calls over them are measured.

use std::hint::black_box;

use generator::bulk;
use generator::records::{control, totals, Record, RECORD};
use generator::rng::Rng;
use sparse::Mapping;

use crate::clock::seconds;
use crate::input::{scattered, STATE, TYPES};

pub const ROW: usize = 200;
/// Copies go to a buffer of this length over and over; it is larger than the caches.
const TARGET: usize = 256 << 20;

/// Seconds of the whole call, the least of some runs: other work on the machine only adds to it.
pub struct Cost {
    pub library: f64,
    pub speed: Option<f64>,
    pub copy: f64,
}

pub struct Setting {
    pub size: usize,
    pub repetitions: usize,
    huge: bool,
}

impl Setting {
    pub fn new(size: usize, huge: bool) -> Setting {
        let repetitions = match size {
            0..100_000 => 9,
            100_000..500_000 => 7,
            500_000..5_000_000 => 3,
            _ => 1,
        };
        Setting {
            size,
            repetitions,
            huge,
        }
    }

    /// Zeros that take no memory before they are written.
    pub fn zeros(&self, length: usize) -> Mapping {
        if self.huge {
            Mapping::zeros(length)
        } else {
            Mapping::small_pages(length)
        }
    }

    /// Bytes whose pages are there.
    pub fn filled(&self, length: usize) -> Mapping {
        let mut mapping = self.zeros(length);
        mapping.fill(1);
        mapping
    }

    /// Rows with even key numbers, in a master with room for more.
    pub fn master(&self, rows: usize, room: usize) -> Mapping {
        let mut master = self.filled(room * ROW);
        bulk::write_rows(&mut master[..rows * ROW], STATE, 2);
        master
    }

    /// A batch of key numbers: an odd one is added, an even one changed.
    pub fn batch(&self, numbers: impl ExactSizeIterator<Item = usize>) -> Mapping {
        let mut rng = Rng::new(self.size as u64);
        let mut batch = self.zeros((numbers.len() + 1) * RECORD);
        let (records, _) = batch.as_chunks_mut::<RECORD>();
        for (record, number) in records.iter_mut().zip(numbers) {
            *record = if number.is_multiple_of(2) {
                bulk::change(&mut rng, STATE, number, TYPES)
            } else {
                bulk::add(STATE, number)
            };
        }
        close(records);
        batch
    }

    /// A change on each of so many rows, scattered.
    pub fn changes(&self) -> Mapping {
        let places = scattered(&mut Rng::new(self.size as u64), self.size);
        self.batch(places.into_iter().map(|place| 2 * place))
    }

    /// Calls in turn, each behind `restore`: the least times of the library, the speed engine and the copy.
    pub fn cost<T>(
        &self,
        lent: &mut T,
        restore: impl Fn(&mut T),
        library: impl Fn(&mut T),
        speed: Option<&dyn Fn(&mut T)>,
        moved: impl Fn(&T) -> Vec<&[u8]>,
    ) -> Cost {
        let mut target = self.filled(TARGET);
        let mut series: [Vec<f64>; 3] = Default::default();
        for _ in 0..self.repetitions {
            restore(lent);
            series[0].push(seconds(|| library(black_box(lent))));
            if let Some(speed) = speed {
                restore(lent);
                series[1].push(seconds(|| speed(black_box(lent))));
            }
            let buffers = moved(lent);
            series[2].push(seconds(|| copy(&buffers, &mut target)));
        }
        let [library, speed, copy] = series.map(|times| times.into_iter().min_by(f64::total_cmp));
        Cost {
            library: library.unwrap_or(0.0),
            speed,
            copy: copy.unwrap_or(0.0),
        }
    }
}

/// Puts the control record behind the details.
fn close(records: &mut [Record]) {
    if let Some((last, details)) = records.split_last_mut() {
        *last = control(STATE, totals(details));
    }
}

/// Copies all buffers once, to the target from its start on, again and again.
fn copy(buffers: &[&[u8]], target: &mut [u8]) {
    let mut at = 0;
    for block in buffers.iter().flat_map(|buffer| buffer.chunks(1 << 20)) {
        if at + block.len() > target.len() {
            at = 0;
        }
        black_box(&mut target[at..at + block.len()]).copy_from_slice(black_box(block));
        at += block.len();
    }
}
