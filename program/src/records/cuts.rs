//! Where a batch may be cut into parts: between two details, but not where a key with a B record has details on both sides.
//! Then the parts, applied one behind the other, do what the batch does.

use super::name_changes::Renamed;

/// A cut is the number of details before it.
pub struct Cuts<'a> {
    renamed: &'a [Renamed],
    details: usize,
    /// For each cut from 0 on whether some key stops it.
    is_stopped: Vec<bool>,
}

impl<'a> Cuts<'a> {
    pub fn of(details: usize, renamed: &'a [Renamed]) -> Cuts<'a> {
        let mut changes = vec![0_i32; details + 1];
        for key in renamed {
            changes[key.first + 1] += 1;
            changes[key.last + 1] -= 1;
        }
        let mut keys = 0;
        let stopped = changes.iter().map(|change| {
            keys += change;
            keys > 0
        });
        Cuts {
            is_stopped: stopped.collect(),
            renamed,
            details,
        }
    }

    /// The keys with details on both sides of a cut.
    pub fn stopping(&self, cut: usize) -> impl Iterator<Item = &'a Renamed> + use<'a> {
        let keys = self.renamed.iter();
        keys.filter(move |key| key.first < cut && cut <= key.last)
    }

    /// The ends of parts of at most so many details, each as long as may be; or where the first part begins that can't be so
    /// short.
    pub fn ends(&self, most: usize) -> Result<Vec<usize>, usize> {
        let mut ends = Vec::new();
        let mut start = 0;
        while self.details - start > most {
            let mut cuts = (start + 1..=start + most).rev();
            start = cuts.find(|&cut| !self.is_stopped[cut]).ok_or(start)?;
            ends.push(start);
        }
        ends.push(self.details);
        Ok(ends)
    }

    /// The fewest details that the longest part has, however the batch is cut.
    pub fn fewest(&self) -> usize {
        let mut before = 0;
        let mut longest = 0;
        for cut in (1..=self.details).filter(|&cut| !self.is_stopped[cut]) {
            longest = longest.max(cut - before);
            before = cut;
        }
        longest
    }
}

#[cfg(test)]
mod tests {
    use super::super::name_changes::renamed;
    use super::*;
    use fantanolive::RECORD;

    /// Details by the digits of their SSNs; a B where a digit is over nine.
    fn batch(digits: &[u8]) -> Vec<u8> {
        let detail = |&digit: &u8| {
            let mut record = vec![0x40; RECORD];
            record[5..14].fill(digit % 10);
            record[72] = if digit > 9 { 0xC2 } else { 0xD4 };
            record
        };
        digits.iter().flat_map(detail).collect()
    }

    fn ends(digits: &[u8], most: usize) -> Result<Vec<usize>, usize> {
        Cuts::of(digits.len(), &renamed(&batch(digits))).ends(most)
    }

    #[test]
    fn without_a_b_every_cut_is_allowed() {
        assert_eq!(ends(&[1, 1, 1, 1, 1], 2), Ok(vec![2, 4, 5]));
        assert_eq!(ends(&[1, 1], 2), Ok(vec![2]));
        assert_eq!(ends(&[1, 1], 100), Ok(vec![2]));
        assert_eq!(ends(&[], 1), Ok(vec![0]));
    }

    #[test]
    fn the_records_of_a_key_with_a_b_stay_together() {
        assert_eq!(ends(&[1, 12, 2, 3, 4], 2), Ok(vec![1, 3, 5]));
        assert_eq!(ends(&[12, 3, 2, 3, 4], 2), Err(0));
        assert_eq!(ends(&[12, 3, 2, 3, 4], 3), Ok(vec![3, 5]));
        assert_eq!(ends(&[3, 3, 2, 1, 12], 2), Err(2));
        assert_eq!(ends(&[12, 13, 2, 3], 1), Err(0));
        let keys = renamed(&batch(&[12, 13, 2, 3]));
        let cuts = Cuts::of(4, &keys);
        assert_eq!(cuts.fewest(), 4);
        let stopping = |cut| cuts.stopping(cut).count();
        assert_eq!([0, 1, 2, 3, 4].map(stopping), [0, 1, 2, 1, 0]);
    }

    #[test]
    fn the_fewest_is_enough_and_no_less_is() {
        for digits in [
            &[1, 2, 3][..],
            &[11, 2, 1, 3],
            &[1, 2, 11, 12, 3, 2, 4, 13, 3],
            &[11],
            &[],
        ] {
            let keys = renamed(&batch(digits));
            let cuts = Cuts::of(digits.len(), &keys);
            let fewest = cuts.fewest();
            assert!(cuts.ends(fewest.max(1)).is_ok(), "{digits:?}");
            for less in 1..fewest {
                assert!(cuts.ends(less).is_err(), "{digits:?}: {less}");
            }
        }
    }
}
