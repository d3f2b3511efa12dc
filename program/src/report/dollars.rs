//! The dollars of a batch: what was sent, what was accepted and what was rejected, by case type. The library adds them up.

use fantanolive::{totals, Totals, ERRORS, RECORD};

/// The dollars of one case type.
pub struct Dollars {
    pub name: &'static str,
    pub sent: u64,
    pub rejected: u64,
}

impl Dollars {
    pub fn accepted(&self) -> u64 {
        self.sent - self.rejected
    }
}

/// Details that are added up together.
const PART: usize = 256;

/// The totals of the details with an error, added up in parts.
fn of_rejected(batch: &[u8], verdicts: &[u64]) -> (u64, u64) {
    let mut part = Vec::with_capacity((PART + 1) * RECORD);
    let (mut tanf, mut non_tanf) = (0, 0);
    let details = batch.chunks_exact(RECORD).zip(verdicts);
    let mut rejected = details.filter(|(_, verdict)| *verdict & ERRORS != 0);
    loop {
        part.clear();
        for (detail, _) in rejected.by_ref().take(PART) {
            part.extend_from_slice(detail);
        }
        if part.is_empty() {
            return (tanf, non_tanf);
        }
        // the last record is in the place of a control record
        part.resize(part.len() + RECORD, 0);
        if let Ok(totals) = totals(&part) {
            tanf += totals.tanf_amount;
            non_tanf += totals.non_tanf_amount;
        }
    }
}

/// The dollars of a batch that was judged.
pub fn of_batch(batch: &[u8], verdicts: &[u64]) -> Option<[Dollars; 2]> {
    let sent: Totals = totals(batch).ok()?;
    let (tanf, non_tanf) = of_rejected(batch, verdicts);
    let dollars = |name, sent, rejected| Dollars {
        name,
        sent,
        rejected,
    };
    Some([
        dollars("TANF dollars", sent.tanf_amount, tanf),
        dollars("Non-TANF dollars", sent.non_tanf_amount, non_tanf),
    ])
}

#[cfg(test)]
mod tests {
    use super::*;
    use crate::records::columns::detail;
    use crate::records::made_up_case::record_of;

    #[test]
    fn parts_add_up_to_the_whole() {
        let mut batch = Vec::new();
        let mut verdicts = Vec::new();
        for number in 0..2 * PART + 3 {
            let case_type = if number % 2 == 0 { "A" } else { "N" };
            let fields = [
                (detail::ARREARAGE, "00000010"),
                (detail::CASE_TYPE, case_type),
            ];
            batch.extend(record_of("M", &fields));
            verdicts.push(u64::from(number % 3 == 0) << 17);
        }
        batch.extend(record_of("", &[]));
        let [tanf, non_tanf] = of_batch(&batch, &verdicts).expect("it is a batch");
        // 515 details: 258 even ones, of which 86 have an error, and 257 odd ones, of which 86
        assert_eq!(
            (tanf.sent, tanf.rejected, tanf.accepted()),
            (2580, 860, 1720)
        );
        assert_eq!((non_tanf.sent, non_tanf.rejected), (2570, 860));
    }
}
