//! A case that is made up to ask the library about one record: a live row, and records with its key.

use std::sync::LazyLock;

use fantanolive::{apply, RECORD, ROW};

use super::columns::{detail, row, Field};
use super::control_record::add_control;
use super::field::text_in;
use crate::code_page::argument;

pub const STATE: &str = "OH";
pub const SSN: &str = "900000001";
pub const CASE_TYPE: &str = "N";
const NAME: &str = "A";

/// A live row of 25 dollars.
pub fn live_row() -> [u8; ROW] {
    *LIVE_ROW
}

static LIVE_ROW: LazyLock<[u8; ROW]> = LazyLock::new(|| {
    let texts = [
        (row::STATE, STATE),
        (row::SSN, SSN),
        (row::CASE_TYPE, CASE_TYPE),
        (row::LOCAL_CODE, "000"),
        (row::LAST_NAME, NAME),
        (row::ARREARAGE, "00000025"),
        (row::PAYMENT_YEAR, "0000"),
        (row::PAYMENT, "00000000"),
        (row::CENTS, "00"),
    ];
    let mut bytes = [0; ROW];
    bytes.copy_from_slice(&text_in(ROW, &texts));
    row::EXCLUSIONS.set(&mut bytes, &[0]);
    bytes
});

/// A record of its key and name, with texts in other fields.
pub fn record_of(kind: &str, fields: &[(Field, &str)]) -> Vec<u8> {
    let own = [
        (detail::STATE, STATE),
        (detail::SSN, SSN),
        (detail::CASE_TYPE, CASE_TYPE),
        (detail::TRANSACTION_TYPE, kind),
        (detail::LAST_NAME, NAME),
    ];
    text_in(RECORD, &[&own[..], fields].concat())
}

/// The verdict on a record of its key alone, and the row that it leaves.
pub fn judged(record: &[u8]) -> (u64, [u8; ROW]) {
    let mut judge = Judge::default();
    judge.add(record);
    let row = judge.apply();
    (judge.verdicts[0], row)
}

/// Records of its key that the library is asked about in one call. The buffers are used again.
#[derive(Default)]
pub struct Judge {
    batch: Vec<u8>,
    verdicts: Vec<u64>,
    rejects: Vec<u8>,
}

impl Judge {
    /// Adds a record, which may still be changed.
    pub fn add(&mut self, record: &[u8]) -> &mut [u8] {
        let start = self.batch.len();
        self.batch.extend_from_slice(record);
        &mut self.batch[start..]
    }

    /// The verdicts on the records that were added; none is left then.
    pub fn verdicts(&mut self) -> &[u64] {
        let count = self.batch.len() / RECORD;
        if count > 0 {
            self.apply();
        }
        &self.verdicts[..count]
    }

    fn apply(&mut self) -> [u8; ROW] {
        let count = self.batch.len() / RECORD;
        add_control(&argument(STATE.as_bytes()), &mut self.batch)
            .expect("the records have no amounts");
        self.verdicts.resize(count.max(self.verdicts.len()), 0);
        self.rejects
            .resize(self.batch.len().max(self.rejects.len()), 0);
        let mut master = live_row();
        let (locals, year) = (&[], 2000);
        apply(
            &mut master,
            1,
            &self.batch,
            locals,
            year,
            &mut self.verdicts,
            &mut self.rejects,
        )
        .expect("the row and the batch are sound");
        self.batch.clear();
        master
    }
}
