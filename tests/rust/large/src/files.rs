//! Large files, written into a folder.

use std::fs;
use std::path::Path;

use generator::bulk;
use generator::contacts::{self, CONTACT};
use generator::posting::{self, Line};
use generator::records::{control, totals, Record};
use generator::rng::Rng;
use generator::rows::ROW;
use generator::text::{put_text, text, SPACE};

/// The most rows, details, lines and contact records that a file here has; the library takes more.
pub const MOST: usize = 65_535;
pub const STATE: [u8; 2] = [0xD6, 0xC8];
const TYPES: &[u8] = b"MCBLRZST";

/// What the commands take.
pub struct Files {
    /// 65,535 rows, and the same from before the cents.
    pub master: Vec<u8>,
    pub old_master: Vec<u8>,
    /// 65,535 changes; as many adds; as many records that get 17.
    pub changes: Vec<u8>,
    pub adds: Vec<u8>,
    pub wrong: Vec<u8>,
    pub locals: Vec<u8>,
    pub weekly: Vec<u8>,
    /// 65,535 contact records, of which the last 11,535 are faulty.
    pub contacts: Vec<u8>,
}

/// Details with their control record.
pub fn batch(details: &[Record]) -> Vec<u8> {
    let mut batch = details.concat();
    batch.extend_from_slice(&control(STATE, totals(details)));
    batch
}

fn changes() -> Vec<Record> {
    let mut rng = Rng::new(1);
    let mut places: Vec<usize> = (0..MOST).collect();
    rng.shuffle(&mut places);
    let change = |place: &usize| bulk::change(&mut rng, STATE, 2 * place, TYPES);
    places.iter().map(change).collect()
}

/// Records whose name is not the stored one.
fn wrong(changes: &[Record]) -> Vec<Record> {
    let mut records = changes.to_vec();
    for record in &mut records {
        // a B has no name to match; as an M it has
        record[72] = 0xD4;
        put_text(record, 65, "00000100");
        put_text(record, 30, "SMYTH");
    }
    records
}

fn old_master(master: &[u8]) -> Vec<u8> {
    let mut old = master.to_vec();
    for row in old.chunks_exact_mut(ROW) {
        row[196..200].fill(SPACE);
    }
    old
}

fn weekly() -> Vec<u8> {
    let mut rng = Rng::new(2);
    let line = |place: usize| posting::numbered(&mut rng, STATE, 2 * place);
    let lines: Vec<Line> = (0..MOST).map(line).collect();
    let mut file = lines.concat();
    file.extend_from_slice(&posting::total(&lines));
    file
}

fn contact_file() -> Vec<u8> {
    let good = (0..54_000).rev().map(contacts::numbered);
    let mut file: Vec<u8> = good.flatten().collect();
    file.resize(MOST * CONTACT, SPACE);
    file
}

impl Files {
    pub fn new() -> Files {
        let master = bulk::rows(STATE, MOST, 2);
        let changed = changes();
        let adds: Vec<Record> = (0..MOST).rev().map(|n| bulk::add(STATE, n)).collect();
        Files {
            old_master: old_master(&master),
            changes: batch(&changed),
            adds: batch(&adds),
            wrong: batch(&wrong(&changed)),
            locals: text("001002003"),
            weekly: weekly(),
            contacts: contact_file(),
            master,
        }
    }

    pub fn write(&self, folder: &Path) {
        let write = |name: &str, bytes: &[u8]| {
            fs::write(folder.join(name), bytes).expect("the folder takes files");
        };
        write("master.bin", &self.master);
        write("old.bin", &self.old_master);
        write("changes.bin", &self.changes);
        write("adds.bin", &self.adds);
        write("wrong.bin", &self.wrong);
        write("locals.bin", &self.locals);
        write("weekly.bin", &self.weekly);
        write("contacts.bin", &self.contacts);
    }
}
