//! The stack that each call takes: some kilobytes, but for `contacts_update`, which keeps a number and a mark for each of 54,000
//! keys there. `cargo test -p library --test stack -- --nocapture` prints it.

use std::ffi::c_void;
use std::os::raw::c_int;
use std::ptr;

use fantanolive::raw;
use generator::bulk;
use generator::contacts::{numbered as contact, CONTACT};
use generator::journal::enough;
use generator::pages::enough as pages_length;
use generator::posting::{numbered as line, total, Line};
use generator::records::{batch, Record, RECORD};
use generator::rng::Rng;
use generator::text::text;
use sparse::Mapping;

const STATE: [u8; 2] = [0xD6, 0xC8];
const MANY: usize = 65_537;
/// The stack lent to a thread.
const STACK: usize = 8 << 20;
/// What a call may take.
const LITTLE: usize = 8 << 10;
/// A number of four bytes and a mark for each key, and a little.
const CONTACTS: usize = 54_000 * 5 + LITTLE;

#[repr(C, align(16))]
struct Attributes([u8; 128]);

extern "C" {
    fn pthread_attr_init(attributes: *mut Attributes) -> c_int;
    fn pthread_attr_setstack(
        attributes: *mut Attributes,
        stack: *mut c_void,
        length: usize,
    ) -> c_int;
    fn pthread_create(
        thread: *mut usize,
        attributes: *const Attributes,
        start: extern "C" fn(*mut c_void) -> *mut c_void,
        argument: *mut c_void,
    ) -> c_int;
    fn pthread_join(thread: usize, result: *mut *mut c_void) -> c_int;
}

extern "C" fn start(call: *mut c_void) -> *mut c_void {
    // SAFETY: what `deepest` hands over, which waits for the thread.
    let call = unsafe { &mut *call.cast::<&mut dyn FnMut()>() };
    call();
    ptr::null_mut()
}

/// How far down a thread's stack was written that makes a call.
fn deepest(call: &mut dyn FnMut()) -> usize {
    let mut stack = Mapping::small_pages(STACK);
    let (mut attributes, mut thread, mut argument) = (Attributes([0; 128]), 0, call);
    // SAFETY: the stack and the call outlive the thread, which is waited for; the attributes have room enough.
    unsafe {
        assert_eq!(pthread_attr_init(&mut attributes), 0);
        let bottom = stack.as_mut_ptr().cast();
        assert_eq!(pthread_attr_setstack(&mut attributes, bottom, STACK), 0);
        let argument = ptr::from_mut(&mut argument).cast();
        assert_eq!(pthread_create(&mut thread, &attributes, start, argument), 0);
        assert_eq!(pthread_join(thread, ptr::null_mut()), 0);
    }
    let written = stack.iter().position(|&byte| byte != 0);
    STACK - written.expect("a thread writes to its stack")
}

/// What a call takes beyond a thread that does nothing.
fn taken(name: &str, most: usize, call: &mut dyn FnMut() -> u64) -> usize {
    let mut answer = 1;
    let used = deepest(&mut || answer = call()) - deepest(&mut || {});
    println!("{name:<40}{used:>8} bytes");
    assert_eq!(answer, 0, "{name} was refused");
    assert!(used <= most, "{name} takes {used} bytes of stack");
    used
}

/// Changes on every row, scattered.
fn changes() -> Vec<Record> {
    let mut rng = Rng::new(3);
    let mut details: Vec<Record> = (0..MANY)
        .map(|at| bulk::change(&mut rng, STATE, 2 * at, b"MCBLRZST"))
        .collect();
    rng.shuffle(&mut details);
    details
}

/// Nearly all of one key, one far below and one far above: the sort goes deepest.
fn far_apart() -> Vec<Record> {
    let mut details = vec![bulk::change(&mut Rng::new(1), STATE, 2, b"M"); MANY];
    for (record, byte) in [(1, 0x00), (MANY / 2, 0xFF)] {
        details[record][..2].fill(byte);
        details[record][5..14].fill(byte);
    }
    details
}

#[test]
fn batches() {
    let adds: Vec<Record> = (0..MANY)
        .rev()
        .map(|at| bulk::add(STATE, 2 * at + 1))
        .collect();
    for (name, details) in [
        ("changes", changes()),
        ("adds", adds),
        ("far apart", far_apart()),
    ] {
        let batch = batch(STATE, &details);
        let mut master = [bulk::rows(STATE, MANY, 2), vec![0; MANY * 200]].concat();
        let before = master.clone();
        let (mut verdicts, mut rejects) = (vec![0; MANY], vec![0; RECORD * (MANY + 1)]);
        let list = text("001002");
        taken(&format!("apply, {name}"), LITTLE, &mut || {
            let out = (&mut verdicts[..], &mut rejects[..], &mut [0; 5]);
            raw::apply(&mut master, MANY, &batch, &list, 2007, out.0, out.1, out.2)
        });
        let (mut journal, mut result) = (vec![0; enough(MANY)], [0; 6]);
        master.copy_from_slice(&before);
        taken(&format!("apply_journaled, {name}"), LITTLE, &mut || {
            raw::apply_journaled(
                &mut master,
                MANY,
                &batch,
                &list,
                2007,
                &mut verdicts,
                &mut rejects,
                &mut journal,
                &mut result,
            )
        });
        let (rows, journal) = (result[4] as usize, &journal[..result[5] as usize]);
        taken(&format!("take_back, {name}"), LITTLE, &mut || {
            raw::take_back(&mut master, rows, journal, &mut 0)
        });
        taken(&format!("totals, {name}"), LITTLE, &mut || {
            raw::totals(&batch, &mut [0; 4])
        });
    }
    let half = batch(STATE, &changes()[..MANY / 2]);
    let mut out = vec![0; 2 * half.len()];
    taken("merge", LITTLE, &mut || {
        raw::merge(&half, &half, &mut out, &mut 0)
    });
}

#[test]
fn masters() {
    let mut master = bulk::rows(STATE, MANY, 2);
    let key = bulk::key(STATE, 2 * (MANY / 3));
    taken("find", LITTLE, &mut || {
        raw::find(&master, MANY, &key, &mut 0)
    });
    let keys: Vec<u8> = (0..MANY).flat_map(|at| bulk::key(STATE, 2 * at)).collect();
    let mut places = vec![0; MANY];
    taken("find_many", LITTLE, &mut || {
        raw::find_many(&master, MANY, &keys, &mut places, &mut 0)
    });
    let (mut out, date) = (vec![0; RECORD * (MANY + 1)], text("20261117"));
    taken("reconcile", LITTLE, &mut || {
        raw::reconcile(&master, MANY, &STATE, &date, &mut out, &mut 0)
    });
    let mut out = vec![0; pages_length(MANY)];
    taken("pages", LITTLE, &mut || {
        raw::pages(&master, MANY, &mut out, &mut 0)
    });
    let mut rng = Rng::new(19);
    let mut lines: Vec<Line> = (0..MANY).map(|at| line(&mut rng, STATE, 2 * at)).collect();
    rng.shuffle(&mut lines);
    let file = [lines.concat(), total(&lines).to_vec()].concat();
    let mut list = vec![0; MANY];
    taken("post", LITTLE, &mut || {
        raw::post(&mut master, MANY, &file, &mut list, &mut 0)
    });
    for row in master.chunks_exact_mut(200) {
        row[65..73].fill(0xF1);
        row[195..].fill(0x40);
    }
    taken("add_cents", LITTLE, &mut || {
        raw::add_cents(&mut master, MANY)
    });
    let (row, mut wanted, mut out) = (&bulk::rows(STATE, 1, 2), bulk::rows(STATE, 1, 2), [0; 980]);
    wanted[15] = 0xC1;
    taken("records_to", LITTLE, &mut || {
        raw::records_to(row, &wanted, &[], &mut out, &mut 0)
    });
}

#[test]
fn files() {
    let file: Vec<u8> = (0..MANY)
        .rev()
        .flat_map(|at| contact(at % 54_000))
        .collect();
    let (mut table, mut faulty) = (vec![0; MANY * CONTACT], vec![0; MANY]);
    let used = taken("contacts_update", CONTACTS, &mut || {
        raw::contacts_update(&mut table, 0, &file, &mut faulty, &mut [0; 2])
    });
    assert!(used > LITTLE);
    let mut out = vec![0; 3 * 999];
    taken("contacts_codes", LITTLE, &mut || {
        raw::contacts_codes(&table, 54_000, &STATE, &mut out, &mut 0)
    });
    let (ascii, mut out) = (vec![b'A'; 100_000], vec![0; 100_000]);
    taken("to_ebcdic", LITTLE, &mut || {
        raw::to_ebcdic(&ascii, &mut out, &mut 0)
    });
    let (ebcdic, mut out) = (out, vec![0; 100_000]);
    taken("to_ascii", LITTLE, &mut || {
        raw::to_ascii(&ebcdic, &mut out, &mut 0)
    });
}
