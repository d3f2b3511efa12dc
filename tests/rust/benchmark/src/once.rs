//! One call of one engine, for counting its instructions: `benchmark --once CASE ENGINE` under
//! callgrind with `--toggle-collect=measured_call`; `tests/instructions.sh` does that for every case.

use fantanolive::raw;
use generator::bulk;
use generator::contacts::{numbered as contact, Contact};
use generator::files::{accepted, Direction};
use generator::posting::{numbered as collection, total, Line as Collection};
use generator::rng::Rng;

use crate::cases::{coded, half_known, in_order, rename, BLANK_CODE, LAST_CODE};
use crate::convert::BYTES;
use crate::input::{adds, changes, falling, lookup, renames, scattered, Input, MANY, STATE};
use crate::journal;
use crate::many;
use crate::merge;
use crate::pages;
use crate::totals;
use crate::{run, Buffers};

/// As many contacts as there are states and codes.
const CONTACTS: usize = 54_000;

/// What is counted, and nothing else.
#[no_mangle]
#[inline(never)]
pub fn measured_call(call: &mut dyn FnMut()) {
    call();
}

/// Makes one call; the engines are `library` and `speed`.
pub fn once(case: &str, engine: &str) {
    let speed = match engine {
        "library" => false,
        "speed" => true,
        _ => panic!("no such engine: {engine}"),
    };
    match case {
        "find" => find(0, speed),
        "find-10-names" => find(10, speed),
        "find-100-names" => find(100, speed),
        "reconcile" => reconcile(speed),
        "post" => post(scattered(&mut Rng::new(23), MANY), speed),
        "post-in-order" => post((0..MANY).collect(), speed),
        "post-one-row" => post(vec![MANY / 2; MANY], speed),
        "contacts" => contacts(speed),
        "to-ebcdic" => convert(Direction::ToEbcdic, speed),
        "to-ascii" => convert(Direction::ToAscii, speed),
        "journaled-100-changes" => journal::once_apply(&changes(case, MANY, 100)),
        "journaled-65535-changes" => journal::once_apply(&changes(case, MANY, MANY)),
        "journaled-65535-adds" => journal::once_apply(&falling(case, MANY)),
        "take-back-100-changes" => journal::once_take_back(&changes(case, MANY, 100)),
        "take-back-65535-changes" => journal::once_take_back(&changes(case, MANY, MANY)),
        "take-back-19660-adds" => journal::once_take_back(&adds(case, 45_875, 19_660, false)),
        "find-10-keys" => many::once(10),
        "find-65535-keys" => many::once(MANY),
        "merge" => merge::once(),
        "pages" => pages::once(),
        "totals" => totals::once(),
        "100-changes" => apply(&changes(case, MANY, 100), speed),
        "65535-changes" => apply(&changes(case, MANY, MANY), speed),
        "1048576-changes" => apply(&changes(case, 1_048_576, 1_048_576), speed),
        "262144-changes" => apply(&changes(case, 262_144, 262_144), speed),
        "32768-changes" => apply(&changes(case, 32_768, 32_768), speed),
        "16384-changes" => apply(&changes(case, 16_384, 16_384), speed),
        "8192-changes" => apply(&changes(case, 8192, 8192), speed),
        "in-order-changes" => apply(&in_order(case), speed),
        "half-known-adds" => apply(&half_known(case), speed),
        "1000-codes" => apply(&coded(case, LAST_CODE), speed),
        "1000-codes-blank" => apply(&coded(case, BLANK_CODE), speed),
        "65535-adds" => apply(&falling(case, MANY), speed),
        "19660-adds" => apply(&adds(case, 45_875, 19_660, false), speed),
        "mixed" => apply(&adds(case, 45_875, 19_660, true), speed),
        "one-key" => apply(&renames(case, MANY, MANY, true), speed),
        _ => panic!("no such case: {case}"),
    }
}

fn apply(input: &Input, speed: bool) {
    let mut buffers = Buffers::fresh(input);
    let engine = if speed { 2 } else { 0 };
    measured_call(&mut || run(engine, input, &mut buffers));
}

fn find(share: usize, speed: bool) {
    let (mut master, keys, _) = lookup(1);
    rename(&mut master, share);
    let mut place = 0;
    measured_call(&mut || {
        if speed {
            place = speed::find(&master, MANY, &keys[0]).expect("there is such a row");
        } else {
            assert_eq!(raw::find(&master, MANY, &keys[0], &mut place), 0);
        }
    });
}

fn reconcile(speed: bool) {
    let (master, _, state) = lookup(0);
    let date = generator::text::text("20261115");
    let mut out = vec![1; 245 * (MANY + 1)];
    let mut records = 0;
    measured_call(&mut || {
        if speed {
            let done = speed::reconcile(&master, MANY, &state, &date, &mut out);
            records = done.expect("there is room");
        } else {
            let answer = raw::reconcile(&master, MANY, &state, &date, &mut out, &mut records);
            assert_eq!(answer, 0);
        }
    });
}

/// Lines on the rows given by their places.
fn post(places: Vec<usize>, speed: bool) {
    let mut master = bulk::rows(STATE, MANY, 2);
    let mut rng = Rng::new(19);
    let lines: Vec<Collection> = places
        .iter()
        .map(|place| collection(&mut rng, STATE, 2 * place))
        .collect();
    let mut file = lines.concat();
    file.extend_from_slice(&total(&lines));
    let (mut list, mut listed) = (vec![0; MANY], 0);
    measured_call(&mut || {
        if speed {
            let done = speed::post(&mut master, MANY, &file, &mut list);
            listed = done.expect("the file is right");
        } else {
            let answer = raw::post(&mut master, MANY, &file, &mut list, &mut listed);
            assert_eq!(answer, 0);
        }
    });
}

/// Contacts in falling order into an empty table.
fn contacts(speed: bool) {
    let records: Vec<Contact> = (0..CONTACTS).rev().map(contact).collect();
    let file = records.concat();
    let mut table = vec![0; file.len()];
    let (mut faulty, mut result) = (vec![0; CONTACTS], [0; 2]);
    measured_call(&mut || {
        if speed {
            let done = speed::update(&mut table, 0, &file, &mut faulty);
            result = done.expect("there is room");
        } else {
            let answer = raw::contacts_update(&mut table, 0, &file, &mut faulty, &mut result);
            assert_eq!(answer, 0);
        }
    });
}

/// 16 MB of accepted bytes.
fn convert(direction: Direction, speed: bool) {
    let file = accepted(&mut Rng::new(1), direction, BYTES);
    let (mut out, mut place) = (vec![0; BYTES], 0);
    measured_call(&mut || {
        if speed {
            let done = match direction {
                Direction::ToEbcdic => speed::to_ebcdic(&file, &mut out),
                Direction::ToAscii => speed::to_ascii(&file, &mut out),
            };
            assert!(done.is_ok());
        } else {
            let answer = match direction {
                Direction::ToEbcdic => raw::to_ebcdic(&file, &mut out, &mut place),
                Direction::ToAscii => raw::to_ascii(&file, &mut out, &mut place),
            };
            assert_eq!(answer, 0);
        }
    });
}
