//! Small cases that are carried out: the ground on which rules and refusals are aimed at.

use generator::cases::added;
use generator::contacts;
use generator::posting::{self, Line, LINE};
use generator::records::{batch, fields, Record, RECORD};
use generator::rng::Rng;
use generator::rows::{old_rows, rows, ROW};
use generator::text::{byte, digits, put, SPACE, STATES};
use generator::world::{first_name, last_name, sound_key, Key, Known, World};

use crate::case::{case, number_bytes, Case, Value};

pub fn bytes(bytes: impl Into<Vec<u8>>) -> Value {
    Value::Bytes(bytes.into())
}

/// A list of so many numbers of a width, with anything in it.
fn list(rng: &mut Rng, count: usize, width: usize) -> Value {
    let numbers: Vec<u64> = (0..count).map(|_| rng.number()).collect();
    bytes(number_bytes(&numbers, width))
}

fn result(rng: &mut Rng, count: usize) -> Value {
    Value::Result((0..count).map(|_| rng.number()).collect())
}

/// None as often as not, else a little.
fn spare(rng: &mut Rng, much: usize) -> usize {
    match rng.below(4) {
        0 | 1 => 0,
        2 => 1,
        _ => rng.below(much + 1),
    }
}

pub fn is_own(world: &World, known: &Known) -> bool {
    known.live && known.key[..2] == world.state
}

/// A world with a live row of its own state.
pub fn world(rng: &mut Rng) -> World {
    loop {
        let count = rng.between(1, 4);
        let world = World::new(rng, count, 3);
        if world.known.iter().any(|known| is_own(&world, known)) && !world.fresh.is_empty() {
            return world;
        }
    }
}

/// A live case of the world's own state.
pub fn own(rng: &mut Rng, world: &World) -> Known {
    let own = world.known.iter().filter(|known| is_own(world, known));
    let own: Vec<&Known> = own.collect();
    own[rng.below(own.len())].clone()
}

/// A case that has no row yet, of the world's own state.
pub fn anew(rng: &mut Rng, world: &World) -> Known {
    let mut key = match world.fresh.is_empty() {
        true => sound_key(rng, world.state),
        false => rng.pick(&world.fresh),
    };
    key[..2].copy_from_slice(&world.state);
    Known {
        key,
        last: last_name(rng),
        first: first_name(rng),
        live: false,
    }
}

/// A record of a type for a case, right but for what chance puts into free fields.
pub fn record(rng: &mut Rng, world: &World, kind: u8, known: &Known) -> Record {
    let mut record = [SPACE; RECORD];
    put(&mut record, 1, &known.key[..2]);
    put(&mut record, 6, &known.key[2..11]);
    record[73] = known.key[11];
    record[72] = byte(kind);
    put(&mut record, 30, &known.last);
    fields(rng, world, kind, known, &mut record);
    record
}

/// A right record of any type.
pub fn any_record(rng: &mut Rng, world: &World) -> Record {
    let kind = rng.pick(b"AABCDLMMRSTZ");
    let known = match kind == b'A' && rng.percent(60) {
        true => anew(rng, world),
        false => own(rng, world),
    };
    record(rng, world, kind, &known)
}

/// A call of apply with the details given, just as long as it must be or a little longer.
pub fn apply(rng: &mut Rng, world: &World, details: &[Record], journaled: bool) -> Case {
    let mut master = rows(rng, world);
    let count = world.known.len();
    let room = count + added(details, world) + spare(rng, 2);
    let behind = room * ROW - master.len();
    master.extend(rng.bytes(behind));
    let verdicts = details.len() + spare(rng, 3);
    let rejects = RECORD * (details.len() + 1) + spare(rng, 300);
    let mut values = vec![
        bytes(master),
        Value::Count(count as u64),
        bytes(batch(world.state, details)),
        bytes(world.list_bytes()),
        Value::Count(world.year),
        list(rng, verdicts, 8),
        bytes(rng.bytes(rejects)),
    ];
    if journaled {
        let journal = 12 + 205 * details.len() + spare(rng, 300);
        values.push(bytes(rng.bytes(journal)));
    }
    values.push(result(rng, if journaled { 6 } else { 5 }));
    let call = if journaled {
        "apply_journaled"
    } else {
        "apply"
    };
    case(call, values)
}

pub fn some_details(rng: &mut Rng, world: &World) -> Vec<Record> {
    let count = rng.pick(&[0, 1, 1, 2, 2, 3]);
    (0..count).map(|_| any_record(rng, world)).collect()
}

fn apply_case(rng: &mut Rng, journaled: bool) -> Case {
    let world = world(rng);
    let details = some_details(rng, &world);
    apply(rng, &world, &details, journaled)
}

/// A master with rows and perhaps room behind them.
pub fn master(rng: &mut Rng, world: &World) -> Vec<u8> {
    let mut master = rows(rng, world);
    let behind = ROW * spare(rng, 2);
    master.extend(rng.bytes(behind));
    master
}

/// A number in groups of seven bits.
pub fn put_number(bytes: &mut Vec<u8>, number: u64) {
    let mut rest = number;
    while rest > 127 {
        bytes.push(rest as u8 | 0x80);
        rest >>= 7;
    }
    bytes.push(rest as u8);
}

/// A journal that fits a master: some rows new, some changed from what they are now but for their key.
fn take_back_case(rng: &mut Rng) -> Case {
    let world = match rng.once_in(12) {
        true => World::new(rng, 140, 1),
        false => world(rng),
    };
    let master = master(rng, &world);
    let count = world.known.len();
    let old = rows(rng, &world);
    let mut entries = Vec::new();
    let mut new = 0;
    for place in 0..count {
        match rng.below(4) {
            0 => {
                put_number(&mut entries, place as u64);
                entries.push(0);
                new += 1;
            }
            1 => {
                put_number(&mut entries, place as u64);
                entries.push(1);
                entries.extend(&old[place * ROW..(place + 1) * ROW]);
            }
            _ => {}
        }
    }
    let mut journal = Vec::new();
    put_number(&mut journal, (count - new) as u64);
    put_number(&mut journal, count as u64);
    journal.extend(entries);
    let values = vec![
        bytes(master),
        Value::Count(count as u64),
        bytes(journal),
        result(rng, 1),
    ];
    case("take_back", values)
}

fn totals_case(rng: &mut Rng) -> Case {
    let world = world(rng);
    let details = some_details(rng, &world);
    let batch = batch(world.state, &details);
    case("totals", vec![bytes(batch), result(rng, 4)])
}

fn merge_case(rng: &mut Rng) -> Case {
    let world = world(rng);
    let (first, second) = (some_details(rng, &world), some_details(rng, &world));
    let out = RECORD * (first.len() + second.len() + 1) + spare(rng, 300);
    let values = vec![
        bytes(batch(world.state, &first)),
        bytes(batch(world.state, &second)),
        bytes(rng.bytes(out)),
        result(rng, 1),
    ];
    case("merge", values)
}

fn find_case(rng: &mut Rng) -> Case {
    let world = world(rng);
    let values = vec![
        bytes(master(rng, &world)),
        Value::Count(world.known.len() as u64),
        bytes(world.known[rng.below(world.known.len())].key),
        result(rng, 1),
    ];
    case("find", values)
}

/// Keys of rows and of none, rising.
pub fn keys(rng: &mut Rng, world: &World) -> Vec<Key> {
    let known = world.known.iter().map(|known| known.key);
    let all = known.chain(world.fresh.iter().copied());
    let mut keys: Vec<Key> = all.filter(|_| rng.percent(60)).collect();
    keys.sort_unstable();
    keys.dedup();
    keys
}

fn many_case(rng: &mut Rng) -> Case {
    let world = world(rng);
    let keys = keys(rng, &world);
    let places = keys.len() + spare(rng, 3);
    let values = vec![
        bytes(master(rng, &world)),
        Value::Count(world.known.len() as u64),
        bytes(keys.concat()),
        list(rng, places, 4),
        result(rng, 1),
    ];
    case("find_many", values)
}

fn reconcile_case(rng: &mut Rng) -> Case {
    let world = world(rng);
    let state = match rng.below(6) {
        0 => generator::text::state(rng.pick(&STATES)),
        1 => world.other,
        _ => world.state,
    };
    let listed = |known: &&Known| known.live && known.key[..2] == state;
    let records = world.known.iter().filter(listed).count();
    let out = RECORD * (records + 1) + spare(rng, 300);
    let date = digits(rng.pick(&[20070131, 20000229, 19000101, 99991231]), 8);
    let values = vec![
        bytes(master(rng, &world)),
        Value::Count(world.known.len() as u64),
        bytes(state),
        bytes(date),
        bytes(rng.bytes(out)),
        result(rng, 1),
    ];
    case("reconcile", values)
}

/// How many bytes the pages of so many live rows take.
pub fn pages_length(live: usize) -> usize {
    132 * (live + 2 * live.div_ceil(58))
}

fn pages_case(rng: &mut Rng) -> Case {
    let world = match rng.below(12) {
        0 => {
            let count = rng.between(57, 62);
            all_live(World::new(rng, count, 1), count)
        }
        1 => {
            let count = rng.between(115, 118);
            all_live(World::new(rng, count, 1), count)
        }
        _ => world(rng),
    };
    let live = world.known.iter().filter(|known| known.live).count();
    let out = pages_length(live) + spare(rng, 300);
    let values = vec![
        bytes(master(rng, &world)),
        Value::Count(world.known.len() as u64),
        bytes(rng.bytes(out)),
        result(rng, 1),
    ];
    case("pages", values)
}

fn all_live(mut world: World, count: usize) -> World {
    world.known.truncate(count);
    world.known.iter_mut().for_each(|known| known.live = true);
    world
}

fn cents_case(rng: &mut Rng) -> Case {
    let world = world(rng);
    let mut master = old_rows(rng, &world);
    let behind = ROW * spare(rng, 2);
    master.extend(rng.bytes(behind));
    let count = Value::Count(world.known.len() as u64);
    case("add_cents", vec![bytes(master), count])
}

/// A line on a key with a collection and an adjustment, in cents.
pub fn line(key: &Key, collection: u64, adjustment: u64) -> Line {
    let mut line = [SPACE; LINE];
    put(&mut line, 1, &key[..2]);
    put(&mut line, 6, &key[2..11]);
    line[106] = key[11];
    put(&mut line, 76, &digits(collection, 11));
    put(&mut line, 87, &digits(adjustment, 11));
    line
}

/// A call of post with the lines given.
pub fn post(rng: &mut Rng, world: &World, master: Vec<u8>, lines: &[Line]) -> Case {
    let mut file = lines.concat();
    file.extend(posting::total(lines));
    let numbers = lines.len() + spare(rng, 3);
    let values = vec![
        bytes(master),
        Value::Count(world.known.len() as u64),
        bytes(file),
        list(rng, numbers, 4),
        result(rng, 1),
    ];
    case("post", values)
}

fn post_case(rng: &mut Rng) -> Case {
    let world = world(rng);
    let master = master(rng, &world);
    let lines: Vec<Line> = (0..rng.below(4))
        .map(|_| {
            let key = own(rng, &world).key;
            let cents = rng.between(0, 90_000) as u64;
            match rng.percent(60) {
                true => line(&key, cents, 0),
                false => line(&key, 0, cents),
            }
        })
        .collect();
    post(rng, &world, master, &lines)
}

fn convert_case(rng: &mut Rng, call: &str) -> Case {
    let length = rng.pick(&[0, 1, 2, 5, 46, 245]);
    let from = match call {
        "to_ebcdic" => generator::files::ASCII,
        _ => generator::files::EBCDIC,
    };
    let input: Vec<u8> = (0..length).map(|_| rng.pick(&from)).collect();
    let out = length + spare(rng, 30);
    let values = vec![bytes(input), bytes(rng.bytes(out)), result(rng, 1)];
    case(call, values)
}

/// Good contact records by rising key.
pub fn contacts(rng: &mut Rng, count: usize) -> Vec<[u8; 220]> {
    let mut keys: Vec<Vec<u8>> = (0..count)
        .map(|_| {
            let state = rng.pick(&["OH", "OH", "OH", "AK", "WY"]);
            let code = rng.pick(&[0, 1, 2, 7, 10, 100, 999]);
            [generator::text::text(state), digits(code, 3)].concat()
        })
        .collect();
    keys.sort();
    keys.dedup();
    keys.into_iter()
        .map(|key| contacts::good(rng, key.try_into().unwrap_or([SPACE; 5])))
        .collect()
}

fn update_case(rng: &mut Rng) -> Case {
    let count = rng.below(4);
    let table = contacts(rng, count);
    let mut file: Vec<[u8; 220]> = Vec::new();
    for _ in 0..rng.below(4) {
        file.extend(contacts(rng, 1));
    }
    let lacks = |record: &&[u8; 220]| table.iter().all(|one| one[..5] != record[..5]);
    let room = table.len() + file.iter().filter(lacks).count() + spare(rng, 2);
    let mut bytes_of_table = table.concat();
    let behind = room * 220 - bytes_of_table.len();
    bytes_of_table.extend(rng.bytes(behind));
    let numbers = file.len() + spare(rng, 3);
    let values = vec![
        bytes(bytes_of_table),
        Value::Count(table.len() as u64),
        bytes(file.concat()),
        list(rng, numbers, 4),
        result(rng, 2),
    ];
    case("contacts_update", values)
}

fn codes_case(rng: &mut Rng) -> Case {
    let count = rng.below(6);
    let table = contacts(rng, count);
    let state = generator::text::text(rng.pick(&["OH", "OH", "AK", "WY", "TX"]));
    let listed = |one: &&[u8; 220]| one[..2] == state[..] && one[2..5] != [0xF0; 3];
    let out = 3 * table.iter().filter(listed).count() + spare(rng, 9);
    let mut lent = table.concat();
    let behind = 220 * spare(rng, 1);
    lent.extend(rng.bytes(behind));
    let values = vec![
        bytes(lent),
        Value::Count(table.len() as u64),
        bytes(state),
        bytes(rng.bytes(out)),
        result(rng, 1),
    ];
    case("contacts_codes", values)
}

/// A row, and the same with some of the fields changed that records can change.
fn records_case(rng: &mut Rng) -> Case {
    let world = world(rng);
    let place = world
        .known
        .iter()
        .position(|known| is_own(&world, known))
        .unwrap_or(0);
    let row = rows(rng, &world)[place * ROW..(place + 1) * ROW].to_vec();
    let mut wanted = row.clone();
    if rng.percent(50) {
        put(&mut wanted, 16, &generator::text::text("NEW CASE ID 7  "));
    }
    if rng.percent(50) {
        let code = match world.list.is_empty() || rng.percent(30) {
            true => [0xF0; 3],
            false => rng.pick(&world.list),
        };
        put(&mut wanted, 13, &code);
    }
    if rng.percent(50) {
        wanted[194] = rng.pick(&[0, 0b1111, 0b10, 0b1000_0000, 0b1111_1111, 0b1010_1110]);
    }
    if rng.percent(50) {
        put(&mut wanted, 66, &digits(rng.between(1, 9999) as u64, 8));
        put(&mut wanted, 197, &[0xF0; 2]);
    }
    let out = 980 + spare(rng, 300);
    let values = vec![
        bytes(row),
        bytes(wanted),
        bytes(world.list_bytes()),
        bytes(rng.bytes(out)),
        result(rng, 1),
    ];
    case("records_to", values)
}

/// A case of a call that is carried out, or nearly always so.
pub fn base(rng: &mut Rng, call: &str) -> Case {
    match call {
        "apply" => apply_case(rng, false),
        "apply_journaled" => apply_case(rng, true),
        "take_back" => take_back_case(rng),
        "totals" => totals_case(rng),
        "merge" => merge_case(rng),
        "find" => find_case(rng),
        "find_many" => many_case(rng),
        "reconcile" => reconcile_case(rng),
        "pages" => pages_case(rng),
        "add_cents" => cents_case(rng),
        "post" => post_case(rng),
        "to_ebcdic" | "to_ascii" => convert_case(rng, call),
        "contacts_update" => update_case(rng),
        "contacts_codes" => codes_case(rng),
        _ => records_case(rng),
    }
}
