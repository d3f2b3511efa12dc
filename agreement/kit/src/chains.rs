//! Calls one behind the other, each on what the one before left.

use generator::records::{batch, Record, RECORD};
use generator::rng::Rng;
use generator::rows::ROW;

use crate::aims::make;
use crate::aims::{Aim, Target};
use crate::calls::named;
use crate::case::{case, Case, Outcome, Value};
use crate::details::RULES;
use crate::scene::{self, apply, bytes, keys, line, own, pages_length, some_details, world};

/// Runs a case on both engines, and answers what ours left where it was carried out.
pub type Run<'a> = dyn FnMut(Case) -> Option<Outcome> + 'a;

pub struct Chain {
    pub name: &'static str,
    /// The calls that it takes, by name.
    pub calls: &'static [&'static str],
    pub run: fn(&mut Rng, &mut Run),
}

pub const CHAINS: &[Chain] = &[
    Chain {
        name: "applied, taken back, applied again",
        calls: &["apply_journaled", "take_back"],
        run: there_and_back,
    },
    Chain {
        name: "a file sent as several",
        calls: &["apply"],
        run: several,
    },
    Chain {
        name: "two batches merged and one behind the other",
        calls: &["apply", "merge"],
        run: merged,
    },
    Chain {
        name: "a collection file posted behind a batch",
        calls: &["apply", "post"],
        run: posted,
    },
    Chain {
        name: "what a batch leaves, found, reconciled and printed",
        calls: &["apply", "find", "find_many", "reconcile", "pages"],
        run: looked_at,
    },
    Chain {
        name: "records written and sent",
        calls: &["records_to", "apply"],
        run: sent,
    },
    Chain {
        name: "a file of contacts read twice, and its codes",
        calls: &["contacts_update", "contacts_codes"],
        run: contacts,
    },
    Chain {
        name: "a file converted there and back",
        calls: &["to_ebcdic", "to_ascii"],
        run: converted,
    },
    Chain {
        name: "a master converted, then worked on",
        calls: &["add_cents", "find"],
        run: with_cents,
    },
];

/// Any details that a rule of a record makes.
fn any_details(rng: &mut Rng, world: &generator::world::World) -> Vec<Record> {
    let rule = rng.below(RULES.len());
    (RULES[rule].make)(rng, world)
}

fn there_and_back(rng: &mut Rng, run: &mut Run) {
    let world = world(rng);
    let details = any_details(rng, &world);
    let first = apply(rng, &world, &details, true);
    let Some(left) = run(first.clone()) else {
        return;
    };
    let numbers = left.numbers(&first, "result");
    let (rows, length) = (numbers[4], numbers[5] as usize);
    let journal = left.bytes(&first, "journal")[..length].to_vec();
    let mut master = left.bytes(&first, "master");
    if rng.percent(30) {
        master.truncate(rows as usize * ROW);
    }
    let back = case(
        "take_back",
        vec![
            bytes(master),
            Value::Count(rows),
            bytes(journal),
            Value::Result(vec![rng.number()]),
        ],
    );
    let Some(old) = run(back.clone()) else {
        return;
    };
    let mut again = first.clone();
    let restored = old.bytes(&back, "master");
    if restored.len() == first.bytes("master").len() {
        *again.bytes_mut("master") = restored;
        run(again);
    }
    // the journal of a batch that was taken back fits no more, or does again
    let mut twice = back;
    *twice.bytes_mut("master") = old.bytes(&twice, "master");
    twice.set_count("rows", old.numbers(&twice, "rows_after")[0]);
    run(twice);
}

/// The same call with another batch, from what one left.
fn next(case: &Case, left: &Outcome, state: [u8; 2], details: &[Record]) -> Case {
    let mut next = case.clone();
    *next.bytes_mut("master") = left.bytes(case, "master");
    next.set_count("rows", left.numbers(case, "result")[4]);
    fit(&mut next, state, details);
    next
}

/// Puts another batch into a case of apply, with lists as long as it needs.
fn fit(case: &mut Case, state: [u8; 2], details: &[Record]) {
    *case.bytes_mut("batch") = batch(state, details);
    *case.bytes_mut("verdicts") = vec![0x33; 8 * details.len()];
    *case.bytes_mut("rejects") = vec![0x44; RECORD * (details.len() + 1)];
}

fn several(rng: &mut Rng, run: &mut Run) {
    let world = world(rng);
    let details = any_details(rng, &world);
    let whole = apply(rng, &world, &details, false);
    run(whole.clone());
    let cut = rng.below(details.len() + 1);
    let mut first = whole;
    fit(&mut first, world.state, &details[..cut]);
    let Some(left) = run(first.clone()) else {
        return;
    };
    run(next(&first, &left, world.state, &details[cut..]));
}

fn merged(rng: &mut Rng, run: &mut Run) {
    let world = world(rng);
    let details = any_details(rng, &world);
    let whole = apply(rng, &world, &details, false);
    let cut = rng.below(details.len() + 1);
    let parts = [&details[..cut], &details[cut..]].map(|part| batch(world.state, part));
    let [first, second] = parts;
    let length = first.len() + second.len() - RECORD;
    let merge = case(
        "merge",
        vec![
            bytes(first),
            bytes(second),
            bytes(vec![0x55; length]),
            Value::Result(vec![rng.number()]),
        ],
    );
    let Some(left) = run(merge.clone()) else {
        return;
    };
    let mut single = whole;
    *single.bytes_mut("batch") = left.bytes(&merge, "out");
    run(single);
}

fn posted(rng: &mut Rng, run: &mut Run) {
    let world = world(rng);
    let details = any_details(rng, &world);
    let batch = apply(rng, &world, &details, false);
    let Some(left) = run(batch.clone()) else {
        return;
    };
    let mut lines = Vec::new();
    for _ in 0..rng.between(1, 3) {
        let key = match rng.percent(70) {
            true => own(rng, &world).key,
            false => rng.pick(&world.fresh),
        };
        let cents = rng.pick(&[1, 50, 2_500, 10_000, 9_999_999_999]);
        lines.push(match rng.percent(60) {
            true => line(&key, cents, 0),
            false => line(&key, 0, cents),
        });
    }
    let mut post = scene::post(rng, &world, left.bytes(&batch, "master"), &lines);
    post.set_count("rows", left.numbers(&batch, "result")[4]);
    let Some(after) = run(post.clone()) else {
        return;
    };
    // and a batch behind the file
    let details = some_details(rng, &world);
    let mut last = next(&batch, &left, world.state, &details);
    *last.bytes_mut("master") = after.bytes(&post, "master");
    run(last);
}

fn looked_at(rng: &mut Rng, run: &mut Run) {
    let world = world(rng);
    let details = any_details(rng, &world);
    let batch = apply(rng, &world, &details, false);
    let Some(left) = run(batch.clone()) else {
        return;
    };
    let master = bytes(left.bytes(&batch, "master"));
    let rows = left.numbers(&batch, "result")[4];
    let count = Value::Count(rows);
    let number = Value::Result(vec![rng.number()]);
    let wanted = keys(rng, &world);
    let key = rng.pick(&world.fresh);
    let lent = |mut rest: Vec<Value>| {
        let mut values = vec![master.clone(), count.clone()];
        values.append(&mut rest);
        values.push(number.clone());
        values
    };
    run(case("find", lent(vec![bytes(key)])));
    let places = bytes(vec![0x66; 4 * wanted.len()]);
    run(case(
        "find_many",
        lent(vec![bytes(wanted.concat()), places]),
    ));
    let date = bytes(generator::text::text("20070131"));
    let out = bytes(vec![0x66; RECORD * (rows as usize + 1)]);
    run(case("reconcile", lent(vec![bytes(world.state), date, out])));
    let out = bytes(vec![0x66; pages_length(rows as usize)]);
    run(case("pages", lent(vec![out])));
}

fn sent(rng: &mut Rng, run: &mut Run) {
    let Some(call) = named("records_to") else {
        return;
    };
    let aim = Aim {
        call,
        target: Target::Refusal(29),
    };
    let records = make(rng, &aim);
    let Some(left) = run(records.clone()) else {
        return;
    };
    let count = left.numbers(&records, "records")[0] as usize;
    let details: Vec<Record> = left
        .bytes(&records, "out")
        .chunks_exact(RECORD)
        .take(count)
        .map(|record| record.try_into().unwrap_or([0x40; RECORD]))
        .collect();
    let row = records.bytes("row").to_vec();
    let state = [row[0], row[1]];
    let values = vec![
        bytes(row),
        Value::Count(1),
        bytes(batch(state, &details)),
        bytes(records.bytes("locals")),
        Value::Count(2007),
        bytes(vec![0x33; 8 * count]),
        bytes(vec![0x44; RECORD * (count + 1)]),
        Value::Result(vec![7; 5]),
    ];
    run(case("apply", values));
}

fn contacts(rng: &mut Rng, run: &mut Run) {
    let update = scene::base(rng, "contacts_update");
    let Some(left) = run(update.clone()) else {
        return;
    };
    let count = left.numbers(&update, "result")[0];
    let mut again = update.clone();
    *again.bytes_mut("table") = left.bytes(&update, "table");
    again.set_count("count", count);
    run(again);
    let values = vec![
        bytes(left.bytes(&update, "table")),
        Value::Count(count),
        bytes(generator::text::text("OH")),
        bytes(vec![0x22; 3 * count as usize]),
        Value::Result(vec![9]),
    ];
    run(case("contacts_codes", values));
}

fn converted(rng: &mut Rng, run: &mut Run) {
    let there = scene::base(rng, "to_ebcdic");
    let Some(left) = run(there.clone()) else {
        return;
    };
    let length = there.bytes("in").len();
    let values = vec![
        bytes(&left.bytes(&there, "out")[..length]),
        bytes(vec![0x22; length]),
        Value::Result(vec![9]),
    ];
    run(case("to_ascii", values));
}

fn with_cents(rng: &mut Rng, run: &mut Run) {
    let convert = scene::base(rng, "add_cents");
    let Some(left) = run(convert.clone()) else {
        return;
    };
    let master = left.bytes(&convert, "master");
    let key = master.get(..12).map(<[u8]>::to_vec).unwrap_or_default();
    let values = vec![
        bytes(master),
        Value::Count(convert.count("rows")),
        bytes(key),
        Value::Result(vec![9]),
    ];
    run(case("find", values));
}
