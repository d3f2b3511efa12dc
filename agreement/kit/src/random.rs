//! The generator's random cases of every call, as cases of the kit.

use generator::journal::{journaled_case, wild_take_back, JournaledCase, TakeBackCase};
use generator::many::{many_case, ManyCase};
use generator::merge::{merge_case, MergeCase};
use generator::pages::{pages_case, PagesCase};
use generator::records_to::{records_to_case, RecordsToCase};
use generator::rng::Rng;
use generator::several::totals_case;
use generator::{
    ApplyCase, CentsCase, CodesCase, ConvertCase, Direction, FindCase, PostCase, ReconcileCase,
    UpdateCase,
};

use crate::case::{case, number_bytes, Case, Value};
use crate::scene::bytes;

fn list64(numbers: &[u64]) -> Value {
    bytes(number_bytes(numbers, 8))
}

fn list32(numbers: &[u32]) -> Value {
    let numbers: Vec<u64> = numbers.iter().map(|&number| u64::from(number)).collect();
    bytes(number_bytes(&numbers, 4))
}

fn count(number: usize) -> Value {
    Value::Count(number as u64)
}

fn number(number: u64) -> Value {
    Value::Result(vec![number])
}

/// Each typed case of the generator as a case of the kit: its fields in the order of the call's arguments.
macro_rules! cases {
    ($($type:ident $call:literal |$one:ident| [$($value:expr),* $(,)?];)*) => {
        $(impl From<$type> for Case {
            fn from($one: $type) -> Case {
                case($call, vec![$($value),*])
            }
        })*
    };
}

cases! {
    ApplyCase "apply" |one| [
        bytes(one.master), count(one.rows), bytes(one.batch), bytes(one.list), Value::Count(one.year), list64(&one.verdicts),
        bytes(one.rejects), Value::Result(one.result.to_vec()),
    ];
    JournaledCase "apply_journaled" |one| [
        bytes(one.apply.master), count(one.apply.rows), bytes(one.apply.batch), bytes(one.apply.list),
        Value::Count(one.apply.year), list64(&one.apply.verdicts), bytes(one.apply.rejects), bytes(one.journal),
        Value::Result([&one.apply.result[..], &[one.length]].concat()),
    ];
    TakeBackCase "take_back" |one| [bytes(one.master), count(one.rows), bytes(one.journal), number(one.rows_after)];
    MergeCase "merge" |one| [bytes(one.first), bytes(one.second), bytes(one.out), number(one.records)];
    FindCase "find" |one| [bytes(one.master), count(one.rows), bytes(one.key), number(one.place)];
    ManyCase "find_many" |one| [
        bytes(one.master), count(one.rows), bytes(one.keys), list32(&one.places), number(one.comparisons),
    ];
    ReconcileCase "reconcile" |one| [
        bytes(one.master), count(one.rows), bytes(one.state), bytes(one.date), bytes(one.out), number(one.records),
    ];
    PagesCase "pages" |one| [bytes(one.master), count(one.rows), bytes(one.out), number(one.pages)];
    CentsCase "add_cents" |one| [bytes(one.master), count(one.rows)];
    PostCase "post" |one| [
        bytes(one.master), count(one.rows), bytes(one.file), list32(&one.list), number(one.listed),
    ];
    UpdateCase "contacts_update" |one| [
        bytes(one.table), count(one.count), bytes(one.file), list32(&one.faulty), Value::Result(one.result.to_vec()),
    ];
    CodesCase "contacts_codes" |one| [
        bytes(one.table), count(one.count), bytes(one.state), bytes(one.out), number(one.codes),
    ];
    RecordsToCase "records_to" |one| [
        bytes(one.row), bytes(one.wanted), bytes(one.list), bytes(one.out), number(one.records),
    ];
}

impl From<ConvertCase> for Case {
    fn from(one: ConvertCase) -> Case {
        let call = match one.direction {
            Direction::ToEbcdic => "to_ebcdic",
            Direction::ToAscii => "to_ascii",
        };
        case(
            call,
            vec![bytes(one.input), bytes(one.out), number(one.place)],
        )
    }
}

impl From<generator::Case> for Case {
    fn from(one: generator::Case) -> Case {
        match one {
            generator::Case::Apply(one) => one.into(),
            generator::Case::Find(one) => one.into(),
            generator::Case::Reconcile(one) => one.into(),
            generator::Case::Convert(one) => one.into(),
            generator::Case::Update(one) => one.into(),
            generator::Case::Codes(one) => one.into(),
            generator::Case::Cents(one) => one.into(),
            generator::Case::Post(one) => one.into(),
        }
    }
}

/// A random case of totals: any batch, right or not.
pub fn totalled(rng: &mut Rng) -> Case {
    let batch = totals_case(rng);
    let totals = Value::Result((0..4).map(|_| rng.number()).collect());
    case("totals", vec![bytes(batch), totals])
}

/// A random case of one of the later calls.
fn later(rng: &mut Rng) -> Case {
    let make = rng.pick(&[
        (|rng| journaled_case(rng).into()) as fn(&mut Rng) -> Case,
        |rng| wild_take_back(rng).into(),
        |rng| many_case(rng).into(),
        |rng| merge_case(rng).into(),
        |rng| pages_case(rng).into(),
        |rng| records_to_case(rng).into(),
        totalled,
    ]);
    make(rng)
}

/// A random case of any call: mostly carried out, else damaged, now and then wild or large.
pub fn any(rng: &mut Rng) -> Case {
    match rng.percent(60) {
        true => generator::case(rng.number()).into(),
        false => later(rng),
    }
}
