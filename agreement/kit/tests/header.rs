//! The calls of the kit against `fantanolive.h`: arguments, and refusals in the order of checking.

use agreement::calls::{Argument, Call, CALLS, OWN};

const HEADER: &str = include_str!("../../../include/fantanolive.h");

/// The comment before a call, and what stands between the parentheses of its prototype, on one line.
fn declared(call: &Call) -> (&'static str, String) {
    let comment = format!("\n/* fantanolive_{}: ", call.name);
    let prototype = format!("\nuint64_t fantanolive_{}(", call.name);
    let (_, rest) = HEADER.split_once(&comment).expect(call.name);
    let (comment, rest) = rest.split_once(&prototype).expect(call.name);
    let (inside, _) = rest.split_once(");").expect("a prototype ends");
    let words: Vec<&str> = inside.split_whitespace().collect();
    (comment, words.join(" "))
}

/// Whether a constant has this value.
fn is_size(constant: &str, value: usize) -> bool {
    let define = format!("\n#define {constant} {value} ");
    HEADER.contains(&define)
}

/// Whether parameters of C are those of an argument.
fn is_argument(argument: &Argument, parameters: &mut dyn Iterator<Item = &str>) -> bool {
    let mut next = || parameters.next().unwrap_or_default();
    match argument {
        Argument::Buffer {
            name,
            width,
            written,
            ..
        } => {
            let access = if *written { "" } else { "const " };
            let pointer = format!("{access}uint{}_t *{name}", 8 * width);
            next() == pointer && next() == format!("size_t {name}_length")
        }
        Argument::Count { name } => {
            let kind = if *name == "year" {
                "uint64_t"
            } else {
                "size_t"
            };
            next() == format!("{kind} {name}")
        }
        Argument::Result { name, numbers } if numbers.len() == 1 => {
            next() == format!("uint64_t *{name}")
        }
        Argument::Result { name, numbers } => {
            let start = format!("uint64_t {name}[");
            let size = next().strip_prefix(&start);
            size.and_then(|size| size.strip_suffix(']'))
                .is_some_and(|size| is_size(size, numbers.len()))
        }
    }
}

#[test]
fn arguments_of_the_header() {
    for call in &CALLS[..OWN] {
        let (_, prototype) = declared(call);
        let mut parameters = prototype.split(", ");
        for argument in call.arguments {
            let same = is_argument(argument, &mut parameters);
            assert!(same, "{}: {}", call.name, argument.name());
        }
        assert_eq!(parameters.next(), None, "{}", call.name);
    }
}

/// The refusals that a comment lists.
fn listed(comment: &str) -> Vec<u64> {
    let lines = comment
        .lines()
        .filter_map(|line| line.strip_prefix(" *   "));
    let numbers = lines.filter_map(|line| {
        let (number, name) = line.split_once(' ')?;
        let is_answer = name.trim_start().starts_with("FANTANOLIVE_");
        number
            .parse()
            .ok()
            .filter(|&number| is_answer && number > 0)
    });
    numbers.collect()
}

#[test]
fn refusals_of_the_header() {
    for call in &CALLS[..OWN] {
        let listed = listed(declared(call).0);
        match call.name {
            // the comment refers to the call before
            "apply_journaled" => {
                let (before, own) = call.refusals.split_at(call.refusals.len() - listed.len());
                assert_eq!((before, own), (CALLS[0].refusals, &listed[..]));
            }
            "to_ascii" => assert!(listed.is_empty()),
            name => assert_eq!(call.refusals, listed, "{name}"),
        }
    }
}
