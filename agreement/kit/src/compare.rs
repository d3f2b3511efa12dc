//! What two engines made of one case, held against each other.

use crate::calls::{Argument, Content};
use crate::case::{numbers_of, Answered, Case, Outcome};
use crate::fields::{journal_part, spot};

/// Where two engines part first.
#[derive(Clone, Debug, PartialEq, Eq)]
pub enum Where {
    /// The other one came to no answer.
    Failure(String),
    Answer,
    /// A number of a result, or of a list.
    Number {
        argument: usize,
        at: usize,
        name: String,
    },
    /// A verdict: the codes that one of them has and the other hasn't.
    Verdict {
        at: usize,
        codes: Vec<u32>,
    },
    Byte {
        argument: usize,
        offset: usize,
        /// The record's number from 1 and the column, 0 where there are no records.
        record: usize,
        column: usize,
        field: String,
    },
}

/// Kinds are told apart by the call, both answers and the field.
#[derive(Clone, Debug, PartialEq, Eq, PartialOrd, Ord)]
pub struct Kind {
    pub call: usize,
    pub answers: (u64, Option<u64>),
    pub field: String,
}

#[derive(Clone, Debug)]
pub struct Difference {
    pub kind: Kind,
    pub at: Where,
}

fn codes(set: u64) -> Vec<u32> {
    (0..64).filter(|code| set >> code & 1 == 1).collect()
}

/// The first place at which two lists differ.
fn first_difference<T: PartialEq>(ours: &[T], theirs: &[T]) -> Option<usize> {
    let pairs = ours.iter().zip(theirs);
    pairs
        .enumerate()
        .find(|(_, (one, two))| one != two)
        .map(|(at, _)| at)
}

fn in_buffer(case: &Case, argument: usize, ours: &[u8], theirs: &[u8]) -> Option<Where> {
    let spec = &case.call().arguments[argument];
    match spec {
        Argument::Buffer {
            content, width: 1, ..
        } => {
            let offset = first_difference(ours, theirs)?;
            if *content == Content::Journal {
                let field = journal_part(ours, offset);
                return Some(Where::Byte {
                    argument,
                    offset,
                    record: 0,
                    column: 0,
                    field,
                });
            }
            let spot = spot(*content, ours, offset);
            let field = spot.field.map_or("bytes", |field| field.name).to_string();
            Some(Where::Byte {
                argument,
                offset,
                record: spot.record,
                column: spot.column,
                field,
            })
        }
        _ => in_numbers(spec, argument, ours, theirs),
    }
}

fn in_numbers(spec: &Argument, argument: usize, ours: &[u8], theirs: &[u8]) -> Option<Where> {
    let ours = numbers_of(ours, spec.width());
    let theirs = numbers_of(theirs, spec.width());
    let at = first_difference(&ours, &theirs)?;
    let is_verdict = matches!(
        spec,
        Argument::Buffer {
            content: Content::Verdicts,
            ..
        }
    );
    if is_verdict {
        let codes = codes(ours[at] ^ theirs[at]);
        return Some(Where::Verdict { at, codes });
    }
    let name = match spec {
        Argument::Result { numbers, .. } => {
            numbers.get(at).copied().unwrap_or_default().to_string()
        }
        _ => format!("number {}", at + 1),
    };
    Some(Where::Number { argument, at, name })
}

/// The arguments in the order in which a difference says most: verdicts, results, then the rest as they stand.
fn order(case: &Case) -> Vec<usize> {
    let arguments = case.call().arguments;
    let mut order: Vec<usize> = (0..arguments.len()).collect();
    order.sort_by_key(|&at| match arguments[at] {
        Argument::Buffer {
            content: Content::Verdicts,
            ..
        } => 0,
        Argument::Result { .. } => 1,
        _ => 2,
    });
    order
}

fn in_outcomes(case: &Case, ours: &Outcome, theirs: &Outcome) -> Option<Where> {
    if ours.answer != theirs.answer {
        return Some(Where::Answer);
    }
    order(case)
        .into_iter()
        .filter(|&at| ours.left[at] != theirs.left[at])
        .find_map(|at| in_buffer(case, at, &ours.after(case, at), &theirs.after(case, at)))
}

fn field_of(case: &Case, at: &Where) -> String {
    let argument = |at: &usize| case.call().arguments[*at].name();
    match at {
        Where::Failure(words) => words.clone(),
        Where::Answer => "answer".to_string(),
        Where::Number {
            argument: one,
            name,
            ..
        } => match name.starts_with("number ") {
            true => argument(one).to_string(),
            false => format!("{} {name}", argument(one)),
        },
        Where::Verdict { codes, .. } => {
            let lowest = codes.first().copied().unwrap_or(0);
            format!("verdicts code {lowest:02}")
        }
        Where::Byte {
            argument: one,
            field,
            ..
        } => format!("{} {field}", argument(one)),
    }
}

/// The difference between what ours and the other engine made of a case, if there is one.
pub fn compare(case: &Case, ours: &Outcome, theirs: &Answered) -> Option<Difference> {
    let (at, answer) = match theirs {
        Answered::Failed(words) => (Where::Failure(words.clone()), None),
        Answered::Outcome(theirs) => (in_outcomes(case, ours, theirs)?, Some(theirs.answer)),
    };
    let kind = Kind {
        call: case.call,
        answers: (ours.answer, answer),
        field: field_of(case, &at),
    };
    Some(Difference { kind, at })
}
