//! Cases and outcomes as bytes, between the program and its own process that holds a shared library.

use crate::calls::CALLS;
use crate::case::{Answered, Case, Outcome, Value};
use crate::lent::Side;
use crate::limits;

/// A case is not carried out by mistake where bytes are lost: each frame begins with its length.
pub const LENGTH: usize = 8;

fn put(frame: &mut Vec<u8>, number: u64) {
    frame.extend(number.to_le_bytes());
}

fn take(bytes: &mut &[u8]) -> Option<u64> {
    let (eight, rest) = bytes.split_at_checked(8)?;
    *bytes = rest;
    Some(u64::from_le_bytes(eight.try_into().ok()?))
}

fn take_bytes(bytes: &mut &[u8]) -> Option<Vec<u8>> {
    let length = take(bytes)? as usize;
    let (taken, rest) = bytes.split_at_checked(length)?;
    *bytes = rest;
    Some(taken.to_vec())
}

fn with_length(frame: Vec<u8>) -> Vec<u8> {
    let mut whole = (frame.len() as u64).to_le_bytes().to_vec();
    whole.extend(frame);
    whole
}

/// What stands in the place of a call's number in the frame of a limit.
const OF_LIMIT: u64 = u64::MAX;

/// One of the limits, by its place in their list.
pub fn of_limit(place: usize) -> Vec<u8> {
    let mut frame = Vec::new();
    put(&mut frame, OF_LIMIT);
    put(&mut frame, place as u64);
    with_length(frame)
}

/// The place of a limit, where the frame is that of one.
pub fn limit_in(mut bytes: &[u8]) -> Option<usize> {
    let rest = &mut bytes;
    (take(rest)? == OF_LIMIT)
        .then(|| take(rest))?
        .map(|place| place as usize)
}

pub fn of_limit_outcome(outcome: &limits::Outcome) -> Vec<u8> {
    let mut frame = Vec::new();
    put(&mut frame, outcome.answer);
    put(&mut frame, outcome.numbers.len() as u64);
    outcome
        .numbers
        .iter()
        .for_each(|&number| put(&mut frame, number));
    frame.extend(outcome.changed.join(",").bytes());
    with_length(frame)
}

pub fn limit_outcome_in(mut bytes: &[u8]) -> Option<limits::Outcome> {
    let rest = &mut bytes;
    let answer = take(rest)?;
    let count = take(rest)?;
    let numbers = (0..count).map(|_| take(rest)).collect::<Option<_>>()?;
    let changed = String::from_utf8_lossy(rest).into_owned();
    let changed = changed.split(',').filter(|name| !name.is_empty());
    Some(limits::Outcome {
        answer,
        numbers,
        changed: changed.map(str::to_string).collect(),
    })
}

pub fn of_case(case: &Case, side: Side) -> Vec<u8> {
    let mut frame = Vec::with_capacity(case.size() + 200);
    put(&mut frame, case.call as u64);
    put(&mut frame, u64::from(side == Side::Behind));
    for value in &case.values {
        match value {
            Value::Bytes(bytes) => {
                put(&mut frame, bytes.len() as u64);
                frame.extend(bytes);
            }
            Value::Count(count) => put(&mut frame, *count),
            Value::Result(numbers) => {
                put(&mut frame, numbers.len() as u64);
                numbers.iter().for_each(|&number| put(&mut frame, number));
            }
        }
    }
    with_length(frame)
}

pub fn case_in(mut bytes: &[u8]) -> Option<(Case, Side)> {
    let rest = &mut bytes;
    let call = take(rest)? as usize;
    let side = match take(rest)? {
        0 => Side::Before,
        _ => Side::Behind,
    };
    let mut values = Vec::new();
    for argument in CALLS.get(call)?.arguments {
        values.push(match argument {
            crate::calls::Argument::Buffer { .. } => Value::Bytes(take_bytes(rest)?),
            crate::calls::Argument::Count { .. } => Value::Count(take(rest)?),
            crate::calls::Argument::Result { .. } => {
                let count = take(rest)?;
                Value::Result((0..count).map(|_| take(rest)).collect::<Option<_>>()?)
            }
        });
    }
    Some((Case { call, values }, side))
}

/// An outcome, or the name of the argument around which something was written.
pub fn of_outcome(outcome: Result<Outcome, &str>) -> Vec<u8> {
    let mut frame = Vec::new();
    match outcome {
        Err(name) => {
            put(&mut frame, 1);
            frame.extend(name.bytes());
        }
        Ok(outcome) => {
            put(&mut frame, 0);
            put(&mut frame, outcome.answer);
            for left in &outcome.left {
                put(&mut frame, u64::from(left.is_some()));
                if let Some(bytes) = left {
                    put(&mut frame, bytes.len() as u64);
                    frame.extend(bytes);
                }
            }
        }
    }
    with_length(frame)
}

pub fn answered_in(mut bytes: &[u8], case: &Case) -> Option<Answered> {
    let rest = &mut bytes;
    if take(rest)? != 0 {
        let name = String::from_utf8_lossy(rest).into_owned();
        return Some(Answered::Failed(outside(&name)));
    }
    let answer = take(rest)?;
    let mut left = Vec::new();
    for _ in &case.values {
        left.push(match take(rest)? {
            0 => None,
            _ => Some(take_bytes(rest)?),
        });
    }
    Some(Answered::Outcome(Outcome { answer, left }))
}

/// That bytes around an argument were written.
pub fn outside(name: &str) -> String {
    format!("it wrote outside {name}")
}
