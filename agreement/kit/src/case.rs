//! One call with all that is lent to it, and what an engine makes of it.

use crate::calls::{Argument, Call, CALLS};

#[derive(Clone, Debug, PartialEq, Eq)]
pub enum Value {
    /// A buffer's bytes; numbers are in the machine's order, low byte first.
    Bytes(Vec<u8>),
    Count(u64),
    /// The numbers of a result before the call.
    Result(Vec<u64>),
}

#[derive(Clone, Debug, PartialEq, Eq)]
pub struct Case {
    /// The place of the call in `CALLS`.
    pub call: usize,
    pub values: Vec<Value>,
}

impl Case {
    pub fn call(&self) -> &'static Call {
        &CALLS[self.call]
    }

    fn place(&self, name: &str) -> usize {
        let place = self.call().argument(name);
        place.unwrap_or_else(|| panic!("{} has no argument {name}", self.call().name))
    }

    pub fn has(&self, name: &str) -> bool {
        self.call().argument(name).is_some()
    }

    /// The bytes of a buffer.
    pub fn bytes(&self, name: &str) -> &[u8] {
        match &self.values[self.place(name)] {
            Value::Bytes(bytes) => bytes,
            _ => panic!("{name} is no buffer"),
        }
    }

    pub fn bytes_mut(&mut self, name: &str) -> &mut Vec<u8> {
        let place = self.place(name);
        match &mut self.values[place] {
            Value::Bytes(bytes) => bytes,
            _ => panic!("{name} is no buffer"),
        }
    }

    pub fn count(&self, name: &str) -> u64 {
        match &self.values[self.place(name)] {
            Value::Count(count) => *count,
            _ => panic!("{name} is no number"),
        }
    }

    pub fn set_count(&mut self, name: &str, count: u64) {
        let place = self.place(name);
        self.values[place] = Value::Count(count);
    }

    /// The numbers of a result or a list.
    pub fn numbers(&self, name: &str) -> Vec<u64> {
        let place = self.place(name);
        match &self.values[place] {
            Value::Result(numbers) => numbers.clone(),
            value => numbers_of(&bytes_of(value), self.call().arguments[place].width()),
        }
    }

    /// How many bytes the case lends.
    pub fn size(&self) -> usize {
        let sizes = self.values.iter().map(|value| match value {
            Value::Bytes(bytes) => bytes.len(),
            Value::Count(_) => 0,
            Value::Result(numbers) => 8 * numbers.len(),
        });
        sizes.sum()
    }
}

/// What an engine left of a case.
#[derive(Clone, Debug, PartialEq, Eq)]
pub struct Outcome {
    pub answer: u64,
    /// By argument: its bytes where they changed.
    pub left: Vec<Option<Vec<u8>>>,
}

impl Outcome {
    /// The bytes that an argument has afterwards.
    pub fn after(&self, case: &Case, argument: usize) -> Vec<u8> {
        match (&self.left[argument], &case.values[argument]) {
            (Some(bytes), _) => bytes.clone(),
            (None, value) => bytes_of(value),
        }
    }

    /// The same, by the argument's name.
    pub fn bytes(&self, case: &Case, name: &str) -> Vec<u8> {
        self.after(case, case.place(name))
    }

    /// The numbers of a result or a list afterwards.
    pub fn numbers(&self, case: &Case, name: &str) -> Vec<u64> {
        let argument = case.place(name);
        numbers_of(
            &self.after(case, argument),
            case.call().arguments[argument].width(),
        )
    }

    /// The case with what was left in its buffers and results.
    pub fn left_in(self, case: &Case) -> Case {
        let lent = case.values.iter().zip(self.left);
        let values = lent.map(|(value, left)| match (value, left) {
            (Value::Bytes(_), Some(bytes)) => Value::Bytes(bytes),
            (Value::Result(_), Some(bytes)) => Value::Result(numbers_of(&bytes, 8)),
            (value, _) => value.clone(),
        });
        Case {
            call: case.call,
            values: values.collect(),
        }
    }
}

/// What became of a case on an engine.
#[derive(Clone, Debug, PartialEq, Eq)]
pub enum Answered {
    Outcome(Outcome),
    /// It came to no answer, or wrote where it may not: in words.
    Failed(String),
}

pub fn bytes_of(value: &Value) -> Vec<u8> {
    match value {
        Value::Bytes(bytes) => bytes.clone(),
        Value::Count(_) => Vec::new(),
        Value::Result(numbers) => number_bytes(numbers, 8),
    }
}

pub fn numbers_of(bytes: &[u8], width: usize) -> Vec<u64> {
    let number = |chunk: &[u8]| {
        let mut eight = [0; 8];
        eight[..chunk.len()].copy_from_slice(chunk);
        u64::from_le_bytes(eight)
    };
    bytes.chunks(width).map(number).collect()
}

pub fn number_bytes(numbers: &[u64], width: usize) -> Vec<u8> {
    let bytes = |number: &u64| number.to_le_bytes()[..width].to_vec();
    numbers.iter().flat_map(bytes).collect()
}

/// A case of a call by its values, in the order of its arguments.
pub fn case(call: &str, values: Vec<Value>) -> Case {
    let call = crate::calls::named(call).unwrap_or_else(|| panic!("no call {call}"));
    let wanted = CALLS[call].arguments;
    assert_eq!(values.len(), wanted.len(), "{}", CALLS[call].name);
    let fits = |(argument, value): (&Argument, &Value)| {
        matches!(
            (argument, value),
            (Argument::Buffer { .. }, Value::Bytes(_))
                | (Argument::Count { .. }, Value::Count(_))
                | (Argument::Result { .. }, Value::Result(_))
        )
    };
    assert!(wanted.iter().zip(&values).all(fits), "{}", CALLS[call].name);
    Case { call, values }
}
