//! JSON, read: what the lines of a log are.

/// A JSON value; numbers are those that a log has, whole and not below zero.
#[derive(Clone, Debug, PartialEq, Eq)]
pub enum Value {
    Null,
    Number(u64),
    Text(String),
    List(Vec<Value>),
    Object(Vec<(String, Value)>),
}

impl Value {
    pub fn member(&self, name: &str) -> Option<&Value> {
        match self {
            Value::Object(members) => {
                let found = members.iter().find(|(own, _)| own == name);
                found.map(|(_, value)| value)
            }
            _ => None,
        }
    }

    pub fn text(&self) -> Option<&str> {
        match self {
            Value::Text(text) => Some(text),
            _ => None,
        }
    }

    pub fn number(&self) -> Option<u64> {
        match self {
            Value::Number(number) => Some(*number),
            _ => None,
        }
    }
}

/// How deep lists and objects may stand in each other.
const DEEPEST: usize = 8;

/// Reads a text that is one value and nothing else.
pub fn read(text: &str) -> Option<Value> {
    let (value, rest) = value(text, 0)?;
    rest.is_empty().then_some(value)
}

fn value(text: &str, depth: usize) -> Option<(Value, &str)> {
    if depth > DEEPEST {
        return None;
    }
    match text.as_bytes().first()? {
        b'{' => object(&text[1..], depth),
        b'[' => list(&text[1..], depth),
        b'"' => string(text).map(|(text, rest)| (Value::Text(text), rest)),
        b'n' => text.strip_prefix("null").map(|rest| (Value::Null, rest)),
        _ => {
            let end = text.find(|c: char| !c.is_ascii_digit());
            let (digits, rest) = text.split_at(end.unwrap_or(text.len()));
            Some((Value::Number(digits.parse().ok()?), rest))
        }
    }
}

fn object(text: &str, depth: usize) -> Option<(Value, &str)> {
    let mut members = Vec::new();
    let mut rest = text;
    while !rest.starts_with('}') {
        if !members.is_empty() {
            rest = rest.strip_prefix(',')?;
        }
        let (name, behind) = string(rest)?;
        let (value, behind) = value(behind.strip_prefix(':')?, depth + 1)?;
        members.push((name, value));
        rest = behind;
    }
    Some((Value::Object(members), &rest[1..]))
}

fn list(text: &str, depth: usize) -> Option<(Value, &str)> {
    let mut values = Vec::new();
    let mut rest = text;
    while !rest.starts_with(']') {
        if !values.is_empty() {
            rest = rest.strip_prefix(',')?;
        }
        let (value, behind) = value(rest, depth + 1)?;
        values.push(value);
        rest = behind;
    }
    Some((Value::List(values), &rest[1..]))
}

fn string(text: &str) -> Option<(String, &str)> {
    let mut read = String::new();
    let mut rest = text.strip_prefix('"')?.chars();
    loop {
        match rest.next()? {
            '"' => return Some((read, rest.as_str())),
            '\\' => match rest.next()? {
                'n' => read.push('\n'),
                'u' => {
                    let code = rest.as_str().get(..4)?;
                    let code = u32::from_str_radix(code, 16).ok()?;
                    read.push(char::from_u32(code)?);
                    rest = rest.as_str()[4..].chars();
                }
                escaped @ ('"' | '\\') => read.push(escaped),
                _ => return None,
            },
            other => read.push(other),
        }
    }
}

#[cfg(test)]
mod tests {
    use super::*;

    #[test]
    fn values_and_what_is_none() {
        let text = r#"{"a":[1,{},null],"b":"c\"\\\n\u0001é"}"#;
        let read_back = read(text).expect("it is JSON");
        assert_eq!(
            read_back.member("b").and_then(Value::text),
            Some("c\"\\\n\u{1}é")
        );
        let list = vec![Value::Number(1), Value::Object(Vec::new()), Value::Null];
        assert_eq!(read_back.member("a"), Some(&Value::List(list)));
        for wrong in [
            "", "{", "[1", "{\"a\"}", "1 ", "-1", "\"a", "[1,]", "{,}", "nul",
        ] {
            assert_eq!(read(wrong), None, "{wrong}");
        }
        assert_eq!(read(&"[".repeat(100_000)), None);
    }
}
