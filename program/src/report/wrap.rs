//! Texts broken into lines at spaces.

/// The front of a text that stands in a line with room for so many characters, at least a word, and what is left for the lines
/// below.
pub fn front(text: &str, room: usize) -> (&str, Option<&str>) {
    let Some(end) = place_of(text, room) else {
        return (text, None);
    };
    let is_space = |&byte: &u8| byte == b' ';
    let bytes = text.as_bytes();
    let within = bytes[..=end].iter().rposition(is_space);
    let behind = || Some(end + bytes[end..].iter().position(is_space)?);
    match within.or_else(behind) {
        Some(at) => (&text[..at], Some(&text[at + 1..])),
        None => (text, None),
    }
}

/// Where a character begins by its number from 0; none where a text has fewer.
fn place_of(text: &str, number: usize) -> Option<usize> {
    match text.as_bytes().get(..=number) {
        None => None,
        Some(front) if front.is_ascii() => Some(number),
        Some(_) => text.char_indices().nth(number).map(|(at, _)| at),
    }
}

#[cfg(test)]
mod tests {
    use super::*;

    fn lines(text: &str, room: usize) -> Vec<&str> {
        let mut list = Vec::new();
        let mut rest = Some(text);
        while let Some(text) = rest {
            let (line, behind) = front(text, room);
            list.push(line);
            rest = behind;
        }
        list
    }

    #[test]
    fn lines_are_broken_at_spaces() {
        assert_eq!(lines("one two three", 7), ["one two", "three"]);
        assert_eq!(lines("one two three", 6), ["one", "two", "three"]);
        assert_eq!(
            lines("longerthanthat or not", 5),
            ["longerthanthat", "or", "not"]
        );
        assert_eq!(lines("longerthanthat", 5), ["longerthanthat"]);
        assert_eq!(lines("one  two", 80), ["one  two"]);
        assert_eq!(lines("one  two", 3), ["one", "", "two"]);
        assert_eq!(lines("", 0), [""]);
        assert_eq!(lines("a b", 0), ["a", "b"]);
        assert_eq!(lines("äö üß é", 5), ["äö üß", "é"]);
        assert_eq!(lines("äö üß é", 4), ["äö", "üß é"]);
    }
}
