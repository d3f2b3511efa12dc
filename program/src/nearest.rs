//! The name that a mistyped one is nearest to.

/// How many characters are to be put in, taken out or changed to make one text the other.
fn distance(one: &str, other: &str) -> usize {
    let other: Vec<char> = other.chars().collect();
    let mut row: Vec<usize> = (0..=other.len()).collect();
    for (i, a) in one.chars().enumerate() {
        let mut corner = row[0];
        row[0] = i + 1;
        for (j, &b) in other.iter().enumerate() {
            let changed = corner + usize::from(a != b);
            corner = row[j + 1];
            row[j + 1] = changed.min(corner + 1).min(row[j] + 1);
        }
    }
    row[other.len()]
}

/// The nearest name, where no more than two in five of its characters differ.
pub fn nearest(given: &str, names: &mut dyn Iterator<Item = &'static str>) -> Option<&'static str> {
    let near = names.map(|name| (distance(given, name), name)).min()?;
    let (changes, name) = near;
    (changes * 5 <= name.len() * 2).then_some(name)
}

#[cfg(test)]
mod tests {
    use super::*;

    #[test]
    fn distances() {
        assert_eq!(distance("apply", "apply"), 0);
        assert_eq!(distance("aply", "apply"), 1);
        assert_eq!(distance("", "find"), 4);
        assert_eq!(distance("--local", "--locals"), 1);
    }

    #[test]
    fn near_and_far_names() {
        let names = || ["apply", "check", "find"].into_iter();
        assert_eq!(nearest("aply", &mut names()), Some("apply"));
        assert_eq!(nearest("finf", &mut names()), Some("find"));
        assert_eq!(nearest("delete", &mut names()), None);
    }
}
