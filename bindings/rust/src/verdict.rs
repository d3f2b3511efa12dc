//! A verdict: a set of codes as a number of 64 bits.

/// Whether the code is in a verdict of [`crate::apply`]: bit `code` of the number. Errors are 1 to 18, warnings 51 and 52.
pub fn has_code(verdict: u64, code: u32) -> bool {
    code < 64 && verdict >> code & 1 == 1
}

/// The codes of a verdict, rising.
pub fn codes(verdict: u64) -> impl Iterator<Item = u32> {
    let mut rest = verdict;
    std::iter::from_fn(move || {
        let code = (rest != 0).then(|| rest.trailing_zeros())?;
        rest &= rest - 1;
        Some(code)
    })
}
