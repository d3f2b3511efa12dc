//! Item 3 of document 02 through the library: name changes before and behind the records that use
//! them, worked by hand. Each case is a master of one row or none, details with the names they
//! carry, and the codes that each gets; with 17 the four characters stored.

use fantanolive::raw;

const ROW: usize = 200;
const RECORD: usize = 245;
const SPACE: u8 = 0x40;

/// The EBCDIC code of a capital letter, digit, space or hyphen.
fn ebcdic(character: u8) -> u8 {
    match character {
        b'A'..=b'I' => 0xC1 + (character - b'A'),
        b'J'..=b'R' => 0xD1 + (character - b'J'),
        b'S'..=b'Z' => 0xE2 + (character - b'S'),
        b'0'..=b'9' => 0xF0 + (character - b'0'),
        b'-' => 0x60,
        _ => SPACE,
    }
}

/// Writes a text from a column on, counted from 1.
fn put(record: &mut [u8], column: usize, text: &str) {
    for (place, character) in text.bytes().enumerate() {
        record[column - 1 + place] = ebcdic(character);
    }
}

/// A detail of a type: OH, 123456789, N, with a last name and the dollars of A and M.
fn detail(kind: &str, name: &str) -> [u8; RECORD] {
    let mut record = [SPACE; RECORD];
    put(&mut record, 1, "OH");
    put(&mut record, 6, "123456789");
    put(&mut record, 30, name);
    put(&mut record, 50, "JOHN");
    put(&mut record, 65, "00000100");
    put(&mut record, 73, kind);
    put(&mut record, 74, "N");
    record
}

/// A detail with other characters from a column on.
fn with(mut record: [u8; RECORD], column: usize, text: &str) -> [u8; RECORD] {
    put(&mut record, column, text);
    record
}

/// The live row of the key: SMITH JOHN, 50 dollars and no cents.
fn row() -> [u8; ROW] {
    let mut row = [SPACE; ROW];
    put(&mut row, 1, "OH123456789N000");
    put(&mut row, 31, "SMITH");
    put(&mut row, 51, "JOHN");
    put(&mut row, 66, "00000050");
    put(&mut row, 79, "000000000000");
    put(&mut row, 197, "00");
    row[194] = 0;
    row
}

/// The control record of OH over some details.
fn control(details: &[[u8; RECORD]]) -> [u8; RECORD] {
    let count = |byte: u8| details.iter().filter(|d| d[73] == byte).count() as u64;
    let amount = |byte: u8| {
        let counts = |d: &&[u8; RECORD]| d[73] == byte && (d[72] == 0xC1 || d[72] == 0xD4);
        100 * details.iter().filter(counts).count() as u64
    };
    let mut record = [SPACE; RECORD];
    put(&mut record, 1, "OHCTL");
    let counts = format!("{:09}{:09}", count(0xC1), count(0xD5));
    put(&mut record, 6, &counts);
    let amounts = format!("{:011}{:011}", amount(0xC1), amount(0xD5));
    put(&mut record, 24, &amounts);
    record
}

/// What each detail gets, as `17 SMIT`, `09` or nothing, in batch order.
fn judged(rows: &[[u8; ROW]], details: &[[u8; RECORD]]) -> Vec<String> {
    let mut master = vec![SPACE; ROW * (rows.len() + details.len())];
    for (place, row) in rows.iter().enumerate() {
        master[place * ROW..(place + 1) * ROW].copy_from_slice(row);
    }
    let batch = [details.concat(), control(details).to_vec()].concat();
    let mut verdicts = vec![0; details.len()];
    let mut rejects = vec![0; RECORD * (details.len() + 1)];
    let mut result = [0; 5];
    let answer = raw::apply(
        &mut master,
        rows.len(),
        &batch,
        &[],
        2007,
        &mut verdicts,
        &mut rejects,
        &mut result,
    );
    assert_eq!(answer, 0);
    let mut records = rejects.chunks(RECORD);
    verdicts
        .iter()
        .map(|&verdict| told(verdict, &mut records))
        .collect()
}

/// A verdict in words; one with a code takes the next reject record.
fn told<'a>(verdict: u64, rejects: &mut impl Iterator<Item = &'a [u8]>) -> String {
    if verdict == 0 {
        return String::new();
    }
    let reject = rejects.next().unwrap();
    let codes: Vec<String> = (0..64)
        .filter(|code| verdict >> code & 1 == 1)
        .map(|code| format!("{code:02}"))
        .collect();
    let stored: String = (b'A'..=b'Z')
        .chain([b'-', b' '])
        .fold(vec![b'?'; 4], |mut name, character| {
            for (place, &byte) in reject[239..243].iter().enumerate() {
                if byte == ebcdic(character) {
                    name[place] = character;
                }
            }
            name
        })
        .into_iter()
        .map(char::from)
        .collect();
    format!("{} {stored}", codes.join(" ")).trim_end().into()
}

#[test]
fn a_name_before_and_behind_its_b() {
    let m = detail("M", "SMYTH");
    let b = detail("B", "SMYTH");
    assert_eq!(judged(&[row()], &[m, b]), ["", ""]);
    assert_eq!(judged(&[row()], &[b, m]), ["", ""]);
    assert_eq!(judged(&[row()], &[m]), ["17 SMIT"]);
    let all = ["C", "D", "L", "M", "R", "S", "T", "Z"];
    for kind in all {
        let mut other = detail(kind, "SMYTH");
        put(&mut other, 15, "CASE-1");
        put(&mut other, 75, "KY");
        put(&mut other, 80, "2007");
        put(&mut other, 84, "1 MAIN ST");
        put(&mut other, 144, "AKRON");
        put(&mut other, 169, "OH44301");
        assert_eq!(judged(&[row()], &[other])[0], "17 SMIT", "{kind}");
        assert_eq!(judged(&[row()], &[other, b])[0], "", "{kind}");
    }
}

#[test]
fn the_old_name_behind_an_accepted_b() {
    let b = detail("B", "SMYTH");
    let old = detail("M", "SMITH");
    assert_eq!(judged(&[row()], &[b, old]), ["", "17 SMYT"]);
    // A second B carries it, before or behind.
    let back = detail("B", "SMITH");
    assert_eq!(judged(&[row()], &[b, old, back]), ["", "", ""]);
    assert_eq!(judged(&[row()], &[back, b, old]), ["", "", ""]);
    // An A carries no name for others, but stores it.
    let a = detail("A", "SMYTH");
    assert_eq!(judged(&[row()], &[a, old]), ["52", "17 SMYT"]);
    assert_eq!(
        judged(&[row()], &[detail("M", "SMYTH"), a]),
        ["17 SMIT", "52"]
    );
}

/// Every order of some details.
fn orders(details: &[[u8; RECORD]]) -> Vec<Vec<[u8; RECORD]>> {
    if details.is_empty() {
        return vec![vec![]];
    }
    (0..details.len())
        .flat_map(|first| {
            let mut rest = details.to_vec();
            let head = rest.remove(first);
            orders(&rest)
                .into_iter()
                .map(move |tail| [vec![head], tail].concat())
        })
        .collect()
}

#[test]
fn two_bs_and_three_ms_in_every_order() {
    let details = [
        detail("B", "ADAMS"),
        detail("B", "BROWN"),
        detail("M", "ADAMS"),
        detail("M", "BROWN"),
        detail("M", "CLARK"),
    ];
    for order in orders(&details) {
        // The stored name is that of the last B before, and the names of both are given.
        let mut stored = "SMIT";
        let expected: Vec<String> = order
            .iter()
            .map(|record| match record {
                record if *record == details[0] => {
                    stored = "ADAM";
                    String::new()
                }
                record if *record == details[1] => {
                    stored = "BROW";
                    String::new()
                }
                record if *record == details[4] => format!("17 {stored}"),
                _ => String::new(),
            })
            .collect();
        assert_eq!(judged(&[row()], &order), expected);
    }
}

#[test]
fn which_bs_give_their_names() {
    let m = detail("M", "SMYTH");
    let b = detail("B", "SMYTH");
    // With 05 (a hyphen alone, which an M may carry), 06 and 18 a B gives none.
    let hyphen = detail("B", "-");
    assert_eq!(
        judged(&[row()], &[detail("M", "-"), hyphen]),
        ["17 SMIT", "05"]
    );
    assert_eq!(judged(&[row()], &[m, with(b, 50, "1")]), ["17 SMIT", "06"]);
    assert_eq!(judged(&[row()], &[m, with(b, 228, "X")]), ["17 SMIT", "18"]);
    // The other case type, another SSN and another state are other keys.
    for other in [with(b, 74, "A"), with(b, 6, "123456780"), with(b, 1, "KY")] {
        assert_eq!(judged(&[row()], &[m, other])[0], "17 SMIT");
        assert_eq!(judged(&[row()], &[other, m])[1], "17 SMIT");
    }
    // Columns 34 on have no say, the first four do.
    assert_eq!(judged(&[row()], &[detail("M", "SMYTHE"), b])[0], "");
    assert_eq!(judged(&[row()], &[detail("M", "SMY"), b])[0], "17 SMIT");
}

#[test]
fn a_b_without_a_row_gives_its_name() {
    let b = detail("B", "SMYTH");
    let a = detail("A", "SMITH");
    let m = detail("M", "SMYTH");
    assert_eq!(judged(&[], &[b, a, m]), ["09", "", ""]);
    assert_eq!(judged(&[], &[a, m, b]), ["", "", ""]);
    assert_eq!(judged(&[], &[b, m]), ["09", "09"]);
    // On a deleted row the same.
    let mut deleted = row();
    put(&mut deleted, 66, "00000000");
    put(&mut deleted, 196, "D");
    assert_eq!(judged(&[deleted], &[m, b, a, m]), ["09", "09", "", ""]);
}

#[test]
fn where_17_is_not_judged() {
    let b = detail("B", "SMYTH");
    let m = detail("M", "SMYTH");
    for (column, text, code) in [(1, "KY", "01"), (6, "000123456", "02"), (74, "X", "04")] {
        let other = with(m, column, text);
        assert_eq!(judged(&[row()], &[other, b])[0], code);
    }
    assert_eq!(judged(&[row()], &[detail("M", "SM TH"), b])[0], "05");
    assert_eq!(judged(&[row()], &[detail("Q", "SMYTH"), b])[0], "03");
}
