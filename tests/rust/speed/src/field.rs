//! Fields as fixed arrays, and quick tests on them. Places count from 0 here.

use crate::vector;

pub const SPACE: u8 = 0x40;
pub const ZERO: u8 = 0xF0;

pub type Record = [u8; 245];
pub type Row = [u8; 200];

/// `N` bytes of a record or row from a place on.
#[inline(always)]
pub fn at<const N: usize>(bytes: &[u8], place: usize) -> &[u8; N] {
    match bytes[place..].first_chunk() {
        Some(field) => field,
        None => &[0; N],
    }
}

#[inline(always)]
pub fn blank<const N: usize>(bytes: &[u8], place: usize) -> bool {
    *at::<N>(bytes, place) == [SPACE; N]
}

/// Copies a field of `N` bytes.
#[inline(always)]
pub fn copy<const N: usize>(to: &mut [u8], place: usize, from: &[u8], start: usize) {
    to[place..place + N].copy_from_slice(at::<N>(from, start));
}

const HIGH: u64 = 0xF0F0_F0F0_F0F0_F0F0;

/// Eight bytes are all digits.
#[inline(always)]
pub fn digits8(field: &[u8; 8]) -> bool {
    let word = u64::from_le_bytes(*field);
    (word & HIGH) == HIGH && ((word & !HIGH) + 0x0606_0606_0606_0606) & HIGH == 0
}

/// Any number of bytes are all digits.
#[inline(always)]
pub fn digits(field: &[u8]) -> bool {
    field.iter().all(|byte| byte.wrapping_sub(ZERO) < 10)
}

/// The number of eight digits.
#[inline(always)]
pub fn number8(field: &[u8; 8]) -> u64 {
    let word = u64::from_le_bytes(*field) & !HIGH;
    let pairs = (word * 10 + (word >> 8)) & 0x00FF_00FF_00FF_00FF;
    let fours = (pairs * 100 + (pairs >> 16)) & 0x0000_FFFF_0000_FFFF;
    (fours * 10_000 + (fours >> 32)) & 0xFFFF_FFFF
}

/// The number of a field of digits.
#[inline(always)]
pub fn number(field: &[u8]) -> u64 {
    field
        .iter()
        .fold(0, |sum, byte| sum * 10 + u64::from(byte & 15))
}

const fn letter_of(byte: u8) -> bool {
    matches!(byte, 0xC1..=0xC9 | 0xD1..=0xD9 | 0xE2..=0xE9)
}

/// The EBCDIC byte of an upper case letter.
pub const fn ebcdic(letter: u8) -> u8 {
    match letter {
        b'A'..=b'I' => letter - b'A' + 0xC1,
        b'J'..=b'R' => letter - b'J' + 0xD1,
        b'S'..=b'Z' => letter - b'S' + 0xE2,
        _ => SPACE,
    }
}

/// Letters and spaces as EBCDIC bytes.
pub const fn word<const N: usize>(text: &[u8; N]) -> [u8; N] {
    let mut bytes = [SPACE; N];
    let mut at = 0;
    while at < N {
        bytes[at] = ebcdic(text[at]);
        at += 1;
    }
    bytes
}

const NAMES: &[u8; 108] = b"AKALARAZCACOCTDCDEFLGAGUHIIAIDILINKSKYLAMAMDMEMIMNMOMSMTNCNDNENHNJNMNVNYOHOKORPAPRRISCSDTNTXUTVAVIVTWAWIWVWY";
pub const NO_STATE: u8 = 255;

/// By the two bytes as a number, the place in the table.
const fn states() -> [u8; 1 << 16] {
    let mut table = [NO_STATE; 1 << 16];
    let mut state = 0;
    while state < 54 {
        let first = ebcdic(NAMES[2 * state]) as usize;
        let second = ebcdic(NAMES[2 * state + 1]) as usize;
        table[second << 8 | first] = state as u8;
        state += 1;
    }
    table
}

static STATES: [u8; 1 << 16] = states();

/// The place of a state in the table, or `NO_STATE`.
#[inline(always)]
pub fn state(field: &[u8; 2]) -> u8 {
    STATES[usize::from(u16::from_le_bytes(*field))]
}

#[inline(always)]
pub fn letter(byte: u8) -> bool {
    letter_of(byte)
}

const LOW: u64 = !HIGH;

/// Eight digits and a ninth are an SSN that stands under none of the bans; they are digits.
#[inline(always)]
pub fn ssn_allowed(first: &[u8; 8], ninth: u8) -> bool {
    let word = u64::from_le_bytes(*first) & LOW;
    let area = word & 0xFF_FFFF;
    let group = word & 0xFF_FF00_0000;
    let serial = word >> 40 | u64::from(ninth & 15);
    let banned = (area == 0) | (area == 0x06_0606) | (group == 0) | (serial == 0);
    !banned | (first[0] == 0xF9)
}

/// The number of nine digits.
#[inline(always)]
pub fn number9(first: &[u8; 8], ninth: u8) -> u64 {
    number8(first) * 10 + u64::from(ninth & 15)
}

/// The number of a right SSN, or none.
#[inline(always)]
pub fn ssn(field: &[u8; 9]) -> Option<u64> {
    let first = at::<8>(field, 0);
    let right = digits8(first) & (field[8].wrapping_sub(ZERO) < 10) & ssn_allowed(first, field[8]);
    right.then(|| number9(first, field[8]))
}

/// By place and byte, two bits: letter 1, hyphen 2, space 3, else 0.
const fn classes() -> [[u8; 256]; 4] {
    let mut table = [[0; 256]; 4];
    let mut byte = 0;
    while byte < 256 {
        let class = match byte as u8 {
            0x60 => 2,
            SPACE => 3,
            other => letter_of(other) as u8,
        };
        let mut place = 0;
        while place < 4 {
            table[place][byte] = class << (2 * place);
            place += 1;
        }
        byte += 1;
    }
    table
}

const WITH_LETTER: u8 = 1;
const RIGHT: u8 = 2;

/// By four classes: `RIGHT` for letters or hyphens with only spaces behind, and `WITH_LETTER`.
const fn shapes() -> [u8; 256] {
    let mut table = [0; 256];
    let mut four = 0;
    while four < 256 {
        let (mut place, mut length, mut letters, mut right) = (0, 0, 0, true);
        while place < 4 {
            let class = four >> (2 * place) & 3;
            right &= class != 0 && (class == 3 || length == place);
            length += (class == 1 || class == 2) as usize;
            letters += (class == 1) as usize;
            place += 1;
        }
        if right && length > 0 {
            table[four] = RIGHT | if letters > 0 { WITH_LETTER } else { 0 };
        }
        four += 1;
    }
    table
}

static CLASSES: [[u8; 256]; 4] = classes();
static SHAPES: [u8; 256] = shapes();

#[inline(always)]
fn shape(four: &[u8; 4]) -> u8 {
    let class = |place: usize| CLASSES[place][usize::from(four[place])];
    SHAPES[usize::from(class(0) | class(1) | class(2) | class(3))]
}

/// The four first characters of a last name are wrong.
#[inline(always)]
pub fn name_wrong(four: &[u8; 4], letter_asked: bool) -> bool {
    shape(four) & if letter_asked { WITH_LETTER } else { RIGHT } == 0
}

/// The number of a sound row's key, which rises with the key.
#[inline(always)]
pub fn key_number(row: &Row) -> u64 {
    let state = u64::from(state(at(row, 0)));
    state << 31 | number9(at(row, 2), row[10]) << 1 | u64::from(row[11] == 0xD5)
}

/// A sound row, its tests joined so that there is one way out.
#[inline(always)]
pub fn sound(row: &Row) -> bool {
    let head = vector::digits(at(row, 0)) & 0x77FC == 0x77FC;
    let owed = vector::digits(at(row, 65)) & 0xFF == 0xFF;
    let paid = vector::digits(at(row, 74)) & 0xFFF0 == 0xFFF0;
    let tail = u64::from_le_bytes(*at(row, 192));
    let cents = tail >> 32 & 0xFFFF;
    let cents_right = (cents & 0xF0F0 == 0xF0F0) & (((cents & 0x0F0F) + 0x0606) & 0xF0F0 == 0);
    let zero = (*at::<8>(row, 65) == [ZERO; 8]) & (cents == 0xF0F0);
    let status = tail as u32 >> 24 == if zero { 0xC4 } else { SPACE as u32 };
    head & owed
        & paid
        & cents_right
        & status
        & (tail >> 48 == 0x4040)
        & (state(at(row, 0)) != NO_STATE)
        & ((row[11] == 0xC1) | (row[11] == 0xD5))
        & ssn_allowed(at(row, 2), row[10])
        & (shape(at(row, 30)) & WITH_LETTER != 0)
}

/// A right ZIP in 170 to 178: nine digits, or five and four spaces.
#[inline(always)]
pub fn zip(record: &Record) -> bool {
    let field = at(record, 170);
    let digits = vector::digits(field);
    let spaces = vector::all(field, SPACE) & 0x1E0;
    (digits & 0x1FF == 0x1FF) | ((digits & 0x1F == 0x1F) & (spaces == 0x1E0))
}

/// A Gregorian date of 1900–9999.
#[inline]
pub fn date(field: &[u8; 8]) -> bool {
    const DAYS: [u64; 13] = [0, 31, 28, 31, 30, 31, 30, 31, 31, 30, 31, 30, 31];
    if !digits8(field) {
        return false;
    }
    let value = number8(field);
    let (year, month, day) = (value / 10_000, value / 100 % 100, value % 100);
    if year < 1900 || !(1..=12).contains(&month) || day == 0 {
        return false;
    }
    let leap = year.is_multiple_of(4) && (!year.is_multiple_of(100) || year.is_multiple_of(400));
    day <= DAYS[month as usize] + u64::from(leap && month == 2)
}

/// A word of three letters as a number.
const fn three(text: &[u8; 3]) -> u32 {
    let [first, second, third] = word(text);
    u32::from_le_bytes([first, second, third, 0])
}

/// The bits of an exclusion word, or 0; ADM has those of RET, VEN and SAL too.
#[inline(always)]
fn exclusion(number: u32) -> u8 {
    const ADM: u32 = three(b"ADM");
    const RET: u32 = three(b"RET");
    const VEN: u32 = three(b"VEN");
    const SAL: u32 = three(b"SAL");
    const TAX: u32 = three(b"TAX");
    const PAS: u32 = three(b"PAS");
    const FIN: u32 = three(b"FIN");
    const DCK: u32 = three(b"DCK");
    match number {
        ADM => 1 | 2 | 4 | 8,
        RET => 2,
        VEN => 4,
        SAL => 8,
        TAX => 16,
        PAS => 32,
        FIN => 64,
        DCK => 128,
        _ => 0,
    }
}

/// The set of the exclusion field, 187 to 226, or none for a word that isn't of the eight.
#[inline(always)]
pub fn exclusions(record: &Record) -> Option<u8> {
    let parts = |place: usize| {
        let bytes = at(record, place);
        u64::from(vector::all(bytes, SPACE) | vector::all(bytes, 0x6B))
    };
    // The last sixteen columns begin in the middle of the second sixteen.
    let mut left = !(parts(187) | parts(203) << 16 | parts(211) << 24) & ((1 << 40) - 1);
    let mut set = 0;
    while left != 0 {
        let start = left.trailing_zeros();
        let bytes = at::<4>(record, 187 + start as usize);
        let bits = exclusion(u32::from_le_bytes(*bytes) & 0xFF_FFFF);
        if left >> start & 15 != 7 || bits == 0 {
            return None;
        }
        set |= bits;
        left &= left - 1;
        left &= left - 1;
        left &= left - 1;
    }
    Some(set)
}
