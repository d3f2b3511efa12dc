//! Files turned from ASCII into EBCDIC and back, written for speed: 32 bytes at once by shuffles of
//! sixteen bytes where the processor has them, else byte by byte through tables.

/// The characters besides letters and digits, with their codes in code page 037.
const SIGNS: [(u8, u8); 10] = [
    (b' ', 0x40),
    (b'.', 0x4B),
    (b'(', 0x4D),
    (b'&', 0x50),
    (b')', 0x5D),
    (b'-', 0x60),
    (b'/', 0x61),
    (b',', 0x6B),
    (b'#', 0x7B),
    (b'\'', 0x7D),
];

/// By ASCII byte, the EBCDIC one, or 0.
const fn ebcdic() -> [u8; 256] {
    let mut table = [0; 256];
    let mut byte = b'A';
    while byte <= b'Z' {
        table[byte as usize] = crate::field::ebcdic(byte);
        byte += 1;
    }
    let mut digit = b'0';
    while digit <= b'9' {
        table[digit as usize] = digit - b'0' + 0xF0;
        digit += 1;
    }
    let mut sign = 0;
    while sign < SIGNS.len() {
        table[SIGNS[sign].0 as usize] = SIGNS[sign].1;
        sign += 1;
    }
    table
}

/// The other way round; no accepted byte of either code is 0.
const fn turned(table: [u8; 256]) -> [u8; 256] {
    let mut other = [0; 256];
    let mut byte = 0;
    while byte < 256 {
        if table[byte] != 0 {
            other[table[byte] as usize] = byte as u8;
        }
        byte += 1;
    }
    other
}

static EBCDIC: [u8; 256] = ebcdic();
static ASCII: [u8; 256] = turned(ebcdic());

/// Why a file isn't converted: the place of its first byte without a counterpart, or none for an
/// output that is too short.
pub type Refusal = Option<u64>;

pub fn to_ebcdic(input: &[u8], out: &mut [u8]) -> Result<(), Refusal> {
    convert(input, out, &EBCDIC, wide::TO_EBCDIC)
}

pub fn to_ascii(input: &[u8], out: &mut [u8]) -> Result<(), Refusal> {
    convert(input, out, &ASCII, wide::TO_ASCII)
}

fn convert(
    input: &[u8],
    out: &mut [u8],
    table: &[u8; 256],
    direction: wide::Direction,
) -> Result<(), Refusal> {
    let passed = wide::passed(input, direction);
    let bad = input[passed..]
        .iter()
        .position(|&byte| table[usize::from(byte)] == 0);
    if let Some(place) = bad {
        return Err(Some((passed + place) as u64));
    }
    let out = out.get_mut(..input.len()).ok_or(None)?;
    let written = wide::written(input, out, direction);
    for (to, &byte) in out[written..].iter_mut().zip(&input[written..]) {
        *to = table[usize::from(byte)];
    }
    Ok(())
}

#[cfg(target_arch = "x86_64")]
mod wide {
    use std::arch::x86_64::*;

    use super::{ASCII, EBCDIC};

    #[derive(Clone, Copy, PartialEq)]
    pub enum Direction {
        ToEbcdic,
        ToAscii,
    }

    pub const TO_EBCDIC: Direction = Direction::ToEbcdic;
    pub const TO_ASCII: Direction = Direction::ToAscii;

    /// Sixteen bytes twice.
    #[inline]
    #[target_feature(enable = "avx2")]
    fn twice(bytes: &[u8; 16]) -> __m256i {
        // SAFETY: sixteen bytes can be read.
        _mm256_broadcastsi128_si256(unsafe { _mm_loadu_si128(bytes.as_ptr().cast()) })
    }

    #[inline]
    #[target_feature(enable = "avx2")]
    fn load(bytes: &[u8; 32]) -> __m256i {
        // SAFETY: 32 bytes can be read.
        unsafe { _mm256_loadu_si256(bytes.as_ptr().cast()) }
    }

    #[inline]
    #[target_feature(enable = "avx2")]
    fn store(bytes: &mut [u8; 32], value: __m256i) {
        // SAFETY: 32 bytes can be written.
        unsafe { _mm256_storeu_si256(bytes.as_mut_ptr().cast(), value) }
    }

    /// By high nibble a bit of its own, and by low nibble the bits of the high ones with which it
    /// has a counterpart; at most eight high nibbles have one.
    fn nibbles(table: &[u8; 256]) -> [[u8; 16]; 2] {
        let (mut high, mut low) = ([0; 16], [0; 16]);
        let mut bit = 1u8;
        for row in 0..16 {
            let codes = &table[16 * row..16 * row + 16];
            if codes.iter().all(|&code| code == 0) {
                continue;
            }
            high[row] = bit;
            for (low, &code) in low.iter_mut().zip(codes) {
                *low |= if code == 0 { 0 } else { bit };
            }
            bit = bit.wrapping_shl(1);
        }
        [high, low]
    }

    /// How many bytes at the start have a counterpart; not all that have one are passed.
    pub fn passed(input: &[u8], direction: Direction) -> usize {
        if !std::is_x86_feature_detected!("avx2") {
            return 0;
        }
        let table = match direction {
            Direction::ToEbcdic => &EBCDIC,
            Direction::ToAscii => &ASCII,
        };
        // SAFETY: the processor has the instructions.
        unsafe { passed_wide(input, nibbles(table)) }
    }

    #[target_feature(enable = "avx2")]
    fn passed_wide(input: &[u8], [high, low]: [[u8; 16]; 2]) -> usize {
        let (high, low) = (twice(&high), twice(&low));
        let nibble = _mm256_set1_epi8(15);
        let good = |bytes: __m256i| {
            let first = _mm256_and_si256(_mm256_srli_epi16::<4>(bytes), nibble);
            let bits = _mm256_shuffle_epi8(low, _mm256_and_si256(bytes, nibble));
            _mm256_and_si256(_mm256_shuffle_epi8(high, first), bits)
        };
        let zero = _mm256_setzero_si256();
        let (blocks, _) = input.as_chunks::<128>();
        for (at, block) in blocks.iter().enumerate() {
            let (parts, _) = block.as_chunks::<32>();
            let mut bad = zero;
            for part in parts {
                bad = _mm256_or_si256(bad, _mm256_cmpeq_epi8(good(load(part)), zero));
            }
            if _mm256_testz_si256(bad, bad) == 0 {
                return 128 * at;
            }
        }
        128 * blocks.len()
    }

    /// Writes the counterparts of the first bytes, all of which have one; how many it wrote.
    pub fn written(input: &[u8], out: &mut [u8], direction: Direction) -> usize {
        if !std::is_x86_feature_detected!("avx2") {
            return 0;
        }
        // SAFETY: the processor has the instructions.
        unsafe {
            match direction {
                Direction::ToEbcdic => write_ebcdic(input, out),
                Direction::ToAscii => write_ascii(input, out),
            }
        }
    }

    /// Sixteen entries of a table from a place on.
    fn row(table: &[u8; 256], place: usize) -> [u8; 16] {
        *table[place..].first_chunk().unwrap_or(&[0; 16])
    }

    /// Accepted bytes are 20 to 5F: a shuffle for each sixteen of them, and bits 4 and 6 choose.
    #[target_feature(enable = "avx2")]
    fn write_ebcdic(input: &[u8], out: &mut [u8]) -> usize {
        let rows = [0x20, 0x30, 0x40, 0x50].map(|place| row(&EBCDIC, place));
        let [two, three, four, five] = [0, 1, 2, 3].map(|at| twice(&rows[at]));
        let (from, _) = input.as_chunks::<32>();
        let (to, _) = out.as_chunks_mut::<32>();
        for (to, from) in to.iter_mut().zip(from) {
            let bytes = load(from);
            let (odd, upper) = (_mm256_slli_epi16::<3>(bytes), _mm256_slli_epi16::<1>(bytes));
            let other = _mm256_blendv_epi8(
                _mm256_shuffle_epi8(two, bytes),
                _mm256_shuffle_epi8(three, bytes),
                odd,
            );
            let letter = _mm256_blendv_epi8(
                _mm256_shuffle_epi8(four, bytes),
                _mm256_shuffle_epi8(five, bytes),
                odd,
            );
            store(to, _mm256_blendv_epi8(other, letter, upper));
        }
        32 * from.len()
    }

    /// Letters and digits are their low nibble and a sum by the high one; signs have a low nibble
    /// 0, 1, B or D, which with two bits of the high one finds them in a table of sixteen.
    #[target_feature(enable = "avx2")]
    fn write_ascii(input: &[u8], out: &mut [u8]) -> usize {
        let mut sums = [0; 16];
        sums[12..].copy_from_slice(&[b'A' - 1, b'J' - 1, b'S' - 2, b'0']);
        let mut columns = [0; 16];
        let mut signs = [0; 16];
        for (at, column) in [0, 1, 11, 13].into_iter().enumerate() {
            columns[column] = at as u8;
            for high in 0..4 {
                signs[4 * high + at] = ASCII[0x40 + 16 * high + column];
            }
        }
        let (sums, columns, signs) = (twice(&sums), twice(&columns), twice(&signs));
        let nibble = _mm256_set1_epi8(15);
        let two = _mm256_set1_epi8(12);
        let (from, _) = input.as_chunks::<32>();
        let (to, _) = out.as_chunks_mut::<32>();
        for (to, from) in to.iter_mut().zip(from) {
            let bytes = load(from);
            let low = _mm256_and_si256(bytes, nibble);
            let high = _mm256_and_si256(_mm256_srli_epi16::<4>(bytes), nibble);
            let column = _mm256_shuffle_epi8(columns, low);
            let row = _mm256_and_si256(_mm256_srli_epi16::<2>(bytes), two);
            let sign = _mm256_shuffle_epi8(signs, _mm256_or_si256(row, column));
            let sum = _mm256_add_epi8(low, _mm256_shuffle_epi8(sums, high));
            store(to, _mm256_blendv_epi8(sign, sum, bytes));
        }
        32 * from.len()
    }
}

#[cfg(not(target_arch = "x86_64"))]
mod wide {
    pub type Direction = ();
    pub const TO_EBCDIC: Direction = ();
    pub const TO_ASCII: Direction = ();

    pub fn passed(_: &[u8], (): Direction) -> usize {
        0
    }

    pub fn written(_: &[u8], _: &mut [u8], (): Direction) -> usize {
        0
    }
}
