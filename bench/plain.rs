// Lists a recording again and again, and tells how long the quickest round took, as smbspeed does.
//   plain RECORDING tuples|sentences ROUNDS
// Plain Rust by the rules of docs/FORMATS.md, written for speed; nothing is shared with the library.
use std::arch::x86_64::*;
use std::convert::TryInto;
use std::env;
use std::fs;
use std::time::Instant;

// The most rows of a table; a recording with more is listed in parts.
const MOST: usize = 65_536;

#[derive(Clone, Copy, Default)]
struct Row {
    place: u32,
    length: u32,
    tag: u32,
    source_type: u16,
    source_id: u16,
    time: u32,
}

// A record at the front of some bytes, whose place is still to be written.
type Found = Option<Row>;

fn pair(bytes: &[u8], at: usize) -> u16 {
    u16::from_le_bytes([bytes[at], bytes[at + 1]])
}

// The tuple at the front of the bytes.
#[inline(always)]
fn tuple(bytes: &[u8]) -> Found {
    if bytes.len() < 16 {
        return None;
    }
    let header: &[u8; 14] = bytes[..14].try_into().unwrap();
    if header[0] != 0x00 || header[1] != 0x80 {
        return None;
    }
    let size = pair(header, 12);
    let length = size as usize + 16;
    if length > bytes.len() || pair(bytes, length - 2) != size {
        return None;
    }
    Some(Row {
        place: 0,
        length: length as u32,
        tag: pair(header, 6) as u32,
        source_type: pair(header, 2),
        source_id: pair(header, 4),
        time: u32::from_le_bytes([header[8], header[9], header[10], header[11]]),
    })
}

// How many bytes come before the first 00 80; all of them if there is none.
#[inline(always)]
fn before_sync(bytes: &[u8]) -> usize {
    let mut at = 0;
    // SAFETY: the loads end at `at + 33`, which is inside the bytes; x86-64 has these instructions.
    unsafe {
        let zero = _mm_setzero_si128();
        let mark = _mm_set1_epi8(0x80u8 as i8);
        while at + 33 <= bytes.len() {
            let from = bytes.as_ptr().add(at);
            let low = _mm_and_si128(
                _mm_cmpeq_epi8(_mm_loadu_si128(from.cast()), zero),
                _mm_cmpeq_epi8(_mm_loadu_si128(from.add(1).cast()), mark),
            );
            let high = _mm_and_si128(
                _mm_cmpeq_epi8(_mm_loadu_si128(from.add(16).cast()), zero),
                _mm_cmpeq_epi8(_mm_loadu_si128(from.add(17).cast()), mark),
            );
            let found = _mm_movemask_epi8(low) as u32 | (_mm_movemask_epi8(high) as u32) << 16;
            if found != 0 {
                return at + found.trailing_zeros() as usize;
            }
            at += 32;
        }
    }
    while at + 1 < bytes.len() {
        if bytes[at] == 0x00 && bytes[at + 1] == 0x80 {
            return at;
        }
        at += 1;
    }
    bytes.len()
}

// Which bytes may be one of the five characters.
static NAME: [bool; 256] = {
    let mut name = [false; 256];
    let mut b = 0;
    while b < 256 {
        name[b] = (b as u8).is_ascii_uppercase() || (b as u8).is_ascii_digit();
        b += 1;
    }
    name
};

fn is_text(b: u8) -> bool {
    matches!(b, 0x20..=0x7e) && b != b'$' && b != b'!' && b != b'*'
}

// How many bytes at the front may stand in a text, and the exclusive-or of a number and them, one by one.
fn text_slowly(bytes: &[u8], mut sum: u8) -> (usize, u8) {
    let mut k = 0;
    while k < bytes.len() && is_text(bytes[k]) {
        sum ^= bytes[k];
        k += 1;
    }
    (k, sum)
}

// The 16 bytes from 16 - n on keep the first n of 16 bytes.
static KEPT: [u8; 32] = {
    let mut kept = [0; 32];
    let mut k = 0;
    while k < 16 {
        kept[k] = 0xff;
        k += 1;
    }
    kept
};

// The same of 80 bytes, 16 at once. All 80 are a text: then the sum is no matter, since no sentence has so many.
#[inline(always)]
fn text(bytes: &[u8; 80], sum: u8) -> (usize, u8) {
    // SAFETY: `k` is at most 64 and `n` at most 15 where 16 bytes are loaded; x86-64 has these instructions.
    unsafe {
        let splat = |b: u8| _mm_set1_epi8(b as i8);
        let mut all = _mm_setzero_si128();
        let mut k = 0;
        while k < 80 {
            let here = _mm_loadu_si128(bytes.as_ptr().add(k).cast());
            // As signed numbers, bytes past 0x7f are below 0x20 too.
            let low = _mm_or_si128(_mm_cmplt_epi8(here, splat(0x20)), _mm_cmpeq_epi8(here, splat(0x7f)));
            let marks = _mm_or_si128(_mm_cmpeq_epi8(here, splat(b'$')), _mm_cmpeq_epi8(here, splat(b'!')));
            let strange = _mm_or_si128(_mm_or_si128(low, marks), _mm_cmpeq_epi8(here, splat(b'*')));
            let found = _mm_movemask_epi8(strange) as u32;
            if found != 0 {
                let n = found.trailing_zeros() as usize;
                let kept = _mm_loadu_si128(KEPT.as_ptr().add(16 - n).cast());
                all = _mm_xor_si128(all, _mm_and_si128(here, kept));
                all = _mm_xor_si128(all, _mm_srli_si128(all, 8));
                let mut word = _mm_cvtsi128_si64(all) as u64;
                word ^= word >> 32;
                word ^= word >> 16;
                word ^= word >> 8;
                return (k + n, sum ^ word as u8);
            }
            all = _mm_xor_si128(all, here);
            k += 16;
        }
        (k, sum)
    }
}

// The length of a sentence by what follows its five characters, and by its text's length and sum.
#[inline(always)]
fn closed(rest: &[u8], (n, sum): (usize, u8)) -> Option<u32> {
    const DIGITS: &[u8; 16] = b"0123456789ABCDEF";
    if n > 71 || n + 5 > rest.len() || n > 0 && rest[0] != b',' {
        return None;
    }
    let digits = [DIGITS[(sum >> 4) as usize], DIGITS[(sum & 15) as usize]];
    let closing = [b'*', digits[0], digits[1], b'\r', b'\n'];
    (rest[n..n + 5] == closing).then_some(n as u32 + 11)
}

#[cold]
fn closed_slowly(rest: &[u8], sum: u8) -> Option<u32> {
    closed(rest, text_slowly(rest, sum))
}

// The sentence at the front of the bytes.
#[inline(always)]
fn sentence(bytes: &[u8]) -> Found {
    if bytes.len() < 11 || bytes[0] != b'$' {
        return None;
    }
    let name: &[u8; 5] = bytes[1..6].try_into().unwrap();
    if !name.iter().fold(true, |all, b| all & NAME[*b as usize]) {
        return None;
    }
    let sum = name.iter().fold(0, |sum, b| sum ^ b);
    let rest = &bytes[6..];
    let length = match rest.first_chunk::<80>() {
        Some(near) => closed(near, text(near, sum)),
        None => closed_slowly(rest, sum),
    }?;
    Some(Row {
        length,
        tag: (name[2] as u32) << 16 | (name[3] as u32) << 8 | name[4] as u32,
        ..Row::default()
    })
}

// How many bytes come before the first dollar sign; all of them if there is none.
#[inline(always)]
fn before_dollar(bytes: &[u8]) -> usize {
    let mut at = 0;
    // SAFETY: the loads end at `at + 32`, which is inside the bytes; x86-64 has these instructions.
    unsafe {
        let mark = _mm_set1_epi8(b'$' as i8);
        while at + 32 <= bytes.len() {
            let from = bytes.as_ptr().add(at);
            let low = _mm_cmpeq_epi8(_mm_loadu_si128(from.cast()), mark);
            let high = _mm_cmpeq_epi8(_mm_loadu_si128(from.add(16).cast()), mark);
            let found = _mm_movemask_epi8(low) as u32 | (_mm_movemask_epi8(high) as u32) << 16;
            if found != 0 {
                return at + found.trailing_zeros() as usize;
            }
            at += 32;
        }
    }
    while at < bytes.len() && bytes[at] != b'$' {
        at += 1;
    }
    at
}

// What a listing comes to: two listings with the same rows have the same sum.
#[derive(Default)]
struct Total {
    rows: u64,
    skipped: u64,
    sum: u64,
}

impl Total {
    fn add(&mut self, from: usize, rows: &[Row], skipped: usize) {
        for row in rows {
            let place = from as u64 + row.place as u64;
            let kind = row.tag as u64 ^ row.time as u64 ^ (row.source_type as u64) << 16;
            let more = place ^ (row.length as u64) << 32 ^ kind ^ row.source_id as u64;
            self.sum = self.sum.wrapping_mul(31).wrapping_add(more);
        }
        self.rows += rows.len() as u64;
        self.skipped += skipped as u64;
    }
}

// Lists the bytes up to the end or to a full table: the rows, the place reached and the cells skipped.
#[inline(always)]
fn list_part(
    front: impl Fn(&[u8]) -> Found,
    before: impl Fn(&[u8]) -> usize,
    bytes: &[u8],
    table: &mut [Row],
) -> (usize, usize, usize) {
    let mut at = 0;
    let mut rows = 0;
    let mut skipped = 0;
    while at < bytes.len() {
        if let Some(row) = front(&bytes[at..]) {
            if rows == table.len() {
                break;
            }
            table[rows] = Row { place: at as u32, ..row };
            rows += 1;
            at += row.length as usize;
        } else {
            let next = at + 1 + before(&bytes[at + 1..]);
            skipped += next - at;
            at = next;
        }
    }
    (rows, at, skipped)
}

fn list_all(
    front: impl Fn(&[u8]) -> Found + Copy,
    before: impl Fn(&[u8]) -> usize + Copy,
    bytes: &[u8],
    table: &mut [Row],
) -> Total {
    let mut total = Total::default();
    let mut from = 0;
    while from < bytes.len() {
        // A recording has at most 2,147,483,647 cells.
        let end = bytes.len().min(from + 2_147_483_647);
        let (rows, reached, skipped) = list_part(front, before, &bytes[from..end], table);
        total.add(from, &table[..rows], skipped);
        from += reached;
    }
    total
}

fn run(
    front: impl Fn(&[u8]) -> Found + Copy,
    before: impl Fn(&[u8]) -> usize + Copy,
    bytes: &[u8],
    rounds: u32,
) {
    let mut table = vec![Row::default(); MOST];
    let mut best = u128::MAX;
    for _ in 0..rounds {
        let start = Instant::now();
        let total = list_all(front, before, bytes, &mut table);
        best = best.min(start.elapsed().as_nanos());
        if total.rows == u64::MAX {
            break;
        }
    }
    let total = list_all(front, before, bytes, &mut table);
    println!("rows {} skipped {} sum {:x}", total.rows, total.skipped, total.sum);
    if rounds > 0 {
        println!("nanoseconds {best}");
    }
}

fn main() {
    let mut args = env::args().skip(1);
    let path = args.next().expect("no recording");
    let kind = args.next().expect("no kind");
    let rounds = args.next().expect("no rounds").parse().expect("rounds");
    let bytes = fs::read(path).expect("a recording");
    match kind.as_str() {
        "tuples" => run(tuple, before_sync, &bytes, rounds),
        "sentences" => run(sentence, before_dollar, &bytes, rounds),
        _ => panic!("no such kind"),
    }
}
