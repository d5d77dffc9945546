//! Listings of folders and commits: the library beside plain Rust with the standard library's `HashSet`.

use crate::plain::{refusal, refuse, Refused};
use crate::Run;
use std::collections::HashSet;
use std::hint::black_box;

const LINES: [usize; 3] = [16, 256, 1_024];
const MOST_LINES: usize = 1_024;
const MOST_BYTES: usize = 255;
/// Between the first folder's time and the last one's, of 1,024 lines.
const TIME: u64 = 1_700_000_300_000;

unsafe extern "C" {
    fn tussockbell_committed(listing: *const u8, length: usize, time: u64, out: *mut u32, out_length: usize, answer: *mut u64);
}

fn ours(listing: &[u8], time: u64, out: &mut [u32]) -> [u64; 3] {
    let mut answer = [0; 3];
    // SAFETY: pointers and lengths of slices, and an answer array of the header's places.
    unsafe { tussockbell_committed(listing.as_ptr(), listing.len(), time, out.as_mut_ptr(), out.len(), answer.as_mut_ptr()) };
    answer
}

#[derive(Clone, Copy, PartialEq, Eq, Hash)]
enum Kind {
    Folder,
    Wrt,
    Con,
    Ign,
}

struct Record<'a> {
    kind: Kind,
    name: &'a [u8],
    time: u64,
}

/// A number without leading zeros.
fn decimal(text: &[u8]) -> Option<u64> {
    let plain = !text.is_empty() && text.iter().all(u8::is_ascii_digit) && (text.len() == 1 || text[0] != b'0');
    plain.then(|| std::str::from_utf8(text).ok()?.parse().ok())?
}

fn record(line: &[u8]) -> Option<Record<'_>> {
    let tab = line.iter().position(|byte| *byte == b'\t')?;
    let kind = match &line[..tab] {
        b"folder" => Kind::Folder,
        b"wrt" => Kind::Wrt,
        b"con" => Kind::Con,
        b"ign" => Kind::Ign,
        _ => return None,
    };
    let name = &line[tab + 1..];
    let mut parts = name.strip_prefix(b"__")?.split(|byte| *byte == b'_');
    let first = decimal(parts.next()?)?;
    let time = decimal(parts.next()?)?;
    let uuid = parts.next()?;
    let version = decimal(parts.next()?)?;
    let fine = line.len() <= MOST_BYTES
        && parts.next().is_none()
        && first <= time
        && time < 1 << 63
        && (1..=64).contains(&uuid.len())
        && uuid.iter().all(|byte| byte.is_ascii_alphanumeric() || *byte == b'-')
        && (16..=21).contains(&version);
    fine.then_some(Record { kind, name, time })
}

fn plain(listing: &[u8], time: u64, out: &mut [u32]) -> Result<u64, Refused> {
    let (mut records, mut seen) = (vec![], HashSet::new());
    let lines = listing.strip_suffix(b"\n").unwrap_or(listing).split(|byte| *byte == b'\n');
    for (i, line) in lines.take(listing.len()).enumerate() {
        let Some(record) = record(line).filter(|_| i < MOST_LINES) else {
            return refuse(refusal::BAD_LINE, i);
        };
        if !seen.insert((record.kind, record.name)) {
            return refuse(refusal::REPEATED, i);
        }
        records.push(record);
    }
    let mut found = 0;
    for (i, record) in records.iter().enumerate().filter(|(_, record)| record.kind == Kind::Folder && record.time <= time) {
        let named = |kind| seen.contains(&(kind, record.name));
        if named(Kind::Wrt) || named(Kind::Con) && !named(Kind::Ign) {
            if let Some(place) = out.get_mut(found) {
                *place = i as u32;
            }
            found += 1;
        }
    }
    Ok(found as u64)
}

/// Numbers from a seed (SplitMix64).
pub fn next(seed: &mut u64) -> u64 {
    *seed = seed.wrapping_add(0x9e37_79b9_7f4a_7c15);
    let z = (*seed ^ (*seed >> 30)).wrapping_mul(0xbf58_476d_1ce4_e5b9);
    let z = (z ^ (z >> 27)).wrapping_mul(0x94d0_49bb_1331_11eb);
    z ^ (z >> 31)
}

/// Folders in the order of their times, each with what is there of a wrt, a con and an ign: as many lines as asked for.
fn ordinary(lines: usize) -> Vec<u8> {
    let mut seed = 6;
    let mut records = vec![];
    for i in 0..lines as u64 {
        let time = 1_700_000_000_000 + 1_000 * i;
        let name = format!("__{time}_{time}_{:016x}{:016x}_21", next(&mut seed), next(&mut seed));
        let kinds = [&["folder", "wrt"][..], &["folder", "con"], &["folder", "con", "ign"], &["folder"]][i as usize % 4];
        records.extend(kinds.iter().map(|kind| format!("{kind}\t{name}\n")));
    }
    records[..lines].concat().into_bytes()
}

/// Folders whose names have one hash and differ only in their last bytes: each is held against all before it.
fn one_chain(lines: usize) -> Vec<u8> {
    let name = |i: usize| (0..10).map(|bit| if i >> bit & 1 == 0 { "Aa" } else { "BB" }).collect::<String>();
    (0..lines).map(|i| format!("folder\t__1700000000000_1700000000000_{}{}_21\n", "a".repeat(44), name(i))).collect::<String>().into_bytes()
}

/// A listing to be measured on.
pub struct Listing {
    pub names: &'static str,
    pub lines: usize,
    pub found: u64,
    pub text: Vec<u8>,
}

impl Listing {
    pub fn all() -> Vec<Listing> {
        let made = |names, lines, text: Vec<u8>| Listing { names, lines, found: 0, text }.agreed();
        let ordinary = LINES.map(|lines| made("ordinary", lines, ordinary(lines)));
        ordinary.into_iter().chain([made("one chain", MOST_LINES, one_chain(MOST_LINES))]).collect()
    }

    /// Both find the same lines.
    fn agreed(mut self) -> Listing {
        let (mut first, mut second) = (vec![u32::MAX; self.lines], vec![u32::MAX; self.lines]);
        self.found = plain(&self.text, TIME, &mut second).unwrap();
        assert_eq!(ours(&self.text, TIME, &mut first), [0, 0, self.found]);
        assert_eq!(first, second);
        assert_eq!(self.text.iter().filter(|byte| **byte == b'\n').count(), self.lines);
        self
    }

    pub fn runs(&self) -> [Run<'_>; 2] {
        let (mut first, mut second) = (vec![0; self.lines], vec![0; self.lines]);
        [
            Box::new(move || _ = black_box(ours(black_box(&self.text), TIME, &mut first))),
            Box::new(move || _ = black_box(plain(black_box(&self.text), TIME, &mut second))),
        ]
    }
}
