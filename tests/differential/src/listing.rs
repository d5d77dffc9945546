//! The rules of a listing, worked out plainly and slowly: every line against every earlier one, every folder against every line.

use crate::rules::{refusal, refuse, Answer};

const MOST_LINES: usize = 1_024;
const MOST_BYTES: usize = 255;

/// Each line ends in one newline, which the last may lack.
pub fn lines(listing: &[u8]) -> Vec<&[u8]> {
    let mut all: Vec<&[u8]> = listing.split(|byte| *byte == b'\n').collect();
    if all.last().is_some_and(|last| last.is_empty()) {
        all.pop();
    }
    all
}

/// A decimal number without leading zeros.
fn number(text: &[u8]) -> Option<u128> {
    if text.is_empty() || text.len() > 20 || (text[0] == b'0' && text.len() > 1) {
        return None;
    }
    text.iter().try_fold(0u128, |n, byte| (b'0'..=b'9').contains(byte).then(|| 10 * n + u128::from(byte - b'0')))
}

/// t2 of a name, if it is one.
fn last_time(name: &[u8]) -> Option<u64> {
    let parts: Vec<&[u8]> = name.split(|byte| *byte == b'_').collect();
    let [[], [], first, last, uuid, version] = parts[..] else { return None };
    let (first, last, version) = (number(first)?, number(last)?, number(version)?);
    let letters = uuid.iter().all(|byte| matches!(byte, b'a'..=b'z' | b'A'..=b'Z' | b'0'..=b'9' | b'-'));
    let fine = first <= last && last < 1 << 63 && !uuid.is_empty() && uuid.len() <= 64 && letters && 16 <= version && version <= 21;
    fine.then_some(last as u64)
}

/// Kind, name and t2 of a line, if it is a record.
fn record(line: &[u8]) -> Option<(&[u8], &[u8], u64)> {
    let parts: Vec<&[u8]> = line.split(|byte| *byte == b'\t').collect();
    let [kind, name] = parts[..] else { return None };
    let known = [&b"folder"[..], b"wrt", b"con", b"ign"].contains(&kind);
    (known && line.len() <= MOST_BYTES).then_some((kind, name, last_time(name)?))
}

/// The lines of the folders that count and are no later than a time.
pub fn committed(listing: &[u8], time: u64) -> Answer<Vec<u32>> {
    committed_by(listing, time, |wrt, con, ign| wrt || (con && !ign))
}

/// The same with another rule for what counts: it is told which of wrt, con and ign name a folder.
pub fn committed_by(listing: &[u8], time: u64, counts: fn(bool, bool, bool) -> bool) -> Answer<Vec<u32>> {
    let lines = lines(listing);
    let mut records = vec![];
    for (i, line) in lines.iter().enumerate() {
        match record(line) {
            Some(record) if i < MOST_LINES => records.push(record),
            _ => return refuse(refusal::BAD_LINE, i),
        }
        if lines[..i].contains(line) {
            return refuse(refusal::REPEATED, i);
        }
    }
    let names = |kind: &[u8], name: &[u8]| records.iter().any(|(k, n, _)| *k == kind && *n == name);
    let counted = |name: &[u8]| counts(names(b"wrt", name), names(b"con", name), names(b"ign", name));
    let found = records.iter().enumerate().filter(|(_, (kind, name, last))| *kind == b"folder" && *last <= time && counted(name));
    Ok(found.map(|(i, _)| i as u32).collect())
}

/// The name at a line.
pub fn name_at(listing: &[u8], line: u32) -> &[u8] {
    lines(listing)[line as usize].split(|byte| *byte == b'\t').nth(1).unwrap()
}
