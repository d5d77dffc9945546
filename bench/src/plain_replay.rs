//! A log replayed in plain Rust: each line read, its query asked and its line written, with the query's own checks and walk.

use super::*;

/// No line of the text is longer.
const LINE: usize = 113;

/// What a line is held to: the window, found and looked.
struct Record {
    window: [Range; 4],
    found: u64,
    looked: u64,
}

/// Digits alone, with no leading zeros, of a number that fits.
fn unsigned(text: &[u8]) -> Option<u64> {
    if text.is_empty() || (text.len() > 1 && text[0] == b'0') {
        return None;
    }
    text.iter().try_fold(0u64, |value, byte| match byte {
        b'0'..=b'9' => value.checked_mul(10)?.checked_add(u64::from(byte - b'0')),
        _ => None,
    })
}

/// The same with a minus before a number other than 0.
fn signed(text: &[u8]) -> Option<i64> {
    match text.strip_prefix(b"-") {
        Some(digits) => match unsigned(digits)? {
            0 => None,
            value => 0i64.checked_sub_unsigned(value),
        },
        None => unsigned(text)?.try_into().ok(),
    }
}

fn range(kind: Kind, low: &[u8], high: &[u8]) -> Option<Range> {
    Some(match kind {
        Kind::Int32 => Range::Int32(Ends(signed(low)?.try_into().ok()?, signed(high)?.try_into().ok()?)),
        Kind::Int64 => Range::Int64(Ends(signed(low)?, signed(high)?)),
        Kind::Uint64 => Range::Uint64(Ends(unsigned(low)?, unsigned(high)?)),
        Kind::Float32 | Kind::Float64 => return None,
    })
}

fn record(d: &Description, line: &[u8]) -> Option<Record> {
    if line.len() > 255 {
        return None;
    }
    let mut parts = line.split(|byte| *byte == b'\t');
    let mut window = [Range::NONE; 4];
    for (side, kind) in window.iter_mut().zip(d.kinds()) {
        *side = range(*kind, parts.next()?, parts.next()?)?;
    }
    let (found, looked) = (unsigned(parts.next()?)?, unsigned(parts.next()?)?);
    parts.next().is_none().then_some(Record { window, found, looked })
}

/// The number found and the number looked at now.
fn asked(d: &Description, tiles: u64, tree: &[u8], window: &[Range; 4]) -> Option<(u64, u64)> {
    let window = &window[..d.dimensions];
    if window.iter().any(|range| range.fault().is_some()) {
        return None;
    }
    let width = d.box_bytes();
    let shape = shape(tiles as usize, width, tree).ok()?;
    let mut walk = Walk { body: tree, window, width, shape: &shape, out: &mut [], found: 0, looked: 0 };
    walk.row(0, 0, 1);
    Some((walk.found as u64, walk.looked as u64))
}

fn put(out: &mut [u8], at: usize, bytes: &[u8]) -> usize {
    out[at..at + bytes.len()].copy_from_slice(bytes);
    at + bytes.len()
}

/// A number and the byte after it.
fn put_number(out: &mut [u8], at: usize, mut number: u64, end: u8) -> usize {
    let mut text = [end; 21];
    let mut from = 20;
    loop {
        from -= 1;
        text[from] = b'0' + (number % 10) as u8;
        number /= 10;
        if number == 0 {
            return put(out, at, &text[from..]);
        }
    }
}

fn write(d: &Description, tiles: u64, tree: &[u8], log: &[u8], out: &mut [u8]) -> usize {
    let mut at = 0;
    let lines = log.strip_suffix(b"\n").unwrap_or(log).split(|byte| *byte == b'\n');
    for (number, line) in lines.enumerate() {
        at = put_number(out, at, number as u64, b'\t');
        let held = record(d, line).and_then(|record| Some((asked(d, tiles, tree, &record.window)?, record)));
        let Some((now, record)) = held else {
            at = put(out, at, b"bad\n");
            continue;
        };
        at = put(out, at, if now == (record.found, record.looked) { b"same\t" } else { b"differs\t" });
        for (number, end) in [(record.found, b'\t'), (record.looked, b'\t'), (now.0, b'\t'), (now.1, b'\n')] {
            at = put_number(out, at, number, end);
        }
    }
    at
}

/// The length of the text, which is written at the start of the buffer. Not for an empty log, nor for a description or a number of tiles
/// outside the limits.
#[inline(never)]
pub fn replay(kinds: &[u8], fields: u64, capacity: u64, tiles: u64, tree: &[u8], log: &[u8], out: &mut [u8]) -> Result<u64, Refused> {
    let d = Description::new(kinds, fields, capacity)?;
    if !limits::TILES.contains(&tiles) {
        return refuse(refusal::TILES, 0);
    }
    let lines = log.iter().filter(|byte| **byte == b'\n').count() + 1;
    if lines <= out.len() / LINE {
        return Ok(write(&d, tiles, tree, log, out) as u64);
    }
    let mut text = vec![0; lines * LINE];
    let length = write(&d, tiles, tree, log, &mut text);
    let Some(room) = out.get_mut(..length) else { return refuse(refusal::ROOM, 0) };
    room.copy_from_slice(&text[..length]);
    Ok(length as u64)
}
