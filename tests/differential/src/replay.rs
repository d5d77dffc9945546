//! Replays of logs: the library, through its C function, against the rules, on generated logs over generated trees: good lines, lines that are bad
//! in every way, room from none to more than enough. Every byte of the output buffer is compared, those that must stay too.

use crate::cases::Chance;
use crate::fuzz::Change;
use crate::guard::Space;
use crate::library::lend;
use crate::rules::{self, limits, refusal, Answer, Description, FLOAT32, FLOAT64, INT32, INT64, UINT64};

/// The bytes that a line of a log may have, and those that are room enough for a line of the text.
const MOST: usize = 255;
const LINE: usize = 113;
const FILLER: u8 = 0xa5;

extern "C" {
    fn tussockbell_replay(
        k: *const u8, kl: usize, fields: u64, capacity: u64, tiles: u64, t: *const u8, tl: usize, log: *const u8, ll: usize, out: *mut u8, ol: usize,
        answer: *mut u64,
    );
}

#[derive(Debug)]
struct Case {
    d: Description,
    tiles: u64,
    tree: Vec<u8>,
    log: Vec<u8>,
    room: usize,
}

// ---- the rules

fn lines(text: &[u8]) -> Vec<&[u8]> {
    let mut found: Vec<&[u8]> = text.split(|byte| *byte == b'\n').collect();
    if found.last() == Some(&&b""[..]) {
        found.pop();
    }
    found
}

/// The ends of an integer kind, least and most.
pub fn ends_of(kind: u8) -> Option<(i128, i128)> {
    match kind {
        k if k == INT32.number => Some((i32::MIN.into(), i32::MAX.into())),
        k if k == INT64.number => Some((i64::MIN.into(), i64::MAX.into())),
        k if k == UINT64.number => Some((0, u64::MAX.into())),
        _ => None,
    }
}

/// The numbers of a line, if it can be read: the ends of the window, found and looked.
fn read(d: &Description, line: &[u8]) -> Option<Vec<i128>> {
    let mut kinds = vec![];
    for kind in &d.kinds {
        kinds.extend([ends_of(*kind)?; 2]);
    }
    kinds.extend([(0, u64::MAX.into()); 2]);
    let parts: Vec<&[u8]> = line.split(|byte| *byte == b'\t').collect();
    if line.len() > MOST || parts.len() != kinds.len() {
        return None;
    }
    let number = |(part, (least, most)): (&&[u8], &(i128, i128))| rules::decimal(part).filter(|x| least <= x && x <= most);
    parts.iter().zip(&kinds).map(number).collect()
}

/// The bytes of an end.
pub fn bytes_of(kind: u8, end: i128) -> Vec<u8> {
    end.to_le_bytes()[..rules::width(kind) / 2].to_vec()
}

/// The window's bytes.
fn window(d: &Description, numbers: &[i128]) -> Vec<u8> {
    (0..2 * d.kinds.len()).flat_map(|i| bytes_of(d.kinds[i / 2], numbers[i])).collect()
}

/// The number found and the number looked at, if the query isn't refused.
fn asked(case: &Case, numbers: &[i128]) -> Option<(i128, i128)> {
    let (found, looked) = rules::query(&case.d, case.tiles, &case.tree, &case.d.kinds, &window(&case.d, numbers)).ok()?;
    Some((found.len() as i128, looked.into()))
}

/// A slip, as a library that makes it would write the text.
#[derive(Clone, Copy, PartialEq)]
enum Slip {
    None,
    FoundAlone,
    BadSkipped,
    FromOne,
    LastLineLost,
    PairsSwapped,
}

fn text(case: &Case, slip: Slip) -> Vec<u8> {
    let mut text = String::new();
    let lines = lines(&case.log);
    let whole = if slip == Slip::LastLineLost && !case.log.ends_with(b"\n") { lines.len().saturating_sub(1) } else { lines.len() };
    for (i, line) in lines[..whole].iter().enumerate() {
        let number = i + usize::from(slip == Slip::FromOne);
        let record = read(&case.d, line).and_then(|numbers| Some((asked(case, &numbers)?, numbers)));
        let Some(((found, looked), numbers)) = record else {
            if slip != Slip::BadSkipped {
                text += &format!("{number}\tbad\n");
            }
            continue;
        };
        let [logged_found, logged_looked] = [numbers[numbers.len() - 2], numbers[numbers.len() - 1]];
        let same = logged_found == found && (logged_looked == looked || slip == Slip::FoundAlone);
        let word = if same { "same" } else { "differs" };
        text += &match slip {
            Slip::PairsSwapped => format!("{number}\t{word}\t{found}\t{looked}\t{logged_found}\t{logged_looked}\n"),
            _ => format!("{number}\t{word}\t{logged_found}\t{logged_looked}\t{found}\t{looked}\n"),
        };
    }
    text.into_bytes()
}

fn replay(case: &Case) -> Answer<Vec<u8>> {
    let text = text(case, Slip::None);
    if case.room < text.len() {
        return rules::refuse(refusal::ROOM, 0);
    }
    Ok(text)
}

/// The answer's numbers, and the buffer.
fn right(case: &Case) -> ([u64; 3], Vec<u8>) {
    let mut out = vec![FILLER; case.room];
    match replay(case) {
        Ok(text) => {
            out[..text.len()].copy_from_slice(&text);
            ([0, 0, text.len() as u64], out)
        }
        Err(refused) => ([refused.number, refused.place, 0], out),
    }
}

// ---- cases

/// Integer kinds mostly, and within the limits mostly.
pub fn kinds(c: &mut Chance) -> Vec<u8> {
    let most = *limits::DIMENSIONS.end();
    let number = if c.one_in(60) { c.of(&[0, most + 1]) } else { 1 + c.below(most) };
    let mut kinds: Vec<u8> = (0..number).map(|_| c.of(&[INT32, INT64, UINT64]).number).collect();
    if c.one_in(15) && !kinds.is_empty() {
        let at = c.below(number) as usize;
        kinds[at] = c.of(&[FLOAT32.number, FLOAT64.number, 9]);
    }
    kinds
}

/// A number near the small ones of a kind, or at its ends.
fn number(c: &mut Chance, kind: u8, x: i128) -> i128 {
    let (least, most) = ends_of(kind).unwrap_or((0, 0));
    let origin = if kind == UINT64.number { 1 << 63 } else { 0 };
    if c.one_in(40) { c.of(&[least, most]) } else { origin + x }
}

fn tree(c: &mut Chance, d: &Description) -> (u64, Vec<u8>) {
    let (f, n) = (c.of(&[2u64, 3, 10]), 1 + c.below(20));
    let mut leaves = vec![];
    for i in 0..n {
        for (p, kind) in d.kinds.iter().enumerate() {
            let low = if p == 0 { 4 * i as i128 - 20 } else { c.below(30) as i128 - 10 };
            let high = low + c.below(8) as i128;
            let (low, high) = (number(c, *kind, low), number(c, *kind, high));
            for end in [low.min(high), low.max(high)] {
                leaves.extend(bytes_of(*kind, end));
            }
        }
    }
    let sound = Description { fields: 1, capacity: 1, ..d.clone() };
    (n, rules::write_tree(&sound, n, f, &leaves, usize::MAX).unwrap_or_default())
}

/// A record's line: mostly a good one, with what the tree answers or nearly that; else one that is bad, or may be.
fn line(c: &mut Chance, case: &Case) -> Vec<u8> {
    let mut numbers = vec![];
    for kind in &case.d.kinds {
        let low = c.below(120) as i128 - 40;
        let high = low + c.of(&[0, 0, 3, 20, 100, -1]);
        numbers.extend([number(c, *kind, low), number(c, *kind, high)]);
    }
    let (found, looked) = asked(case, &numbers).unwrap_or((0, 1));
    let near = |c: &mut Chance, x: i128| if c.one_in(6) { c.of(&[x + 1, 0, u64::MAX.into(), (1 << 64), x + 10]) } else { x };
    let logged = [near(c, found), near(c, looked)];
    numbers.extend(logged);
    match c.below(30) {
        0 => numbers.push(1),
        1 => _ = numbers.pop(),
        2 => numbers.truncate(c.below(3) as usize),
        3 => {
            let at = c.below(numbers.len() as u64) as usize;
            let (least, most) = case.d.kinds.get(at / 2).and_then(|kind| ends_of(*kind)).unwrap_or((0, u64::MAX.into()));
            numbers[at] = c.of(&[least, most, least - 1, most + 1, -1, -numbers[at]]);
        }
        _ => (),
    }
    let mut parts: Vec<String> = numbers.iter().map(i128::to_string).collect();
    if c.one_in(12) && !parts.is_empty() {
        let at = c.below(parts.len() as u64) as usize;
        let part = &mut parts[at];
        *part = match c.below(9) {
            0 => format!("0{part}"),
            1 => format!("+{part}"),
            2 => format!(" {part}"),
            3 => format!("{part}\r"),
            4 => format!("-{part}"),
            5 => "-0".into(),
            6 => String::new(),
            7 => format!("{part}.0"),
            _ => part.repeat(1 + c.below(30) as usize),
        };
    }
    let mut line = parts.join("\t").into_bytes();
    match c.below(60) {
        0 => line.clear(),
        1 => line.push(b'\t'),
        2 => line.push(b'\r'),
        3 => line.resize(c.of(&[MOST - 1, MOST, MOST + 1, 2 * MOST]), b'0'),
        4 if !line.is_empty() => {
            let at = c.below(line.len() as u64) as usize;
            let any = c.next() as u8;
            line[at] = c.of(&[b'/', b':', b'9', b' ', b'\t', b'-', 0, 255, any]);
        }
        _ => (),
    }
    line
}

fn make(c: &mut Chance) -> Case {
    let mut d = Description { kinds: kinds(c), fields: 1 + c.below(3), capacity: 10 };
    let (tiles, tree) = tree(c, &d);
    let mut case = Case { d: d.clone(), tiles, tree, log: vec![], room: 0 };
    match c.below(40) {
        0 => case.tiles = c.of(&[0, tiles + 1, *limits::TILES.end(), u64::MAX]),
        1 => case.tree.truncate(c.below(case.tree.len() as u64 + 1) as usize),
        2 if !case.tree.is_empty() => {
            let at = c.below(case.tree.len() as u64) as usize;
            case.tree[at] ^= 1 << c.below(8);
        }
        3 => d.fields = c.of(&[0, limits::FIELDS.end() + 1]),
        4 => d.capacity = 0,
        _ => (),
    }
    case.d = d;
    for _ in 0..c.of(&[0u64, 1, 1, 2, 3, 5, 12]) {
        let line = line(c, &case);
        case.log.extend(line);
        case.log.push(b'\n');
    }
    if c.one_in(3) {
        case.log.pop();
    }
    let (length, enough) = (text(&case, Slip::None).len(), LINE * lines(&case.log).len());
    let any = c.below(length as u64 + 1) as usize;
    case.room = c.of(&[enough, enough, enough + 7, enough.saturating_sub(1), length, length + 1, length.saturating_sub(1), any]);
    case
}

// ---- the library

fn ask(case: &Case, mut space: Option<&mut Space>) -> ([u64; 3], Vec<u8>) {
    if let Some(space) = &mut space {
        space.again();
    }
    let (k, t, log) = (lend(&case.d.kinds, &mut space), lend(&case.tree, &mut space), lend(&case.log, &mut space));
    let mut own = vec![FILLER; case.room];
    let out = if space.is_some() { lend(&own, &mut space) as *mut u8 } else { own.as_mut_ptr() };
    let mut answer = [u64::MAX; 3];
    let d = &case.d;
    unsafe {
        tussockbell_replay(
            k, d.kinds.len(), d.fields, d.capacity, case.tiles, t, case.tree.len(), log, case.log.len(), out, case.room, answer.as_mut_ptr(),
        );
        (answer, std::slice::from_raw_parts(out, case.room).to_vec())
    }
}

fn same(case: &Case, space: Option<&mut Space>, made: u64) {
    let (right, said) = (right(case), ask(case, space));
    if right != said {
        let shown = |out: &[u8]| String::from_utf8_lossy(out).into_owned();
        eprintln!("replay: log {made} differs\n{case:?}\n{}", shown(&case.log));
        eprintln!("the rules: {:?} {}\nthe library: {:?} {}", right.0, shown(&right.1), said.0, shown(&said.1));
        std::process::exit(1);
    }
}

/// A log and a tree whose bytes were changed: do the library and the rules agree?
pub fn changed(c: &mut Chance, change: Change) -> bool {
    let mut case = make(c);
    change(&mut [&mut case.tree, &mut case.log]);
    ask(&case, None) == right(&case)
}

/// Each slip is told from what is right.
fn slips(seed: u64) -> usize {
    let all = [Slip::FoundAlone, Slip::BadSkipped, Slip::FromOne, Slip::LastLineLost, Slip::PairsSwapped];
    for (number, slip) in all.iter().enumerate() {
        let told = |i: u64| {
            let case = make(&mut Chance::new(seed, i));
            text(&case, *slip) != text(&case, Slip::None)
        };
        assert!((1..10_000).any(told), "slip {number} of a replay was not caught");
    }
    all.len()
}

pub fn compare(inputs: u64, seed: u64) {
    let (mut space, mut guarded, mut refused, mut rooms) = (Space::new(), 0, 0, 0u64);
    let mut words = [("\tsame\t", 0), ("\tdiffers\t", 0), ("\tbad\n", 0)];
    let slips = slips(seed);
    for i in 0..inputs {
        let mut case = make(&mut Chance::new(seed, i));
        let guards = i % 20 == 0;
        same(&case, guards.then_some(&mut space), i);
        guarded += u64::from(guards);
        let text = String::from_utf8(text(&case, Slip::None)).expect("the text is ASCII");
        refused += u64::from(case.room < text.len());
        words.iter_mut().for_each(|(word, number)| *number += text.matches(*word).count());
        if i % 500 == 0 {
            for room in 0..text.len() + 9 {
                case.room = room;
                same(&case, None, i);
                rooms += 1;
            }
        }
    }
    assert!(inputs < 100_000 || (refused > 1_000 && guarded > 1_000 && words.iter().all(|(_, number)| *number > 10_000)), "{refused} {words:?}");
    let [(_, same), (_, differs), (_, bad)] = words;
    println!(
        "differential: {inputs} logs agree, and {rooms} more at every room, {guarded} of them between guard pages, {refused} without the room; lines: \
         {same} same, {differs} differ, {bad} bad; {slips} slips are caught"
    );
}
