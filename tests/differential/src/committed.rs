//! Listings: the library, through its C function, against the rules. Few names and few times, so that lines repeat and
//! name each other; fields at their ends and past them; damaged lines; listings around the most lines. And pairs of
//! listings that differ only in folders that don't count.

use crate::cases::Chance;
use crate::fuzz::Change;
use crate::guard::Space;
use crate::listing::{committed, committed_by, lines, name_at};
use crate::rules::{refusal, Answer};
use std::collections::BTreeMap;

extern "C" {
    fn tussockbell_committed(listing: *const u8, length: usize, time: u64, out: *mut u32, out_length: usize, answer: *mut u64);
}

/// A listing, the reading time and the room.
struct Asked {
    listing: Vec<u8>,
    time: u64,
    room: usize,
}

/// Ends of each field, and what lies past them. `Aa` and `BB` are told apart by their bytes alone: they have one hash.
const TIMES: [&str; 12] =
    ["0", "1", "2", "3", "9", "10", "9223372036854775807", "9223372036854775808", "18446744073709551616", "", "01", "-1"];
const GOOD_TIMES: usize = 7;
const UUIDS: [&str; 9] = ["a", "Aa", "BB", "AaAa", "BBBB", "0-9", "", "a_b", "a.b"];
const GOOD_UUIDS: usize = 6;
const VERSIONS: [&str; 9] = ["16", "21", "18", "20", "15", "22", "016", "", "1"];
const GOOD_VERSIONS: usize = 4;
const KINDS: [&str; 4] = ["folder", "wrt", "con", "ign"];

/// One of the good ones, which are the first, or now and then any.
fn of<'a>(c: &mut Chance, all: &[&'a str], good: usize) -> &'a str {
    if c.one_in(300) {
        c.of(all)
    } else {
        c.of(&all[..good])
    }
}

fn name(c: &mut Chance) -> String {
    let (mut first, mut last) = (of(c, &TIMES, GOOD_TIMES), of(c, &TIMES, GOOD_TIMES));
    if (first.len(), first) > (last.len(), last) && !c.one_in(200) {
        (first, last) = (last, first);
    }
    let uuid = if c.one_in(100) { "x".repeat(c.of(&[1, 63, 64, 65, 200])) } else { of(c, &UUIDS, GOOD_UUIDS).to_string() };
    format!("__{first}_{last}_{uuid}_{}", of(c, &VERSIONS, GOOD_VERSIONS))
}

/// A line, mostly with one of the listing's names.
fn line(c: &mut Chance, names: &[String]) -> Vec<u8> {
    let name = if c.one_in(5) { name(c) } else { names[c.below(names.len() as u64) as usize].clone() };
    let mut line = format!("{}\t{name}", c.of(&KINDS)).into_bytes();
    if c.one_in(400) {
        let at = c.below(line.len() as u64) as usize;
        let byte = c.of(&[b'\r', 0, 128, 255, b'\t', b' ', b'_', b'F', b'0', b'\n']);
        if c.one_in(2) {
            line[at] = byte;
        } else {
            line.insert(at, byte);
        }
    }
    line
}

/// Lines that are all different, as many as asked for.
fn many(number: usize) -> Vec<Vec<u8>> {
    (0..number).map(|i| format!("{}\t__{}_{}_a{}_16", KINDS[i % 4], i / 4, i / 4 + 1, i / 4).into_bytes()).collect()
}

fn make(c: &mut Chance) -> Asked {
    let mut all: Vec<Vec<u8>> = if c.one_in(500) { many(c.of(&[1_022, 1_023, 1_024, 1_025, 1_300])) } else { vec![] };
    let more = if c.one_in(50) { c.below(80) } else { c.below(14) };
    let names: Vec<String> = (0..1 + c.below(4)).map(|_| name(c)).collect();
    for _ in 0..if all.is_empty() { more } else { c.below(3) } {
        let line = line(c, &names);
        // a repeated record would end most listings early
        if c.one_in(60) || !all.contains(&line) {
            let at = c.below(all.len() as u64 + 1) as usize;
            all.insert(at, line);
        }
    }
    if all.len() > 1 && c.one_in(12) {
        let again = all[c.below(all.len() as u64) as usize].clone();
        all.insert(c.below(all.len() as u64 + 1) as usize, again);
    }
    let mut listing = all.join(&b'\n');
    if !c.one_in(3) && !all.is_empty() || c.one_in(100) {
        listing.push(b'\n');
    }
    let time = c.of(&[0, 1, 2, 3, 8, 9, 10, 11, (1 << 63) - 2, (1 << 63) - 1, u64::MAX]);
    Asked { listing, time, room: c.of(&[0, 1, 2, 3, 5, 8, 100, 2_000]) }
}

const BEFORE: u32 = 0xdead_0000;

/// The library's answer and what is left in the buffer, both lent between guard pages where there is a space for them.
fn ask(asked: &Asked, space: Option<&mut Space>) -> (Vec<u64>, Vec<u32>) {
    let (mut own, mut answer) = ((0..asked.room as u32).map(|i| BEFORE + i).collect::<Vec<u32>>(), vec![u64::MAX; 3]);
    let (text, length) = (asked.listing.as_ptr(), asked.listing.len());
    let (text, out) = match space {
        Some(space) => {
            space.again();
            let (place, out) = (space.lend(length), space.lend(4 * asked.room) as *mut u32);
            unsafe { std::ptr::copy_nonoverlapping(text, place, length) };
            unsafe { std::ptr::copy_nonoverlapping(own.as_ptr(), out, asked.room) };
            (place as *const u8, out)
        }
        None => (text, own.as_mut_ptr()),
    };
    unsafe {
        tussockbell_committed(text, length, asked.time, out, asked.room, answer.as_mut_ptr());
        (answer, std::slice::from_raw_parts(out, asked.room).to_vec())
    }
}

fn right(asked: &Asked) -> (Vec<u64>, Vec<u32>) {
    told(asked, committed(&asked.listing, asked.time))
}

/// An answer of the rules as numbers and as what is left in the buffer.
fn told(asked: &Asked, answer: Answer<Vec<u32>>) -> (Vec<u64>, Vec<u32>) {
    let mut out: Vec<u32> = (0..asked.room as u32).map(|i| BEFORE + i).collect();
    match answer {
        Ok(found) => {
            for (place, line) in out.iter_mut().zip(&found) {
                *place = *line;
            }
            (vec![0, 0, found.len() as u64], out)
        }
        Err(refused) => (vec![refused.number, refused.place, 0], out),
    }
}

/// A listing without some of its folders that don't count, and with others: their names are nowhere else.
fn alike(c: &mut Chance, listing: &[u8]) -> Vec<u8> {
    let whole = committed(listing, u64::MAX).unwrap();
    let folder = |i: usize, line: &[u8]| line.starts_with(b"folder\t") && !whole.contains(&(i as u32));
    let mut kept: Vec<Vec<u8>> =
        lines(listing).iter().enumerate().filter(|(i, line)| !folder(*i, line) || c.one_in(2)).map(|(_, line)| line.to_vec()).collect();
    for i in 0..c.below(4).min((1_024 - kept.len()) as u64) {
        let line = format!("folder\t__{i}_{i}_-new-_16").into_bytes();
        kept.insert(c.below(kept.len() as u64 + 1) as usize, line);
    }
    kept.join(&b'\n')
}

/// The names at the lines that are written are the same, in order.
fn same_names(c: &mut Chance, asked: &Asked) {
    let other = Asked { listing: alike(c, &asked.listing), time: asked.time, room: asked.room };
    let ((first, out), (second, others)) = (ask(asked, None), ask(&other, None));
    assert_eq!(first, second, "listings that differ only in folders that don't count find other numbers");
    for (a, b) in out.iter().zip(&others).take(first[2] as usize) {
        assert_eq!(name_at(&asked.listing, *a), name_at(&other.listing, *b), "and other names");
    }
}

/// A record repeated, placed at the earlier line.
fn earlier(asked: &Asked) -> Answer<Vec<u32>> {
    committed(&asked.listing, asked.time).map_err(|mut refused| {
        let lines = lines(&asked.listing);
        if refused.number == refusal::REPEATED {
            refused.place = lines.iter().position(|line| *line == lines[refused.place as usize]).unwrap() as u64;
        }
        refused
    })
}

/// Slips of the rules, as a library that makes them would answer: each must be told from what is right.
fn slips(seed: u64) {
    let all: [(&str, fn(&Asked) -> Answer<Vec<u32>>); 5] = [
        ("an ign that cancels a wrt", |a| committed_by(&a.listing, a.time, |wrt, con, ign| (wrt || con) && !ign)),
        ("an ign that cancels nothing", |a| committed_by(&a.listing, a.time, |wrt, con, _| wrt || con)),
        ("a con that counts for nothing", |a| committed_by(&a.listing, a.time, |wrt, _, _| wrt)),
        ("t2 strictly below the time", |a| committed(&a.listing, a.time.saturating_sub(1))),
        ("a record repeated, at the earlier line", earlier),
    ];
    for (name, wrong) in all {
        let caught = (0..10_000).map(|i| make(&mut Chance::new(seed, i))).any(|asked| told(&asked, wrong(&asked)) != right(&asked));
        assert!(caught, "the slip was not caught: {name}");
    }
    println!("differential: {} slips of a listing's rules are caught", all.len());
}

/// A listing whose bytes were changed: do the library and the rules agree?
pub fn changed(c: &mut Chance, change: Change) -> bool {
    let mut asked = make(c);
    change(&mut [&mut asked.listing]);
    ask(&asked, None) == right(&asked)
}

pub fn compare(inputs: u64, seed: u64) {
    slips(seed);
    let (mut refusals, mut space) = (BTreeMap::new(), Space::new());
    let (mut guarded, mut pairs, mut found) = (0, 0, 0);
    for i in 0..inputs {
        let mut c = Chance::new(seed, i);
        let asked = make(&mut c);
        let guards = i % 4 == 0;
        let (right, said) = (right(&asked), ask(&asked, if guards { Some(&mut space) } else { None }));
        if right != said {
            let Asked { listing, time, room } = &asked;
            eprintln!("committed: listing {i} of seed {seed} differs, time {time}, room {room}:\n{}", String::from_utf8_lossy(listing));
            eprintln!("the rules: {right:?}\nthe library: {said:?}");
            std::process::exit(1);
        }
        *refusals.entry(right.0[0]).or_insert(0u64) += 1;
        guarded += u64::from(guards);
        found += right.0[2];
        if right.0[0] == 0 && i % 8 == 1 {
            same_names(&mut c, &asked);
            pairs += 1;
        }
    }
    if inputs >= 100_000 {
        for number in [0, refusal::BAD_LINE, refusal::REPEATED] {
            assert!(refusals.get(&number).is_some_and(|n| 50 * n > inputs), "too few listings were answered with {number}: {refusals:?}");
        }
        assert!(found > inputs / 4, "only {found} folders were found");
    }
    println!("differential: {inputs} listings agree, {guarded} of them between guard pages, {pairs} beside one like it;");
    println!("    refusals {refusals:?}");
}
