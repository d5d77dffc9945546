//! Bodies that arrive in parts: the library, through its C functions, against the rules, on generated bodies that are cut at random, with stated
//! lengths and work buffers around the right ones. And states and work buffers that no call left: nothing may be read or written but what is lent.

use crate::blocks::{make, right, Parts};
use crate::cases::Chance;
use crate::guard::Space;
use crate::rules::refusal;
use std::collections::BTreeMap;

const STATE: usize = 40;
/// Where the state has the stated length, and the bytes of all that came whole.
const STATED: usize = 11;
const DONE: usize = 20;

extern "C" {
    fn tussockbell_parts_start(
        k: *const u8, kl: usize, fields: u64, capacity: u64, file: u64, f: *const u8, fl: usize, stated: u64, state: *mut u64,
    );
    fn tussockbell_parts_block(state: *mut u64, w: *mut u8, wl: usize, b: *const u8, bl: usize);
    fn tussockbell_parts_finish(state: *const u64, w: *const u8, wl: usize, answer: *mut u64);
}

/// The library's answer, with every block and the work buffer in a place of its own, between guard pages where there is a space for them.
pub fn ask(p: &Parts, space: &mut Option<&mut Space>) -> Vec<u64> {
    let (mut state, mut answer) = ([u64::MAX; STATE], vec![u64::MAX; 6]);
    let mut own = p.work.clone();
    let work = match space {
        Some(space) => {
            space.again();
            let place = space.lend(own.len());
            unsafe { std::ptr::copy_nonoverlapping(own.as_ptr(), place, own.len()) };
            place
        }
        None => own.as_mut_ptr(),
    };
    let d = &p.d;
    unsafe {
        tussockbell_parts_start(
            d.kinds.as_ptr(), d.kinds.len(), d.fields, d.capacity, p.file_size, p.footer.as_ptr(), p.footer.len(), p.stated, state.as_mut_ptr(),
        );
    }
    let mut from = 0;
    for to in &p.cuts {
        let block = &p.got[from..*to];
        let place = match space {
            Some(space) => space.again_with(block),
            None => block.as_ptr(),
        };
        unsafe { tussockbell_parts_block(state.as_mut_ptr(), work, p.work.len(), place, block.len()) };
        from = *to;
    }
    unsafe { tussockbell_parts_finish(state.as_ptr(), work, p.work.len(), answer.as_mut_ptr()) };
    answer
}

fn same(p: &Parts, space: &mut Option<&mut Space>, refusals: &mut BTreeMap<u64, u64>, made: u64) {
    let (right, said) = (right(p), ask(p, space));
    if right != said {
        let cut = (p.stated, p.work.len(), p.got.len(), &p.cuts);
        eprintln!("parts: input {made} differs: stated, room, received and cuts {cut:?}\nthe rules: {right:?}\nthe library: {said:?}");
        std::process::exit(1);
    }
    *refusals.entry(right[0]).or_insert(0) += 1;
}

/// States and work buffers that no call left, between guard pages: any answer will do.
fn forged(c: &mut Chance, p: &Parts, space: &mut Space) {
    let mut state = [0u64; STATE];
    let d = &p.d;
    unsafe {
        tussockbell_parts_start(
            d.kinds.as_ptr(), d.kinds.len(), d.fields, d.capacity, p.file_size, p.footer.as_ptr(), p.footer.len(), p.stated, state.as_mut_ptr(),
        );
    }
    for place in &mut state {
        if c.one_in(3) {
            *place = c.of(&[0, 1, 2, 3, 8, 16, 24, 25, 64, 255, 1_024, 65_536, 1 << 24, 1 << 40, 1 << 63, u64::MAX, u64::MAX - 7]);
        }
    }
    if c.one_in(2) {
        state[0] = 0;
    }
    if c.one_in(2) {
        (state[STATED], state[DONE]) = (u64::MAX - c.below(2), c.of(&[16, 24, 1 << 20, u64::MAX - 64]));
    }
    space.again();
    let work = space.lend(p.work.len());
    let before = state;
    let mut answer = [u64::MAX; 6];
    for to in &p.cuts {
        let block = space.again_with(&p.got[..*to]);
        unsafe { tussockbell_parts_block(state.as_mut_ptr(), work, p.work.len(), block, *to) };
    }
    unsafe { tussockbell_parts_finish(before.as_ptr(), work, p.work.len(), answer.as_mut_ptr()) };
    unsafe { tussockbell_parts_finish(state.as_ptr(), work, p.work.len(), answer.as_mut_ptr()) };
}

pub fn compare(inputs: u64, seed: u64) {
    let (mut refusals, mut space) = (BTreeMap::new(), Space::new());
    let (mut compared, mut i) = (0, 0);
    while compared < inputs {
        i += 1;
        let mut c = Chance::new(seed, i);
        let Some(p) = make(&mut c) else { continue };
        let guards = p.work.len() < 200_000 && p.got.len() < 200_000 && i % 20 == 0;
        same(&p, &mut if guards { Some(&mut space) } else { None }, &mut refusals, i);
        if guards {
            forged(&mut c, &p, &mut space);
        }
        compared += 1;
    }
    if inputs >= 100_000 {
        for number in (0..=refusal::OUTSIDE_DOMAIN).chain([refusal::WORK, refusal::INFINITE, refusal::RETIRED]) {
            assert!(refusals.contains_key(&number), "no body in parts was refused with {number}");
        }
    }
    println!("differential: {compared} bodies in parts agree; refusals {refusals:?}");
}
