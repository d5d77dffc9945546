//! Footers and trees of float32 dimensions converted, beside plain Rust that makes the same checks and writes the same bytes.

use crate::data::{self, CAPACITY, Cells, FIELDS};
use crate::plain::{self, Kind};
use crate::{Bench, FANOUTS, Run, TILES, beside, described, lent, measure};
use std::hint::black_box;

/// Before float32 was retired.
const MIX: [Kind; 4] = [Kind::Float64, Kind::Int32, Kind::Float32, Kind::Int64];

unsafe extern "C" {
    fn tussockbell_convert(
        kinds: *const u8, kinds_length: usize, fields: u64, capacity: u64, file_size: u64, footer: *const u8, footer_length: usize,
        tree: *const u8, tree_length: usize, out: *mut u8, out_length: usize, answer: *mut u64,
    );
    fn tussockbell_convert_length(
        kinds: *const u8, kinds_length: usize, fields: u64, capacity: u64, file_size: u64, footer: *const u8, footer_length: usize,
        tree: *const u8, tree_length: usize, answer: *mut u64,
    );
}

/// An old footer and an old tree.
struct Old {
    kinds: Vec<u8>,
    file_size: u64,
    footer: Vec<u8>,
    tree: Vec<u8>,
    written: usize,
}

impl Old {
    /// Both write the tree of the same boxes with float64 for float32.
    fn new(kinds: &[Kind], leaves: &[Cells], fanout: usize) -> Old {
        let (file_size, footer) = data::footer(kinds, leaves.len());
        let wide: Vec<Kind> = kinds.iter().map(|kind| if *kind == Kind::Float32 { Kind::Float64 } else { *kind }).collect();
        let (tree, new) = (data::tree(kinds, leaves, fanout), data::tree(&wide, leaves, fanout));
        let old = Old { kinds: lent(kinds), file_size, footer, tree, written: new.len() };
        let (mut first, mut second) = (vec![1; new.len()], vec![2; new.len()]);
        assert_eq!(old.length(), [0, 0, 0, new.len() as u64]);
        assert_eq!(old.ours(&mut first), old.length());
        assert_eq!(old.plain(&mut second), Ok(new.len() as u64));
        assert!(first == new && second == new, "another tree is written");
        old
    }

    fn ours(&self, out: &mut [u8]) -> [u64; 4] {
        let (k, f, t, mut answer) = (&self.kinds, &self.footer, black_box(&self.tree), [0; 4]);
        unsafe {
            tussockbell_convert(
                k.as_ptr(), k.len(), FIELDS, CAPACITY, self.file_size, f.as_ptr(), f.len(), t.as_ptr(), t.len(), out.as_mut_ptr(), out.len(),
                answer.as_mut_ptr(),
            )
        };
        answer
    }

    fn length(&self) -> [u64; 4] {
        let (k, f, t, mut answer) = (&self.kinds, &self.footer, black_box(&self.tree), [0; 4]);
        unsafe {
            tussockbell_convert_length(
                k.as_ptr(), k.len(), FIELDS, CAPACITY, self.file_size, f.as_ptr(), f.len(), t.as_ptr(), t.len(), answer.as_mut_ptr(),
            )
        };
        answer
    }

    fn plain(&self, out: &mut [u8]) -> Result<u64, plain::Refused> {
        plain::convert::convert(&self.kinds, FIELDS, CAPACITY, self.file_size, &self.footer, black_box(&self.tree), out)
    }

    fn runs(&self) -> [Run<'_>; 3] {
        let (mut first, mut second) = (vec![0; self.written], vec![0; self.written]);
        [
            Box::new(move || _ = black_box(self.ours(&mut first))),
            Box::new(move || _ = black_box(self.plain(&mut second))),
            Box::new(|| _ = black_box(self.length())),
        ]
    }
}

impl Bench {
    pub fn convert_cases(&mut self) {
        for d in 1..=4 {
            let mix = (d > 2).then(|| MIX[..d].to_vec());
            for kinds in [vec![Kind::Float32; d]].into_iter().chain(mix) {
                let kind = described(&kinds);
                for n in TILES {
                    eprintln!("bench: convert {kind} D={d} n={n}");
                    let leaves = data::leaves(d, n);
                    let old = FANOUTS.map(|f| Old::new(&kinds, &leaves, f));
                    let taken = measure(old.iter().flat_map(Old::runs).collect(), self.rounds);
                    for ((f, old), taken) in FANOUTS.iter().zip(&old).zip(taken.chunks(3)) {
                        let bytes = old.tree.len() + old.written;
                        self.rows.push(format!("convert\t{kind}\t{d}\t{f}\t{n}\t{bytes}\t{}\t{:.1}", beside(taken, bytes as f64), taken[2]));
                        self.ratio(format!("rust/convert/{kind}/D={d}/f={f}/n={n}"), taken[0], taken[1]);
                    }
                }
            }
        }
    }
}
