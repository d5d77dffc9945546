//! Inputs that are changed from a corpus, again and again, and compared with the rules. An input that takes a branch of the library which none before it
//! took joins the corpus. A line of the corpus is a recipe: the group of functions, the number from which the input is made, and each change, as the
//! byte string, the place in it, what is done there and with what number.

use crate::cases::{self, Chance};
use crate::reached::Branches;
use crate::{blocks, committed, library, parts, replay, right, values};
use std::time::{Duration, Instant};

/// Changes the byte strings of an input.
pub type Change<'a> = &'a mut dyn FnMut(&mut [&mut Vec<u8>]);

/// Each makes an input, has it changed, and tells whether the library and the rules agree on it.
const GROUPS: [fn(&mut Chance, Change) -> bool; 5] = [single, in_parts, values::changed, committed::changed, replay::changed];
const SEED: u64 = 20_261_118;
const MOST_CHANGES: usize = 12;

fn single(c: &mut Chance, change: Change) -> bool {
    let mut case = cases::make(c);
    change(&mut cases::parts(&mut case));
    library::ask(&case, None) == right::right(&case)
}

fn in_parts(c: &mut Chance, change: Change) -> bool {
    let Some(mut made) = blocks::make(c) else { return true };
    change(&mut [&mut made.footer, &mut made.got]);
    let length = made.got.len();
    made.cuts.iter_mut().for_each(|cut| *cut = length.min(*cut));
    made.cuts.push(length);
    parts::ask(&made, &mut None) == blocks::right(&made)
}

#[derive(Clone)]
struct Recipe {
    group: usize,
    input: u64,
    changes: Vec<[u64; 4]>,
}

impl Recipe {
    fn read(line: &str) -> Recipe {
        let number = |text: &str| text.parse::<u64>().expect("a number");
        let mut words = line.split(' ');
        let (group, input) = (number(words.next().unwrap_or("")) as usize, number(words.next().unwrap_or("")));
        let change = |word: &str| word.split(',').map(number).collect::<Vec<_>>().try_into().expect("four numbers");
        Recipe { group, input, changes: words.map(change).collect() }
    }

    fn line(&self) -> String {
        let changes = self.changes.iter().map(|[part, at, what, with]| format!(" {part},{at},{what},{with}"));
        format!("{} {}{}\n", self.group, self.input, changes.collect::<String>())
    }

    fn agrees(&self) -> bool {
        let mut change = |parts: &mut [&mut Vec<u8>]| {
            for [part, at, what, with] in &self.changes {
                let index = *part as usize % parts.len();
                changed(parts[index], *at as usize, *what, *with);
            }
        };
        GROUPS[self.group](&mut Chance::new(SEED, self.input), &mut change)
    }

    /// One from the corpus with some changes more, or a new one.
    fn next(c: &mut Chance, corpus: &[Recipe]) -> Recipe {
        if corpus.is_empty() || c.one_in(4) {
            return Recipe { group: c.below(GROUPS.len() as u64) as usize, input: c.below(1 << 40), changes: vec![] };
        }
        let mut recipe = corpus[c.below(corpus.len() as u64) as usize].clone();
        for _ in 0..1 + c.below(4) {
            let with = c.of(&[1, 8, 16, 128, 255, 1 << 24, 1 << 32, 1 << 63, u64::MAX, u64::MAX - 7]);
            let with = if c.one_in(3) { c.below(70) } else { with };
            recipe.changes.push([c.below(4), c.below(1 << 12), c.below(7), with]);
        }
        let more = recipe.changes.len().saturating_sub(MOST_CHANGES);
        recipe.changes.drain(..more);
        recipe
    }
}

/// Changes a byte string at a place, counted round where it is past the end.
fn changed(bytes: &mut Vec<u8>, at: usize, what: u64, with: u64) {
    let at = at % (bytes.len() + 1);
    let rest = bytes.len() - at;
    let put = |bytes: &mut [u8], width: usize| {
        for (byte, new) in bytes[at..].iter_mut().zip(&with.to_le_bytes()[..width]) {
            *byte = *new;
        }
    };
    match what {
        0 if rest > 0 => bytes[at] ^= with as u8,
        1 => put(bytes, 8),
        2 => put(bytes, 4),
        3 => put(bytes, 1),
        4 => bytes.truncate(at),
        5 => bytes.insert(at, with as u8),
        6 => _ = bytes.drain(at..at + rest.min(with as usize % 17)),
        _ => (),
    }
}

/// Asks a recipe, and ends the run where the library differs from the rules; how many branches are reached then.
fn asked(branches: &Branches, recipe: &Recipe) -> usize {
    if !recipe.agrees() {
        eprintln!("fuzz: the library and the rules differ on the recipe: {}", recipe.line());
        std::process::exit(1);
    }
    branches.reached()
}

/// Those recipes that reach what none before them reaches, the shortest first.
fn fewest(branches: &Branches, mut corpus: Vec<Recipe>) -> Vec<Recipe> {
    branches.anew();
    corpus.sort_by_key(|recipe| recipe.changes.len());
    let mut before = 0;
    corpus.retain(|recipe| asked(branches, recipe) > std::mem::replace(&mut before, branches.reached()));
    corpus
}

/// Changes inputs for so many seconds, from the corpus of a file, which is written anew. The places in the library's file that no input reached go to
/// build/fuzz.left, for objdump.
pub fn run(seconds: u64, seed: u64, file: &str) {
    let branches = Branches::new();
    let stored: Vec<Recipe> = std::fs::read_to_string(file).unwrap_or_default().lines().map(Recipe::read).collect();
    stored.iter().for_each(|recipe| _ = asked(&branches, recipe));
    let (start, from, mut corpus, mut inputs) = (Instant::now(), branches.reached(), stored, 0u64);
    println!("fuzz: the corpus, {} recipes, takes {from} of the {} ways of the library's branches; seed {seed}", corpus.len(), branches.all());
    while start.elapsed() < Duration::from_secs(seconds) {
        let before = branches.reached();
        let recipe = Recipe::next(&mut Chance::new(seed, inputs), &corpus);
        if asked(&branches, &recipe) > before {
            corpus.push(recipe);
        }
        inputs += 1;
    }
    let (reached, left) = (branches.reached(), branches.left());
    let corpus = fewest(&branches, corpus);
    std::fs::write(file, corpus.iter().map(Recipe::line).collect::<String>()).expect("the corpus can be written");
    println!("fuzz: {inputs} inputs agree; {reached} of {} ways are taken, by a corpus of {} recipes", branches.all(), corpus.len());
    let left: String = left.iter().map(|place| format!("{place:x}\n")).collect();
    std::fs::write("build/fuzz.left", left).expect("the places can be written");
}
