//! Which of the library's own branches were taken: of the shared library as it was built, with no instrumentation. A breakpoint stands where each
//! conditional jump leads and right behind it, and goes when it is hit for the first time, so that code costs nothing once it was reached. For Linux
//! on x86-64.

use std::collections::BTreeSet;
use std::ffi::{c_char, c_void, CStr};
use std::process::Command;
use std::sync::atomic::{AtomicUsize, Ordering::Relaxed};

#[repr(C)]
struct Object {
    name: *const c_char,
    base: *mut u8,
    symbol: *const c_char,
    address: *mut c_void,
}

#[repr(C)]
struct Action {
    handler: extern "C" fn(i32, *mut c_void, *mut u8),
    mask: [u64; 16],
    flags: i32,
    restorer: usize,
}

extern "C" {
    fn tussockbell_cells_at(tiles: u64, last: u64, capacity: u64, tile: u64) -> u64;
    fn dladdr(address: *const c_void, object: *mut Object) -> i32;
    fn mprotect(address: *mut c_void, length: usize, protection: i32) -> i32;
    fn sigaction(signal: i32, action: *const Action, before: *mut c_void) -> i32;
}

const BREAKPOINT: u8 = 0xcc;
const SIGTRAP: i32 = 5;
const SA_SIGINFO: i32 = 4;
const PAGE: usize = 4096;
/// Where a signal's context has the instruction pointer.
const POINTER_AT: usize = 168;

/// Where the code starts, a copy of it as it was, and how many breakpoints were hit.
static CODE: AtomicUsize = AtomicUsize::new(0);
static COPY: AtomicUsize = AtomicUsize::new(0);
static HITS: AtomicUsize = AtomicUsize::new(0);

extern "C" fn hit(_: i32, _: *mut c_void, context: *mut u8) {
    unsafe {
        let pointer = context.add(POINTER_AT) as *mut usize;
        let place = *pointer - 1;
        *(place as *mut u8) = *((COPY.load(Relaxed) + place - CODE.load(Relaxed)) as *const u8);
        *pointer = place;
    }
    HITS.fetch_add(1, Relaxed);
}

/// The ends of every conditional jump of the code, by their places in the library's file.
fn ways(library: &str) -> BTreeSet<usize> {
    let said = Command::new("objdump").args(["-d", "--no-show-raw-insn", "-j", ".text", library]).output().expect("objdump");
    let text = String::from_utf8(said.stdout).expect("objdump writes text");
    let (mut ways, mut after, mut own) = (BTreeSet::new(), false, false);
    for line in text.lines() {
        if let Some((_, name)) = line.strip_suffix(">:").and_then(|line| line.split_once('<')) {
            // what the C compiler adds to every library comes before the library's own code
            own = own || name.starts_with("tussockbell_");
        }
        let Some((place, code)) = line.trim_start().split_once(":\t") else { continue };
        let Ok(place) = usize::from_str_radix(place, 16) else { continue };
        if std::mem::take(&mut after) {
            ways.insert(place);
        }
        let mut words = code.split_whitespace();
        let (name, target) = (words.next().unwrap_or(""), words.next().unwrap_or(""));
        if own && name.starts_with('j') && name != "jmp" {
            ways.insert(usize::from_str_radix(target, 16).expect("a jump's target"));
            after = true;
        }
    }
    ways
}

/// The branches of the library.
pub struct Branches {
    base: usize,
    ways: BTreeSet<usize>,
}

impl Branches {
    pub fn new() -> Branches {
        let mut object = Object { name: std::ptr::null(), base: std::ptr::null_mut(), symbol: std::ptr::null(), address: std::ptr::null_mut() };
        assert_ne!(unsafe { dladdr(tussockbell_cells_at as *const c_void, &mut object) }, 0, "no shared library");
        let (base, library) = (object.base as usize, unsafe { CStr::from_ptr(object.name) }.to_str().expect("a path of text"));
        let ways = ways(library);
        let (first, last) = (base + ways.first().expect("a jump"), base + ways.last().expect("a jump"));
        let start = first / PAGE * PAGE;
        let copy = unsafe { std::slice::from_raw_parts(start as *const u8, last + 1 - start) }.to_vec().leak();
        CODE.store(start, Relaxed);
        COPY.store(copy.as_ptr() as usize, Relaxed);
        let action = Action { handler: hit, mask: [0; 16], flags: SA_SIGINFO, restorer: 0 };
        unsafe {
            // read, write and execute
            assert_eq!(mprotect(start as *mut c_void, last + 1 - start, 7), 0, "mprotect failed");
            assert_eq!(sigaction(SIGTRAP, &action, std::ptr::null_mut()), 0, "sigaction failed");
        }
        let branches = Branches { base, ways };
        branches.anew();
        branches
    }

    /// None is reached.
    pub fn anew(&self) {
        HITS.store(0, Relaxed);
        for way in &self.ways {
            unsafe { *((self.base + way) as *mut u8) = BREAKPOINT };
        }
    }

    pub fn reached(&self) -> usize {
        HITS.load(Relaxed)
    }

    pub fn all(&self) -> usize {
        self.ways.len()
    }

    /// The places in the library's file that nothing reached.
    pub fn left(&self) -> Vec<usize> {
        self.ways.iter().copied().filter(|way| unsafe { *((self.base + way) as *const u8) } == BREAKPOINT).collect()
    }
}
