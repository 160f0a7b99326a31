//! Two pieces of work beside each other: their times, as minima of short batches that alternate, or under callgrind their counts
//! of instructions.
use crate::world::World;
use std::arch::asm;
use std::hint::black_box;
use std::time::{Duration, Instant};

/// So many of a piece, one after the other; the sum of their answers.
pub type Piece<'a> = &'a dyn Fn(&mut World, usize) -> usize;

/// `times!(|w, k| answer)`: the piece whose k-th answer that is.
#[macro_export]
macro_rules! times {
    (|$w:ident, $k:tt| $answer:expr) => {
        &|$w: &mut World, n: usize| (0..n).fold(0usize, |sum, $k| sum.wrapping_add($answer as usize))
    };
}

/// Pieces that can be repeated without end.
pub const ANY: usize = 1 << 16;

/// Port first. Nanoseconds, or instructions, of one piece.
#[derive(Clone, Copy)]
pub struct Pair(pub f64, pub f64);

impl Pair {
    pub fn ratio(self) -> f64 {
        self.0 / self.1
    }
}

pub struct Bench {
    /// Where callgrind writes its dumps, if instructions are counted.
    dumps: Option<String>,
    dumped: usize,
    /// What no piece at all counts.
    empty: f64,
}

impl Bench {
    pub fn new(dumps: Option<String>) -> Bench {
        let mut bench = Bench { dumps, dumped: 0, empty: 0.0 };
        if bench.dumps.is_some() {
            bench.empty = bench.count(&mut World::new(12, 1, true, 0), 0, times!(|_w, _| 0));
        }
        bench
    }

    pub fn unit(&self) -> &'static str {
        if self.dumps.is_some() { "instructions" } else { "ns" }
    }

    /// First both sides do it, up to `most` times; answers, tables, chains and heap must be the same. Then they are measured,
    /// in three spaces, since where memory lies tells. What they use up is made anew `before` each batch.
    pub fn pair(&mut self, space: &dyn Fn() -> World, what: &str, most: usize, before: &dyn Fn(&mut World), port: Piece, rust: Piece) -> Pair {
        let n = if most == ANY { 1 } else { most };
        let w = &mut space();
        before(w);
        assert_eq!(port(w, n), rust(w, n), "{what}: answers");
        w.same(what);
        if self.dumps.is_some() {
            before(w);
            let a = self.count(w, n, port);
            before(w);
            return Pair(a / n as f64, self.count(w, n, rust) / n as f64);
        }
        let (a, b) = (fit(w, most, before, port), fit(w, most, before, rust));
        let mut best = Pair(f64::MAX, f64::MAX);
        for _ in 0..3 {
            *w = space();
            let (began, mut round) = (Instant::now(), 0);
            while round < 10 || began.elapsed() < Duration::from_millis(20) {
                before(w);
                best.0 = best.0.min(timed(w, a, port) / a as f64);
                before(w);
                best.1 = best.1.min(timed(w, b, rust) / b as f64);
                round += 1;
            }
        }
        best
    }

    fn count(&mut self, w: &mut World, n: usize, piece: Piece) -> f64 {
        request(CALLGRIND + 1);
        black_box(piece(w, n));
        request(CALLGRIND);
        self.dumped += 1;
        let path = format!("{}.{}", self.dumps.as_ref().unwrap(), self.dumped);
        let text = std::fs::read_to_string(&path).unwrap_or_else(|x| panic!("{path}: {x}"));
        let total = text.lines().find_map(|l| l.strip_prefix("totals: ")).expect("callgrind's totals");
        std::fs::remove_file(path).unwrap();
        total.trim().parse::<f64>().unwrap() - self.empty
    }
}

fn timed(w: &mut World, n: usize, piece: Piece) -> f64 {
    let began = Instant::now();
    black_box(piece(w, n));
    began.elapsed().as_nanos() as f64
}

/// So many in a batch that the clock is exact enough, and that hardly anything else runs in between.
fn fit(w: &mut World, most: usize, before: &dyn Fn(&mut World), piece: Piece) -> usize {
    let mut n = 1;
    while n < most {
        before(w);
        if timed(w, n, piece) > 10_000.0 {
            break;
        }
        n = (2 * n).min(most);
    }
    n
}

/// Callgrind's requests: dump what was counted; one more: count from 0.
const CALLGRIND: u64 = 0x4354_0000;

/// A request to valgrind; nothing where there is none.
#[inline(never)]
fn request(number: u64) {
    let words = [number, 0, 0, 0, 0, 0];
    unsafe {
        asm!("rol rdi, 3", "rol rdi, 13", "rol rdi, 61", "rol rdi, 51", "xchg rbx, rbx",
             in("rax") &words, inout("rdx") 0u64 => _)
    }
}
