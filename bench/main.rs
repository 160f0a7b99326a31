//! The port beside the given Rust: what each takes, as ratios beside their goals. `--count DUMPS`, under callgrind: instructions
//! in place of times. Before anything is measured, both sides have done it, and what they left is the same.
mod measure;
mod port;
mod world;

use measure::{Bench, Pair, Piece, ANY};
use port::*;
use std::hint::black_box;
use world::{World, NOTHING};

const LS: [isize; 5] = [-64, -8, 0, 8, 64];
const CELLS: [(usize, usize); 7] =
    [(12, 8), (12, 64), (12, 1024), (16, 8), (16, 64), (16, 1024), (16, 65536)];
/// Every how many cells one is marked: none, half, all.
const MARKED: [usize; 3] = [0, 2, 1];

/// One digit behind the point where a measured number is small.
fn number(n: f64) -> String {
    if n < 100.0 { format!("{n:.1}") } else { commas(n.round() as usize) }
}

fn commas(n: usize) -> String {
    let digits = n.to_string();
    let groups: Vec<&str> = digits.as_bytes().rchunks(3).rev().map(|c| std::str::from_utf8(c).unwrap()).collect();
    groups.join(",")
}

fn table(head: &[&str]) {
    println!("\n| {} |\n|{}", head.join(" | "), "---|".repeat(head.len()));
}

fn line(what: &str, goal: &str, p: Pair) {
    println!("| {what} | {goal} | {:.2} | {} | {} |", p.ratio(), number(p.0), number(p.1));
}

/// The worst of some pairs, with the range of their ratios where they differ.
fn worst(pairs: &[Pair]) -> String {
    let by = |a: &&Pair, b: &&Pair| a.ratio().total_cmp(&b.ratio());
    let (low, high) = (pairs.iter().min_by(by).unwrap(), pairs.iter().max_by(by).unwrap());
    let both = format!("({} / {})", number(high.0), number(high.1));
    match pairs.len() {
        1 => format!("{:.2} {both}", high.ratio()),
        _ => format!("{:.2}–{:.2} {both}", low.ratio(), high.ratio()),
    }
}

fn cells(log: usize, cell: usize) -> String {
    format!("cells of {} in a block of {}", commas(cell), commas(1 << log))
}

/// Every table word and state byte, one load and one add each.
fn bare_read(w: &World) -> usize {
    let mut sum = 0usize;
    for x in &w.port.words {
        sum = sum.wrapping_add(unsafe { std::ptr::read_volatile(x) });
    }
    for x in &w.port.states {
        sum = sum.wrapping_add(unsafe { std::ptr::read_volatile(x) } as usize);
    }
    sum
}

/// A run of every kind of call, on both sides: allocs, collections with every third object kept, and allocs that sweep and take
/// over what was abandoned. All answers are compared, and after each stage all that stands.
fn history(log: usize, unified: bool, lower: isize, eager: bool) {
    let w = &mut World::sweeping(log, 12, unified, lower, eager);
    (1..=2).for_each(|h| w.bind(h));
    for turn in 0..4 {
        let mut objects = Vec::new();
        for k in 0..3000 {
            let size = [8, 64, 24, 1000, 8, 4096, 200, 64][(k * (turn + 3) + k / 8) % 8];
            let free = (0..12).find(|b| w.port.states[*b] == 0 && k % 4 != 3);
            objects.push(w.alloc(1 + k % 2, size, free.unwrap_or(NOTHING)));
        }
        assert!(objects.iter().filter(|at| **at != 0).count() > 60, "hardly an alloc is served");
        w.same("allocs");
        w.prepare();
        for at in objects.iter().filter(|at| **at != 0).step_by(3) {
            let place = at.wrapping_add_signed(lower);
            if place >> log == at >> log {
                w.mark(place);
            }
        }
        w.same("marks");
        w.release(2);
        w.same("a collection");
    }
}

/// Document 01's sizes up to the block as rows; with a cell of nine words, if an office's.
fn own_rows(log: usize, office: bool) -> Vec<Row> {
    let mut to: Vec<usize> = (1..9).collect();
    if office {
        to.push(9);
    }
    for octave in 1.. {
        to.extend([5, 6, 7, 8].map(|k| k << octave).into_iter().filter(|words| 8 * words <= 1 << log));
        if 8 * *to.last().unwrap() == 1 << log {
            break;
        }
    }
    let from = |k: usize| if k == 0 { 1 } else { to[k - 1] + 1 };
    (0..to.len()).map(|k| Row { from: from(k), to: to[k], cell: to[k] }).collect()
}

/// What the test of the rows takes, which each call makes: beside it the parameters' own test, which it has in it.
fn rows(bench: &mut Bench) {
    table(&["the test of a class table over that of parameters without rows", "goal", "ratio", "with rows", "without"]);
    for (what, log, office) in [
        ("no rows, blocks of 4,096", 12, None),
        ("document 01's 32 rows, blocks of 4,096", 12, Some(false)),
        ("an office's 33 rows, blocks of 4,096", 12, Some(true)),
        ("document 01's 48 rows, blocks of 65,536", 16, Some(false)),
    ] {
        let space = || World::new(log, 1, true, 0);
        let given = office.map_or(vec![], |office| own_rows(log, office));
        let with = |w: &World| {
            let mut p = w.port.p;
            p.count = given.len();
            p.rows[..given.len()].copy_from_slice(&given);
            p
        };
        let p = with(&space());
        let port: Piece = times!(|_w, _| unsafe { port_classes(black_box(&p)) });
        line(what, "", bench.pair(&space, what, ANY, &|_| (), port, times!(|w, _| unsafe { port_classes(black_box(&w.port.p)) })));
    }
}

fn check(bench: &mut Bench) {
    table(&["the check of the tables over a bare scalar read of them", "goal", "ratio", "check", "read"]);
    let cases = [(4, 1, true, "1.0"), (64, 1, true, "1.0"), (64, 8, true, ""), (1024, 1, false, "1.0"),
        (1024, 1, true, "2.0"), (1024, 8, true, "")];
    for (blocks, holders, used, goal) in cases {
        let space = || {
            let mut w = World::new(12, blocks, true, 0);
            (1..=holders).for_each(|h| w.bind(h));
            (0..blocks).filter(|_| used).for_each(|b| { w.alloc(1 + b % holders, 4096, b); });
            w
        };
        let state = if used { "used" } else { "empty" };
        let what = format!("{} blocks {state}, {holders} bound", commas(blocks));
        let read: Piece = times!(|w, _| { black_box(bare_read(w)); 1 });
        line(&what, goal, bench.pair(&space, &what, ANY, &|_| (), times!(|w, _| w.port.tables()), read));
    }
}

/// The free cells of all blocks, by the links in the port's heap.
fn bare_walk(w: &World) -> usize {
    let (n, mut free) = (w.port.p.blocks, 0);
    for b in 0..n {
        let mut cell = w.port.words[2958 + 2 * n + b];
        while cell != 0 {
            let at = cell - w.port.p.base;
            cell = usize::from_le_bytes(w.port.heap[at..at + 8].try_into().unwrap());
            free += 1;
        }
    }
    free
}

/// R-7's part of the check, over a walk that follows the same links and tests nothing.
fn chains(bench: &mut Bench) {
    table(&["the test of the chains over a bare walk along them", "free cells", "ratio", "test", "walk"]);
    for (log, blocks, cell) in [(12, 64, 4096), (12, 1024, 4096), (12, 64, 8), (12, 64, 64), (12, 1024, 64), (16, 64, 8), (16, 64, 1024)] {
        let space = || {
            let mut w = World::new(log, blocks, true, 0);
            w.bind(1);
            (0..blocks).for_each(|b| { w.alloc(1, 1 << log, b); });
            (0..blocks).filter(|_| cell < 1 << log).for_each(|b| w.init(b, cell));
            w
        };
        let free = if cell < 1 << log { blocks * ((1 << log) / cell) } else { 0 };
        let what = format!("{} blocks of {}, {}", commas(blocks), commas(1 << log), if free == 0 { "full".into() } else { format!("cells of {cell} all free") });
        let walk: Piece = times!(|w, _| bare_walk(w) == free);
        line(&what, &commas(free), bench.pair(&space, &what, ANY, &|_| (), times!(|w, _| w.port.chains()), walk));
    }
}

fn init(bench: &mut Bench) {
    table(&["init of a block", "goal", "ratio", "port", "Rust"]);
    let mut one = |log: usize, cell: usize| {
        let rust: Piece = times!(|w, _| { w.rust.init(w.start(1), cell); 0 });
        bench.pair(&|| World::new(log, 3, true, 0), "init", ANY, &|_| (), times!(|w, _| { w.port.init(1, cell); 0 }), rust)
    };
    for (log, cell) in CELLS {
        line(&cells(log, cell), "1.0", one(log, cell));
    }
    let classes: Vec<Pair> = (8..=65536).step_by(8).filter(|s| class_of(*s) != class_of(s + 8)).map(|s| one(16, s)).collect();
    assert_eq!(classes.len(), 48);
    println!("| each of the 48 sizes, in a block of 65,536: least and most | 1.0 | {} |||", worst(&classes));
}

fn class_of(size: usize) -> usize {
    unsafe { port_bin(size) }
}

/// The sweep of a block of cells of one size, some of them marked at the first place of theirs that lies in the heap.
fn sweep(bench: &mut Bench, unified: bool, lower: isize, log: usize, block: usize, cell: usize, every: usize) -> Pair {
    let space = || {
        let mut w = World::new(log, 3, unified, lower);
        w.init(block, cell);
        for k in (0..(1 << log) / cell).filter(|k| every != 0 && k % every == 0) {
            let from = w.start(block) + k * cell;
            let mut places = (0..cell / 8).map(|i| from.wrapping_add_signed(lower) + 8 * i);
            places.find(|place| w.set_mark(*place));
        }
        w
    };
    let rust: Piece = times!(|w, _| { w.rust.sweep(w.start(block)); 0 });
    bench.pair(&space, "sweep", ANY, &|_| (), times!(|w, _| { w.port.sweep(block); 0 }), rust)
}

fn sweeps(bench: &mut Bench) {
    // The heap's three blocks: the middle one, and the ones whose places leave the heap.
    let all: Vec<(isize, usize)> = LS.map(|l| (l, 1)).to_vec();
    let edges = vec![(-64, 0), (-8, 0), (8, 2), (64, 2)];
    let kinds = [("simple sweep", true, vec![(0, 1)], "goal 1.0"), ("brute-force sweep, L −64 to 64", false, all, "goal below 1"),
        ("brute-force sweep at the heap's ends, L −64 to 64", false, edges, "goal below 1")];
    for (what, unified, places, goal) in kinds {
        let full = if unified { goal } else { "goal 1.2" };
        let heads = [what.to_string(), format!("unmarked, {goal}"), format!("half marked, {goal}"), format!("fully marked, {full}")];
        table(&heads.each_ref().map(|h| h.as_str()));
        for (log, cell) in CELLS {
            let columns = MARKED.map(|every| {
                worst(&places.iter().map(|(l, b)| sweep(bench, unified, *l, log, *b, cell, every)).collect::<Vec<Pair>>())
            });
            println!("| {} | {} |", cells(log, cell), columns.join(" | "));
        }
    }
}

fn reading(bench: &mut Bench) {
    table(&["one cell's marks, by brute force, over the reading by single bits", "unmarked", "marked in the middle", "marked at its start"]);
    for cell in [8, 64, 1024, 65536] {
        let columns = [None, Some(cell / 16 * 8), Some(0)].map(|mark| {
            worst(&LS.map(|lower| {
                let at = lent::BASE + 65536;
                let space = || {
                    let mut w = World::new(16, 3, false, lower);
                    mark.map(|offset| w.set_mark((at + offset).wrapping_add_signed(lower)));
                    assert_eq!(w.port.reading(port_any_marked, at, cell), mark.is_some());
                    w
                };
                let single: Piece = times!(|w, _| w.port.reading(port_single_bits, at, cell));
                bench.pair(&space, "marks of a cell", ANY, &|_| (), times!(|w, _| w.port.reading(port_any_marked, at, cell)), single)
            }))
        });
        println!("| cells of {} | {} |", commas(cell), columns.join(" | "));
    }
}

/// A space all of whose blocks holder 1 uses. The last is at the head of its list, with cells of one size.
fn used(log: usize, blocks: usize, cell: usize) -> World {
    let mut w = World::new(log, blocks, true, 0);
    w.bind(1);
    for b in 0..blocks {
        w.alloc(1, if b + 1 < blocks { 1 << log } else { cell }, b);
    }
    w
}

/// Allocs, or takings, of all cells of the last block, which is made anew before each batch.
fn from_head(bench: &mut Bench, what: String, goal: &str, log: usize, blocks: usize, cell: usize, port: Piece, rust: Piece) {
    let all = ((1 << log) / cell).min(2048);
    line(&what, goal, bench.pair(&|| used(log, blocks, cell), &what, all, &|w| w.init(blocks - 1, cell), port, rust));
}

fn allocs(bench: &mut Bench) {
    for cell in [8, 64, 1024] {
        let port: Piece = times!(|w, _| w.port.call(bare_alloc, 1, cell, NOTHING));
        let rust: Piece = times!(|w, _| w.rust.alloc_fast(cell, 8, 0));
        from_head(bench, format!("alloc of {} beyond the check", commas(cell)), "1.3", 16, 4, cell, port, rust);
    }
    for cell in [8, 64, 1024] {
        let port: Piece = times!(|w, _| w.port.take(3));
        let rust: Piece = times!(|w, _| w.rust.take(w.start(3)));
        from_head(bench, format!("the taking of a cell of {}", commas(cell)), "", 16, 4, cell, port, rust);
    }
    for blocks in [4, 64, 1024] {
        let port: Piece = times!(|w, _| w.port.call(port_alloc, 1, 8, NOTHING));
        let rust: Piece = times!(|w, _| w.rust.alloc_fast(8, 8, 0));
        from_head(bench, format!("alloc of 8 whole, {} blocks used", commas(blocks)), "", 12, blocks, 8, port, rust);
    }
}

fn mark(bench: &mut Bench, what: &str, f: Call) {
    let space = || {
        let mut w = used(12, 64, 8);
        w.prepare();
        w
    };
    let place = |w: &World, k: usize| w.start(63) + 8 * (k % 512);
    let port: Piece = times!(|w, k| w.port.call(f, place(w, k), 63, 0) == 2);
    let rust: Piece = times!(|w, k| w.rust.mark(place(w, k)));
    line(what, "", bench.pair(&space, what, 512, &|w| w.unmark(), port, rust));
}

/// 64 used blocks, every other one with a mark, about to be released.
fn marked() -> World {
    let mut w = used(12, 64, 8);
    w.prepare();
    (0..64).step_by(2).for_each(|b| w.mark(w.start(b)));
    w.rust.begin_release(1);
    lent::released();
    w
}

fn release(bench: &mut Bench, what: &str, f: Call) {
    let port: Piece = times!(|w, _| w.port.call(f, 1, 0, 0));
    let rust: Piece = times!(|w, _| { w.rust.release(1); 1 + lent::released() });
    line(what, "", bench.pair(&marked, what, 1, &|w| *w = marked(), port, rust));
}

/// A run of calls of one kind, beside as many calls of the Rust: what one takes. `before` makes anew what a run uses up.
fn run_of(bench: &mut Bench, what: &str, goal: &str, f: Run, space: &dyn Fn() -> World, before: &dyn Fn(&mut World), calls: &[[usize; 6]], rust: Piece) {
    let words = calls.concat();
    let answers = std::cell::RefCell::new(vec![0; 5 * calls.len()]);
    let port: Piece = &|w: &mut World, _| w.port.run(f, &words, &mut answers.borrow_mut());
    let whole: Piece = &|w: &mut World, _| rust(w, calls.len());
    let p = bench.pair(space, what, 1, before, port, whole);
    line(what, goal, Pair(p.0 / calls.len() as f64, p.1 / calls.len() as f64));
}

/// Runs of allocs and of marks: beyond the check, and whole. In a whole one the check is made once, for all of them.
fn runs(bench: &mut Bench) {
    table(&["one call of a run", "goal", "ratio", "port", "Rust"]);
    for blocks in [64, 1024] {
        for (f, part) in [(bare_run as Run, "beyond the check"), (port_run as Run, "whole")] {
            for cell in [8, 64] {
                let count = 65536 / cell.max(16);
                let calls = vec![[3, 1, cell, 8, 0, NOTHING]; count];
                let rust: Piece = times!(|w, _| w.rust.alloc_fast(cell, 8, 0));
                let what = format!("of {} allocs of {cell}, {} blocks, {part}", commas(count), commas(blocks));
                run_of(bench, &what, "1.3", f, &|| used(16, blocks, cell), &|w| w.init(blocks - 1, cell), &calls, rust);
            }
            let place = |k: usize| lent::BASE + ((blocks - 1) << 16) + 8 * k;
            let calls: Vec<[usize; 6]> = (0..2048).map(|k| [5, place(k), blocks - 1, 0, 0, 0]).collect();
            let rust: Piece = times!(|w, k| w.rust.mark(place(k)));
            let space = || {
                let mut w = used(16, blocks, 8);
                w.prepare();
                w
            };
            let what = format!("of 2,048 marks, {} blocks, {part}", commas(blocks));
            run_of(bench, &what, "0.5", f, &space, &|w| w.unmark(), &calls, rust);
        }
    }
}

/// 64 blocks full of cells of one size, one in so many of them marked, about to be released.
fn full(cell: usize, every: usize, eager: bool) -> World {
    let mut w = World::sweeping(12, 64, true, 0, eager);
    w.bind(1);
    let a_block = 4096 / cell;
    let objects: Vec<usize> =
        (0..64 * a_block).map(|k| w.alloc(1, cell, if k % a_block == 0 { k / a_block } else { NOTHING })).collect();
    w.prepare();
    objects.iter().step_by(every).for_each(|at| w.mark(*at));
    w.rust.begin_release(1);
    lent::released();
    w
}

/// All releases of a collection: the one holder's, and the shared one, which with the eager choice sweeps every block.
fn collection(bench: &mut Bench, cell: usize, eager: bool) {
    let choice = if eager { "eager" } else { "lazy" };
    let what = format!("the releases of a collection, {choice}, 64 blocks of cells of {}, every other one marked", commas(cell));
    let port: Piece = times!(|w, _| w.port.call(bare_release, 1, 0, 0) + w.port.call(bare_shared_release, 0, 0, 0));
    let rust: Piece = times!(|w, _| { w.rust.release(1); w.rust.shared_release(); 2 + lent::released() });
    line(&what, "", bench.pair(&|| full(cell, 2, eager), &what, 1, &|w| *w = full(cell, 2, eager), port, rust));
}

fn bins(bench: &mut Bench) {
    let w = World::new(16, 1, true, 0);
    (8..=65536).for_each(|size| assert_eq!(class_of(size), w.rust.bin(size), "bin of {size}"));
    let sizes: Vec<usize> = (0..1024).map(|k| 8 * (k * 40503 % 8192 + 1)).collect();
    let port: Piece = times!(|_w, k| class_of(sizes[k]));
    let rust: Piece = times!(|w, k| w.rust.bin(sizes[k]));
    line("the bin of a size", "", bench.pair(&|| World::new(16, 1, true, 0), "bins", 1024, &|_| (), port, rust));
}

fn main() {
    let mut args = std::env::args().skip(1);
    let dumps = args.next().map(|a| {
        assert_eq!(a, "--count", "usage: bench [--count DUMPS]");
        args.next().expect("usage: bench [--count DUMPS]")
    });
    for log in [12, 16] {
        for eager in [false, true] {
            history(log, true, 0, eager);
            LS.iter().for_each(|lower| history(log, false, *lower, eager));
        }
    }
    let bench = &mut Bench::new(dumps);
    println!("Ratios of {}; in brackets, or in the last two columns, {} of one.", bench.unit(), bench.unit());
    check(bench);
    chains(bench);
    rows(bench);
    init(bench);
    sweeps(bench);
    reading(bench);
    table(&["calls", "goal", "ratio", "port", "Rust"]);
    allocs(bench);
    mark(bench, "mark beyond the check", bare_mark);
    mark(bench, "mark whole, 64 blocks used", port_mark);
    release(bench, "release of 64 blocks, half of them marked, beyond the check", bare_release);
    release(bench, "the same, whole", port_release);
    for (cell, eager) in [(64, false), (64, true), (1024, false), (1024, true)] {
        collection(bench, cell, eager);
    }
    bins(bench);
    runs(bench);
}
