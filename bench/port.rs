//! The exports of port.txt, and calls of them on what is lent to the port. `bare_` ones are those of a copy whose calls don't
//! test what is lent.
use crate::world::Port;

/// A row of a class table, in words.
#[repr(C)]
#[derive(Clone, Copy)]
pub struct Row {
    pub from: usize,
    pub to: usize,
    pub cell: usize,
}

#[repr(C)]
#[derive(Clone, Copy)]
pub struct Params {
    pub base: usize,
    pub bytes: usize,
    pub blocks: usize,
    pub min: usize,
    pub max: usize,
    pub offsets: bool,
    pub unified: bool,
    pub lower: i64,
    pub eager: bool,
    pub rows: [Row; 48],
    pub count: usize,
}

pub const NO_ROWS: [Row; 48] = [Row { from: 0, to: 0, cell: 0 }; 48];

type P = *const Params;
type W = *mut usize;
type B = *mut u8;
type N = usize;
pub type Reading = unsafe extern "C" fn(P, B, N, N, N) -> bool;
pub type Call = unsafe extern "C" fn(P, W, N, B, N, B, N, B, N, N, N, N) -> N;
pub type Run = unsafe extern "C" fn(P, W, N, B, N, B, N, B, N, *const usize, N, W, N) -> N;

// A slice is its place and its length.
extern "C" {
    pub fn port_classes(p: P) -> N;
    fn port_tables(p: P, w: W, wn: N, st: B, stn: N, m: B, mn: N, h: B, hn: N) -> bool;
    fn port_chains(p: P, w: W, wn: N, st: B, stn: N, m: B, mn: N, h: B, hn: N) -> bool;
    fn port_init(p: P, w: W, wn: N, st: B, stn: N, h: B, hn: N, b: N, s: N);
    fn port_sweep(p: P, w: W, wn: N, m: B, mn: N, h: B, hn: N, b: N);
    fn port_take(p: P, w: W, wn: N, h: B, hn: N, b: N) -> N;
    pub fn port_any_marked(p: P, m: B, mn: N, cell: N, s: N) -> bool;
    pub fn port_single_bits(p: P, m: B, mn: N, cell: N, s: N) -> bool;
    pub fn port_bin(size: N) -> N;
    pub fn port_run(p: P, w: W, wn: N, st: B, stn: N, m: B, mn: N, h: B, hn: N, calls: *const usize, cn: N, answers: W, an: N) -> N;
    pub fn bare_run(p: P, w: W, wn: N, st: B, stn: N, m: B, mn: N, h: B, hn: N, calls: *const usize, cn: N, answers: W, an: N) -> N;
}

macro_rules! calls {
    ($($name:ident)*) => { extern "C" {
        $(pub fn $name(p: P, w: W, wn: N, st: B, stn: N, m: B, mn: N, h: B, hn: N, x: N, y: N, z: N) -> N;)*
    } };
}
calls! { port_bind port_prepare port_alloc bare_alloc port_mark bare_mark port_release bare_release port_shared_release bare_shared_release }

/// `call!(self, f, (parts) more)`: the parts lent as slices, and then the numbers.
macro_rules! call {
    ($s:ident, $f:expr, ($($part:ident)*) $($more:expr),*) => {
        unsafe { call!(@ $s, $f, [&$s.p] ($($part)*) $($more),*) }
    };
    (@ $s:ident, $f:expr, [$($done:expr),*] ($part:ident $($rest:ident)*) $($more:expr),*) => {
        call!(@ $s, $f, [$($done,)* $s.$part.as_mut_ptr(), $s.$part.len()] ($($rest)*) $($more),*)
    };
    (@ $s:ident, $f:expr, [$($done:expr),*] () $($more:expr),*) => { $f($($done,)* $($more),*) };
}

impl Port {
    pub fn tables(&mut self) -> bool {
        call!(self, port_tables, (words states marks heap))
    }
    pub fn chains(&mut self) -> bool {
        call!(self, port_chains, (words states marks heap))
    }
    pub fn init(&mut self, block: usize, cell: usize) {
        call!(self, port_init, (words states heap) block, cell)
    }
    pub fn sweep(&mut self, block: usize) {
        call!(self, port_sweep, (words marks heap) block)
    }
    pub fn take(&mut self, block: usize) -> usize {
        call!(self, port_take, (words heap) block)
    }
    pub fn reading(&mut self, f: Reading, cell: usize, size: usize) -> bool {
        call!(self, f, (marks) cell, size)
    }
    /// A public call, with its numbers.
    pub fn call(&mut self, f: Call, x: usize, y: usize, z: usize) -> usize {
        call!(self, f, (words states marks heap) x, y, z)
    }
    /// A run of calls; the sum of their first values.
    pub fn run(&mut self, f: Run, calls: &[usize], answers: &mut [usize]) -> usize {
        let done = call!(self, f, (words states marks heap) calls.as_ptr(), calls.len(), answers.as_mut_ptr(), answers.len());
        assert_eq!(done, 1, "run");
        answers.chunks_exact(5).fold(0, |sum, answer| sum.wrapping_add(answer[1]))
    }
}
