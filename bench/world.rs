//! One space twice: lent to the given Rust at its real address, and lent to the port as slices. Addresses are the same numbers in
//! both, so that tables, heap and answers can be compared byte by byte.
use crate::port::*;
use lent::{Bench, BASE, META};
use std::slice::from_raw_parts_mut;

const HEAP: usize = 1 << 26;
const PORT_HEAP: usize = 1 << 43;
const MARGIN: usize = 4096;

/// No block: an alloc is offered nothing.
pub const NOTHING: usize = usize::MAX;

pub struct World {
    pub rust: Box<dyn Bench>,
    pub port: Port,
    log: usize,
}

pub struct Port {
    pub p: Params,
    pub words: Vec<usize>,
    pub states: Vec<u8>,
    pub marks: Vec<u8>,
    pub heap: &'static mut [u8],
}

/// Fresh zeros at a fixed place, in whole pages, whatever stood there.
fn map(at: usize, bytes: usize) {
    extern "C" {
        fn mmap(at: usize, bytes: usize, prot: i32, flags: i32, file: i32, from: i64) -> usize;
    }
    let (read_write, private_fixed_anonymous) = (3, 0x32);
    let (from, end) = (at & !4095, (at + bytes + 4095) & !4095);
    let got = unsafe { mmap(from, end - from, read_write, private_fixed_anonymous, -1, 0) };
    assert_eq!(got, from, "no memory at {from:#x}");
}

fn table(t: usize, log_region: usize, log_bits: usize, data: usize) -> usize {
    META + lent::table_start(t) + lent::table_offset(log_region, log_bits, data)
}

impl World {
    /// A space that is set up, with no holder bound.
    pub fn new(log: usize, blocks: usize, unified: bool, lower: isize) -> World {
        World::sweeping(log, blocks, unified, lower, false)
    }

    /// The same, with or without the choice of eager sweeping.
    pub fn sweeping(log: usize, blocks: usize, unified: bool, lower: isize, eager: bool) -> World {
        map(BASE, HEAP);
        map(PORT_HEAP, HEAP);
        map(table(lent::MARKS, 3, 0, BASE) - MARGIN, HEAP / 64 + 2 * MARGIN);
        for t in lent::STATE..lent::MARKS {
            map(table(t, log, if t == lent::STATE { 3 } else { 6 }, BASE), 8 * 1024);
        }
        let bytes = 1 << log;
        let (min, max, log_block_bytes) = (8, 8, log as u32);
        let setup =
            lent::Params { base: BASE, log_block_bytes, blocks, min, max, use_offset: false, unified, lower_bound: lower, eager };
        lent::lend(setup, false);
        let rust = match (log, eager) {
            (12, false) => ms12::machine::bench(&setup),
            (_, false) => ms16::machine::bench(&setup),
            (12, true) => eager12::machine::bench(&setup),
            (_, true) => eager16::machine::bench(&setup),
        };
        let p = Params { base: BASE, bytes, blocks, min, max, offsets: false, unified, lower: lower as i64, eager, rows: NO_ROWS, count: 0 };
        let port = Port {
            p,
            words: vec![0; 2958 + 7 * blocks],
            states: vec![0; blocks],
            marks: vec![0; blocks * bytes / 64],
            heap: unsafe { from_raw_parts_mut(PORT_HEAP as *mut u8, blocks * bytes) },
        };
        World { rust, port, log }
    }

    pub fn start(&self, block: usize) -> usize {
        BASE + (block << self.log)
    }

    fn rust_word(&self, t: usize, block: usize) -> usize {
        unsafe { *(table(t, self.log, 6, self.start(block)) as *const usize) }
    }

    fn rust_state(&self, block: usize) -> *mut u8 {
        table(lent::STATE, self.log, 3, self.start(block)) as *mut u8
    }

    /// How many cells the block's chain has in the Rust's heap; the Rust keeps no count.
    fn rust_chain(&self, block: usize) -> usize {
        let mut cell = self.rust_word(lent::FREE, block);
        let mut count = 0;
        while cell != 0 {
            cell = unsafe { *(cell as *const usize) };
            count += 1;
        }
        count
    }

    fn rust_marks(&self) -> &'static mut [u8] {
        let at = table(lent::MARKS, 3, 0, BASE);
        unsafe { from_raw_parts_mut(at as *mut u8, self.port.marks.len()) }
    }

    /// Marks without a call: the bit of a place, on both sides. A place outside the heap has none.
    pub fn set_mark(&mut self, place: usize) -> bool {
        let inside = place >= BASE && place < BASE + self.port.heap.len();
        if inside {
            let at = (place - BASE) / 8;
            self.port.marks[at / 8] |= 1 << (at % 8);
            self.rust_marks()[at / 8] |= 1 << (at % 8);
        }
        inside
    }

    /// No mark, and every occupied block Unmarked, as after `prepare`.
    pub fn unmark(&mut self) {
        self.port.marks.fill(0);
        self.rust_marks().fill(0);
        for b in 0..self.port.p.blocks {
            if self.port.states[b] != 0 {
                self.port.states[b] = 255;
                unsafe { *self.rust_state(b) = 255 };
            }
        }
    }

    pub fn bind(&mut self, holder: usize) {
        self.rust.bind(holder as u64);
        assert_eq!(self.port.call(port_bind, holder, 0, 0), 1, "bind");
    }

    /// An alloc by both, offered a block. The address, 0 where there is no cell.
    pub fn alloc(&mut self, holder: usize, size: usize, offer: usize) -> usize {
        let start = (offer != NOTHING).then(|| self.start(offer));
        lent::begin(start, 0);
        let at = self.rust.alloc(holder as u64, size, 8, 0);
        assert_eq!(at, self.port.call(port_alloc, holder, size, offer), "alloc of {size}");
        at
    }

    pub fn prepare(&mut self) {
        self.rust.prepare();
        assert_eq!(self.port.call(port_prepare, 0, 0, 0), 1, "prepare");
    }

    pub fn mark(&mut self, place: usize) {
        let block = (place - BASE) >> self.log;
        assert_eq!(self.rust.mark(place), self.port.call(port_mark, place, block, 0) == 2, "mark of {place:#x}");
    }

    /// The releases of all holders, of which there are so many, and then the shared one.
    pub fn release(&mut self, holders: usize) {
        self.rust.begin_release(holders);
        for h in 1..=holders {
            lent::released();
            self.rust.release(h as u64);
            assert_eq!(1 + lent::released(), self.port.call(port_release, h, 0, 0) as u64, "release of {h}");
            self.same("release");
        }
        self.rust.shared_release();
        assert_eq!(1 + lent::released(), self.port.call(port_shared_release, 0, 0, 0) as u64, "shared release");
        self.rust.end_of_gc();
    }

    pub fn init(&mut self, block: usize, cell: usize) {
        self.rust.init(self.start(block), cell);
        self.port.init(block, cell);
    }

    /// Tables, lists, marks and heap are the same on both sides.
    pub fn same(&self, what: &str) {
        let n = self.port.p.blocks;
        for b in 0..n {
            assert_eq!(self.port.states[b], unsafe { *self.rust_state(b) }, "{what}: state of {b}");
            for t in lent::NEXT..lent::MARKS {
                let mut word = self.rust_word(t, b);
                if t == lent::LIST {
                    word = self.rust.number(word);
                }
                assert_eq!(self.port.words[2958 + (t - lent::NEXT) * n + b], word, "{what}: table {t} at {b}");
            }
            assert_eq!(self.port.words[2958 + 6 * n + b], self.rust_chain(b), "{what}: count of {b}");
        }
        for list in 0..1470 {
            let (first, last) = self.rust.list(1 + list);
            assert_eq!(self.port.words[list] as u64, first, "{what}: first of {list}");
            assert_eq!(self.port.words[1470 + list] as u64, last, "{what}: last of {list}");
        }
        assert!(self.port.marks == self.rust_marks(), "{what}: marks");
        let heap = unsafe { from_raw_parts_mut(BASE as *mut u8, self.port.heap.len()) };
        assert!(self.port.heap == heap, "{what}: heap and chains");
    }
}
