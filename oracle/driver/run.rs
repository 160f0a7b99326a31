//! A run: what is set up, and the answer to each line.
use crate::script::{parse, Line};
use lent::{Leaves, Machine, Params};
use std::collections::BTreeSet;
use std::io::{self, Write};
use std::panic::{catch_unwind, AssertUnwindSafe};

#[derive(Default, Clone, Copy)]
pub struct Options {
    pub own_containing: bool,
    pub check_args: bool,
    pub why: bool,
}

const RUNNING: u64 = 0;
const MARKING: u64 = 1;
const RELEASING: u64 = 2;
const LISTS: u64 = 1470;
const SETS: u64 = 30;
const BINS: usize = 49;
const ABANDONED: usize = 24;
const HOLDER_BITS: u64 = 0x1fe;
const MOST_OFFSET: u64 = 65536;
const MOST_CALLS: u64 = 64;

/// The free counts of document 02's R-7, which the Rust does not keep. After a call each is the
/// length of its block's chain, counted in the Rust's memory; a `T` line may put any number there.
struct Counts {
    words: Vec<u64>,
    /// A call was made since they were counted.
    due: bool,
}

/// A good set-up: the Rust for it, and what document 01 adds (phase, bound, released).
struct Space {
    params: Params,
    machine: Box<dyn Machine>,
    leaves: Box<dyn Leaves>,
    phase: u64,
    bound: u64,
    released: u64,
    counts: Counts,
}

pub struct Run {
    options: Options,
    space: Option<Space>,
    /// A `z` line that waits for calls: how many it takes, and those that it has.
    group: Option<(u64, Vec<Line>)>,
}

/// `Err` is a panic of the Rust.
type Answer = Result<String, ()>;

fn ok(text: impl std::fmt::Display) -> Answer {
    Ok(format!("ok {text}"))
}

fn try_rust<R>(f: impl FnOnce() -> R) -> Result<R, ()> {
    catch_unwind(AssertUnwindSafe(f)).map_err(drop)
}

/// `None` is `bad`, and ends the run: false.
fn tell(answer: Option<Answer>, out: &mut impl Write) -> io::Result<bool> {
    match answer {
        None => writeln!(out, "bad")?,
        Some(ref answer) => writeln!(out, "{}", answer.as_deref().unwrap_or("panic"))?,
    }
    Ok(answer.is_some())
}

impl Run {
    pub fn new(options: Options) -> Run {
        Run { options, space: None, group: None }
    }

    /// Whether the next line belongs to a `z`, whatever it is.
    pub fn gathers(&self) -> bool {
        self.group.is_some()
    }

    /// Answer one line; false ends the run.
    pub fn line(&mut self, line: &[u8], out: &mut impl Write) -> io::Result<bool> {
        if let Some(group) = self.group.take() {
            return self.gather(group, parse(line), out);
        }
        let answer = match parse(line) {
            None => None,
            Some(Line::OffSetup) => {
                self.space = None;
                Some(Ok("refused 1".into()))
            }
            Some(Line::Setup(params, seed)) => Some(self.setup(params, seed)),
            Some(Line::Many(count)) if self.space.is_some() && (1..=MOST_CALLS).contains(&count) => {
                self.group = Some((count, Vec::new()));
                return Ok(true);
            }
            Some(line) => match &mut self.space {
                None => None,
                Some(space) => space.answer(line, self.options),
            },
        };
        tell(answer, out)
    }

    /// A line of a `z`. With its last one all are made and answered, as single calls.
    fn gather(
        &mut self,
        (count, mut calls): (u64, Vec<Line>),
        line: Option<Line>,
        out: &mut impl Write,
    ) -> io::Result<bool> {
        let Some(call) = line.and_then(Line::as_call) else { return tell(None, out) };
        calls.push(call);
        if (calls.len() as u64) < count {
            self.group = Some((count, calls));
            return Ok(true);
        }
        writeln!(out, "ok")?;
        let space = self.space.as_mut().expect("a `z` line is bad without one");
        for call in calls {
            tell(space.answer(call, self.options), out)?;
        }
        Ok(true)
    }

    /// The input ended: `bad` if a `z` still waits.
    pub fn end(&mut self, out: &mut impl Write) -> io::Result<()> {
        if self.group.take().is_some() {
            tell(None, out)?;
        }
        Ok(())
    }

    fn setup(&mut self, params: Params, seed: u64) -> Answer {
        self.space = None;
        lent::lend(params, self.options.own_containing);
        lent::heap(|heap| lent::fill_from_seed(heap, seed));
        let machine = match (params.log_block_bytes, params.eager) {
            (12, false) => ms12::machine::machine(&params),
            (13, false) => ms13::machine::machine(&params),
            (14, false) => ms14::machine::machine(&params),
            (15, false) => ms15::machine::machine(&params),
            (_, false) => ms16::machine::machine(&params),
            (12, true) => eager12::machine::machine(&params),
            (13, true) => eager13::machine::machine(&params),
            (14, true) => eager14::machine::machine(&params),
            (15, true) => eager15::machine::machine(&params),
            (_, true) => eager16::machine::machine(&params),
        };
        // Leaves don't depend on the block in document 01; in the Rust its size bounds the bins.
        let leaves = ms16::machine::leaves(&params);
        let (phase, bound, released) = (RUNNING, 0, 0);
        let counts = Counts { words: vec![0; params.blocks], due: false };
        self.space = Some(Space { params, machine, leaves, phase, bound, released, counts });
        Ok("ok".into())
    }
}

impl Space {
    /// `None` is `bad`.
    fn answer(&mut self, line: Line, options: Options) -> Option<Answer> {
        match line {
            Line::Bind(_) | Line::Destroy(_) | Line::Alloc { .. } | Line::Prepare => self.counts.due = true,
            Line::Mark(..) | Line::Release(_) | Line::Shared => self.counts.due = true,
            _ => self.count(),
        }
        lent::begin(None, 0);
        let answer = match line {
            Line::Setup(..) | Line::OffSetup => unreachable!("answered by the run"),
            Line::Bind(h) => self.bind(h),
            Line::Destroy(h) => self.destroy(h),
            Line::Alloc { holder, size, align, offset, offer } => {
                self.alloc(options, holder, [size, align, offset], offer)
            }
            Line::Prepare => self.prepare(),
            Line::Mark(place, block) => self.mark(place, block),
            Line::Release(h) => self.release(1 << (h % 64), |m| m.release(h)),
            Line::Shared => self.release(1, |m| m.shared_release()),
            Line::Pages(set) if set < SETS => {
                try_rust(|| self.machine.pages_used(set as usize)).and_then(ok)
            }
            Line::FreeCells(bin) => ok(self.free_cells(bin)),
            Line::Bin(size) => ok(self.bin(size)),
            Line::BinOfWords(words) => ok(words.checked_mul(8).map_or("-".into(), |size| self.bin(size))),
            Line::Raise(size, align) => return self.raise(size, align),
            Line::Align(region, align, offset) => return self.align(region, align, offset),
            Line::Dump => Ok(self.dump()),
            Line::Heap => Ok(lent::heap(|heap| lent::hex(heap))),
            line => {
                self.load(line)?;
                Ok("ok".into())
            }
        };
        if answer.is_err() {
            self.machine.after_panic();
        }
        Some(answer)
    }

    fn bind(&mut self, h: u64) -> Answer {
        try_rust(|| self.machine.bind(h))?;
        self.bound |= 1 << h;
        Ok("ok".into())
    }

    /// How many blocks went over to abandoned.
    fn destroy(&mut self, h: u64) -> Answer {
        let before = self.abandoned();
        try_rust(|| self.machine.destroy(h))?;
        self.bound &= !(1 << h);
        ok(self.went_over(&before))
    }

    /// The blocks on the abandoned lists, by address.
    fn abandoned(&self) -> BTreeSet<u64> {
        let first_list = 1 + BINS * ABANDONED;
        self.blocks_on(first_list..first_list + 3 * BINS)
    }

    /// The blocks on these lists, by address.
    fn blocks_on(&self, lists: impl Iterator<Item = usize>) -> BTreeSet<u64> {
        let mut met = BTreeSet::new();
        for number in lists {
            let mut link = self.machine.list(number).0;
            while let Some(block) = self.block_at(link) {
                // A block met before ends the walk: a ring, which loaded tables may have.
                if !met.insert(link) {
                    break;
                }
                link = lent::entry(lent::NEXT, block);
            }
        }
        met
    }

    /// The block that starts at this link.
    fn block_at(&self, link: u64) -> Option<usize> {
        let at = (link as usize).checked_sub(self.params.base)?;
        let block = at / self.params.block_bytes();
        (at % self.params.block_bytes() == 0 && block < self.params.blocks).then_some(block)
    }

    /// The blocks on abandoned lists that were on none before. The Rust counts none of this.
    fn went_over(&self, before: &BTreeSet<u64>) -> usize {
        self.abandoned().difference(before).count()
    }

    fn alloc(&mut self, options: Options, h: u64, request: [u64; 3], offer: Option<u64>) -> Answer {
        let [size, align, offset] = request.map(|n| n as usize);
        let address = try_rust(|| {
            if options.check_args {
                self.leaves.check_args(size, align, offset);
            }
            lent::begin(offer.map(|b| self.block_start(b)), 0);
            self.machine.alloc(h, size, align, offset)
        })?;
        let call = lent::call();
        if address == 0 {
            return Ok(format!("refused 9 {}", call.swept));
        }
        let cell_size = call.zeroed.1;
        ok(format_args!("{address} {cell_size} {} {}", call.offer_used as u8, call.swept))
    }

    fn block_start(&self, block: u64) -> usize {
        let bytes = self.params.block_bytes();
        let offset = (block as usize).checked_mul(bytes).expect("no such block");
        self.params.base.checked_add(offset).expect("no such block")
    }

    fn prepare(&mut self) -> Answer {
        try_rust(|| self.machine.prepare())?;
        self.phase = MARKING;
        Ok("ok".into())
    }

    fn mark(&mut self, place: u64, block: u64) -> Answer {
        let new = try_rust(|| {
            lent::begin(None, self.block_start(block));
            self.machine.mark(place as usize)
        })?;
        ok(new as u8)
    }

    /// A release of a holder or of the shared part. The first enters Releasing; the merge, which
    /// the Rust makes in the last, ends it. The answer: blocks released, merged, swept.
    fn release(&mut self, bit: u64, call: impl FnOnce(&mut dyn Machine)) -> Answer {
        let before = self.abandoned();
        if self.phase == MARKING {
            let due = self.bound.count_ones() as usize;
            try_rust(|| self.machine.begin_release(due))?;
            self.phase = RELEASING;
        }
        try_rust(|| call(self.machine.as_mut()))?;
        self.released |= bit;
        if lent::call().merged {
            self.phase = RUNNING;
            self.released = 0;
            try_rust(|| self.machine.end_of_gc())?;
        }
        let call = lent::call();
        ok(format_args!("{} {} {}", call.released, self.went_over(&before), call.swept))
    }

    /// Counts the chains, if a call was made since. Where one does not come to 0 the word stays.
    fn count(&mut self) {
        if !std::mem::take(&mut self.counts.due) {
            return;
        }
        for block in 0..self.params.blocks {
            if let Some(cells) = self.chain_length(block) {
                self.counts.words[block] = cells;
            }
        }
    }

    /// The length of a block's free chain, if it runs through whole cells of the block to 0 and
    /// has no more of them than the block; 0 for a block that is Unallocated.
    fn chain_length(&self, block: usize) -> Option<u64> {
        if lent::entry(lent::STATE, block) == 0 {
            return Some(0);
        }
        let size = lent::entry(lent::SIZE, block) as usize;
        let whole = self.params.block_bytes().checked_div(size)?;
        let first = block * self.params.block_bytes();
        let mut link = lent::entry(lent::FREE, block);
        lent::heap(|heap| {
            for cells in 0..=whole {
                if link == 0 {
                    return Some(cells as u64);
                }
                let at = (link as usize).checked_sub(self.params.base + first)?;
                if at % size != 0 || at / size >= whole {
                    return None;
                }
                link = u64::from_le_bytes(heap[first + at..][..8].try_into().ok()?);
            }
            None
        })
    }

    /// The free cells of a bin: the counts of the blocks on its lists, of each set.
    fn free_cells(&self, bin: u64) -> u64 {
        if bin >= BINS as u64 {
            return 0;
        }
        let lists = (0..SETS as usize).map(|set| 1 + BINS * set + bin as usize);
        let blocks = self.blocks_on(lists);
        blocks.iter().filter_map(|link| self.block_at(*link)).map(|b| self.counts.words[b]).sum()
    }

    /// The bin, or `-` where the Rust's assertion says that there is none.
    fn bin(&self, size: u64) -> String {
        let bin = try_rust(|| self.leaves.bin(size as usize));
        bin.map_or("-".into(), |b| b.to_string())
    }

    fn raise(&self, size: u64, align: u64) -> Option<Answer> {
        if !self.request_is_good(size, align, 0) {
            return None;
        }
        let (size, align) = (size as usize, align as usize);
        let answer = try_rust(|| {
            let (bin, cell) = self.leaves.class(size, align);
            format!("{} {bin} {cell}", self.leaves.raised(size, align))
        });
        Some(ok(answer.unwrap_or("-".into())))
    }

    fn align(&self, region: u64, align: u64, offset: u64) -> Option<Answer> {
        let region_is_good = region != 0 && region % 8 == 0 && region < 1 << 47;
        if !region_is_good || !self.request_is_good(0, align, offset) {
            return None;
        }
        let (region, align, offset) = (region as usize, align as usize, offset as usize);
        Some(try_rust(|| self.leaves.aligned(region, align, offset)).and_then(ok))
    }

    /// Document 01's BadRequest.
    fn request_is_good(&self, size: u64, align: u64, offset: u64) -> bool {
        let (min, max) = (self.params.min as u64, self.params.max as u64);
        size % min == 0
            && offset % min == 0
            && offset <= MOST_OFFSET
            && align.is_power_of_two()
            && (min..=max).contains(&align)
    }

    /// Lines that put numbers into what is lent, as they are.
    fn load(&mut self, line: Line) -> Option<()> {
        match line {
            Line::Write(address, value) => self.write(address, value),
            Line::Table([block, state, words @ ..], count) => self.table(block, state, words, count),
            Line::List(list, first, last) if (1..=LISTS).contains(&list) => {
                self.machine.set_list(list as usize, first, last);
                Some(())
            }
            Line::Phase(phase, bound, released) => self.set_phase(phase, bound, released),
            Line::Marks(bytes) if bytes.len() == self.params.mark_bytes() => {
                lent::marks(|marks| marks.copy_from_slice(&bytes));
                Some(())
            }
            _ => None,
        }
    }

    fn write(&mut self, address: u64, value: u64) -> Option<()> {
        let at = (address as usize).checked_sub(self.params.base)?;
        lent::heap(|heap| {
            let to = heap.get_mut(at..at.checked_add(8)?)?;
            to.copy_from_slice(&value.to_le_bytes());
            Some(())
        })
    }

    fn table(&mut self, block: u64, state: u64, words: [u64; 6], count: Option<u64>) -> Option<()> {
        if block >= self.params.blocks as u64 || state > 255 {
            return None;
        }
        lent::set_entry(lent::STATE, block as usize, state);
        for (i, word) in words.iter().enumerate() {
            lent::set_entry(lent::NEXT + i, block as usize, *word);
        }
        if let Some(count) = count {
            self.counts.words[block as usize] = count;
        }
        Some(())
    }

    /// In Releasing the Rust has a count of the packets still due and a shared packet that waits.
    fn set_phase(&mut self, phase: u64, bound: u64, released: u64) -> Option<()> {
        if bound & !HOLDER_BITS != 0 || released & !(HOLDER_BITS | 1) != 0 {
            return None;
        }
        (self.phase, self.bound, self.released) = (phase, bound, released);
        self.machine.drop_packets();
        if phase == RELEASING {
            let due = (bound.count_ones() + 1).saturating_sub(released.count_ones());
            self.machine.begin_release(due.saturating_sub(1) as usize);
            if released & 1 != 0 {
                self.machine.drop_packets();
            }
        }
        Some(())
    }

    fn dump(&self) -> String {
        let mut text =
            format!("phase {} bound {} released {}\n", self.phase, self.bound, self.released);
        for block in 0..self.params.blocks {
            text += &format!("block {block}");
            for table in lent::STATE..lent::MARKS {
                text += &format!(" {}", lent::entry(table, block));
            }
            text += &format!(" {}\n", self.counts.words[block]);
        }
        for number in 1..=LISTS {
            let (first, last) = self.machine.list(number as usize);
            if first != 0 || last != 0 {
                text += &format!("list {number} {first} {last}\n");
            }
        }
        text += &format!("marks {}\n", lent::marks(|marks| lent::hex(marks)));
        text += &format!("heap {:016x}\nend", lent::heap(|heap| lent::fnv1a(heap)));
        text
    }
}
