//! The form of script lines. What isn't of a form here is `bad`.
use lent::Params;

pub enum Line {
    Setup(Params, u64),
    /// A set-up of the right form whose parameters are off.
    OffSetup,
    Bind(u64),
    Destroy(u64),
    Alloc { holder: u64, size: u64, align: u64, offset: u64, offer: Option<u64> },
    Prepare,
    Mark(u64, u64),
    Release(u64),
    Shared,
    Pages(u64),
    FreeCells(u64),
    Bin(u64),
    BinOfWords(u64),
    Raise(u64, u64),
    Align(u64, u64, u64),
    Write(u64, u64),
    /// A block, its state and its words; the free count, which needs not be given.
    Table([u64; 8], Option<u64>),
    List(u64, u64, u64),
    Phase(u64, u64, u64),
    Marks(Vec<u8>),
    Dump,
    Heap,
    /// A `z` line: so many calls follow.
    Many(u64),
}

impl Line {
    /// The line as one of a `z`: a call, in which 2^64 - 1 offers none; else `None`.
    pub fn as_call(self) -> Option<Line> {
        match self {
            Line::Alloc { holder, size, align, offset, offer } => {
                let offer = offer.filter(|block| *block != u64::MAX);
                Some(Line::Alloc { holder, size, align, offset, offer })
            }
            Line::Bind(_) | Line::Destroy(_) | Line::Prepare | Line::Mark(..) => Some(self),
            Line::Release(_) | Line::Shared => Some(self),
            _ => None,
        }
    }
}

/// The line's form, without regard to what is set up; `None` is `bad`.
pub fn parse(line: &[u8]) -> Option<Line> {
    let line = std::str::from_utf8(line).ok()?;
    let words: Vec<&str> = line.split(' ').collect();
    let (name, rest) = words.split_first()?;
    match (*name, rest) {
        ("setup", _) => setup(rest),
        ("a", [h, s, a, o, b]) => Some(Line::Alloc {
            holder: number(h)?,
            size: number(s)?,
            align: number(a)?,
            offset: number(o)?,
            offer: if *b == "-" { None } else { Some(number(b)?) },
        }),
        ("K", [hex]) => Some(Line::Marks(bytes(hex)?)),
        _ => plain(name, &rest.iter().map(|w| number(w)).collect::<Option<Vec<u64>>>()?),
    }
}

/// Lines whose words are all plain numbers.
fn plain(name: &str, n: &[u64]) -> Option<Line> {
    Some(match (name, n) {
        ("b", [h]) => Line::Bind(*h),
        ("d", [h]) => Line::Destroy(*h),
        ("p", []) => Line::Prepare,
        ("m", [place, block]) => Line::Mark(*place, *block),
        ("r", [h]) => Line::Release(*h),
        ("s", []) => Line::Shared,
        ("u", [set]) => Line::Pages(*set),
        ("v", [bin]) => Line::FreeCells(*bin),
        ("n", [size]) => Line::Bin(*size),
        ("t", [words]) => Line::BinOfWords(*words),
        ("q", [size, align]) => Line::Raise(*size, *align),
        ("g", [region, align, offset]) => Line::Align(*region, *align, *offset),
        ("w", [address, value]) => Line::Write(*address, *value),
        ("T", [row @ .., count]) if n.len() == 9 => Line::Table(row.try_into().ok()?, Some(*count)),
        ("T", _) => Line::Table(n.try_into().ok()?, None),
        ("F", [list, first, last]) => Line::List(*list, *first, *last),
        ("G", [phase, bound, released]) => Line::Phase(*phase, *bound, *released),
        ("D", []) => Line::Dump,
        ("H", []) => Line::Heap,
        ("z", [count]) => Line::Many(*count),
        _ => return None,
    })
}

/// Decimal, no needless zero, below 2^64.
fn number(word: &str) -> Option<u64> {
    let digits = !word.is_empty() && word.bytes().all(|b| b.is_ascii_digit());
    if !digits || (word.len() > 1 && word.starts_with('0')) {
        return None;
    }
    word.parse().ok()
}

/// A number that may have a minus sign, in a signed word; no `-0`.
fn signed(word: &str) -> Option<i64> {
    let size = number(word.strip_prefix('-').unwrap_or(word))?;
    if size == 0 && word.starts_with('-') {
        return None;
    }
    word.parse().ok()
}

fn flag(word: &str) -> Option<bool> {
    match word {
        "0" => Some(false),
        "1" => Some(true),
        _ => None,
    }
}

/// Lower-case, two digits a byte.
fn bytes(hex: &str) -> Option<Vec<u8>> {
    let digit = |b: u8| match b {
        b'0'..=b'9' => Some(b - b'0'),
        b'a'..=b'f' => Some(b - b'a' + 10),
        _ => None,
    };
    if hex.len() % 2 != 0 {
        return None;
    }
    hex.as_bytes().chunks(2).map(|c| Some(digit(c[0])? << 4 | digit(c[1])?)).collect()
}

fn setup(words: &[&str]) -> Option<Line> {
    let [base, log, blocks, min, max, use_offset, unified, lower, seed, eager @ ..] = words else {
        return None;
    };
    let eager = match eager {
        [] => false,
        [word] => flag(word)?,
        _ => return None,
    };
    let (base, log, blocks) = (number(base)?, number(log)?, number(blocks)?);
    let (min, max) = (number(min)?, number(max)?);
    let (use_offset, unified) = (flag(use_offset)?, flag(unified)?);
    let (lower, seed) = (signed(lower)?, number(seed)?);
    if log > 63 {
        return None;
    }
    let good = heap_is_good(base, log, blocks)
        && (min == 4 || min == 8)
        && (max.is_power_of_two() && max >= min && max <= 64)
        && (lower % 8 == 0 && (-64..=64).contains(&lower))
        && (!unified || lower == 0);
    if !good {
        return Some(Line::OffSetup);
    }
    let params = Params {
        base: base as usize,
        log_block_bytes: log as u32,
        blocks: blocks as usize,
        min: min as usize,
        max: max as usize,
        use_offset,
        unified,
        lower_bound: lower as isize,
        eager,
    };
    Some(Line::Setup(params, seed))
}

fn heap_is_good(base: u64, log: u64, blocks: u64) -> bool {
    (12..=16).contains(&log)
        && (1..=1024).contains(&blocks)
        && base != 0
        && base % (1 << log) == 0
        && base <= (1 << 47) - (blocks << log)
}
