// The same from Rust: the exports declared and called. Build target/staticlib/libexports.a by c/build.sh, then
//   rustc --edition 2021 -L target/staticlib -o target/host_rs c/host.rs && target/host_rs
type Slice = *mut u8;

#[link(name = "exports", kind = "static")]
extern "C" {
    fn native_ms_set_up(
        base: usize, bytes: usize, blocks: usize, min: usize, max: usize, offsets: usize, unified: usize, lower: i64, eager: usize,
        words: Slice, words_len: usize, states: Slice, states_len: usize, marks: Slice, marks_len: usize,
        heap: Slice, heap_len: usize, rows: *const u8, rows_len: usize, answer: Slice, answer_len: usize,
    ) -> usize;
    fn native_ms_bind(
        base: usize, bytes: usize, blocks: usize, min: usize, max: usize, offsets: usize, unified: usize, lower: i64, eager: usize,
        words: Slice, words_len: usize, states: Slice, states_len: usize, marks: Slice, marks_len: usize,
        heap: Slice, heap_len: usize, rows: *const u8, rows_len: usize, answer: Slice, answer_len: usize, holder: usize,
    ) -> usize;
    fn native_ms_alloc(
        base: usize, bytes: usize, blocks: usize, min: usize, max: usize, offsets: usize, unified: usize, lower: i64, eager: usize,
        words: Slice, words_len: usize, states: Slice, states_len: usize, marks: Slice, marks_len: usize,
        heap: Slice, heap_len: usize, rows: *const u8, rows_len: usize, answer: Slice, answer_len: usize,
        holder: usize, size: usize, align: usize, offset: usize, offer: usize,
    ) -> usize;
}

// The parameters and slices of a call; any further numbers behind them.
macro_rules! call {
    ($f:ident, $w:ident, $s:ident, $m:ident, $h:ident, $a:ident $(, $x:expr)*) => {
        // Sound: five live vectors, none empty, none overlapping; no rows, behind a pointer that isn't null.
        unsafe {
            $f(16384, 4096, 4, 8, 8, 0, 1, 0, 0, $w.as_mut_ptr(), $w.len(), $s.as_mut_ptr(), $s.len(), $m.as_mut_ptr(), $m.len(),
               $h.as_mut_ptr(), $h.len(), [0u8; 1].as_ptr(), 0, $a.as_mut_ptr(), $a.len() $(, $x)*)
        }
    };
}

fn main() {
    let (mut words, mut states, mut marks) = (vec![0u8; 8 * (2958 + 7 * 4)], vec![0u8; 4], vec![0u8; 256]);
    let (mut heap, mut answer) = (vec![0u8; 16384], [0u8; 32]);
    println!("set-up {}", call!(native_ms_set_up, words, states, marks, heap, answer));
    println!("bind {}", call!(native_ms_bind, words, states, marks, heap, answer, 1));
    println!("alloc {}", call!(native_ms_alloc, words, states, marks, heap, answer, 1, 1024, 8, 0, 2));
    let numbers: Vec<u64> = answer.chunks(8).map(|b| u64::from_le_bytes(b.try_into().unwrap())).collect();
    println!("answer {:?}", numbers);
}
