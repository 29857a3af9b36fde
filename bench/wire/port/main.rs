//! Measures the proved code: the exports of bench/libraries/bench_wire.

#[path = "../loads.rs"]
mod loads;

unsafe extern "C" {
    fn bench_write_uints(numbers: *const u64, count: usize, reps: u32) -> usize;
    fn bench_write_texts(data: *const u8, count: usize, reps: u32) -> usize;
    fn bench_read_heads(data: *const u8, count: usize, reps: u32) -> u64;
}

fn main() {
    // SAFETY: each export reads a slice, which it is given as a pointer and a length, and keeps nothing of it.
    loads::main(&loads::Calls {
        write_uints: |numbers, reps| unsafe {
            bench_write_uints(numbers.as_ptr(), numbers.len(), reps)
        },
        write_texts: |data, reps| unsafe { bench_write_texts(data.as_ptr(), data.len(), reps) },
        read_heads: |data, reps| unsafe { bench_read_heads(data.as_ptr(), data.len(), reps) },
    });
}
