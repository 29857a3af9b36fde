//! Measures the proved code: the exports of bench_encode and bench_decode in bench/libraries.

#[path = "../loads.rs"]
mod loads;

unsafe extern "C" {
    fn bench_encode_numbers(numbers: *const u32, count: usize, reps: u32) -> usize;
    fn bench_encode_counted(numbers: *const u32, count: usize, reps: u32) -> usize;
    fn bench_encode_uncounted(numbers: *const u32, count: usize, reps: u32) -> usize;
    fn bench_encode_tuple(numbers: *const u32, count: usize, reps: u32) -> usize;
    fn bench_encode_values(numbers: *const u32, count: usize, reps: u32) -> usize;
    fn bench_encode_wire(numbers: *const u32, count: usize, reps: u32) -> usize;
    fn bench_encode_rows(numbers: *const u32, count: usize, reps: u32) -> usize;
    fn bench_encode_texts(data: *const u8, count: usize, reps: u32) -> usize;
    fn bench_encode_entries(data: *const u8, count: usize, reps: u32) -> usize;
    fn bench_encode_bytes(data: *const u8, count: usize, reps: u32) -> usize;
    fn bench_encode_value(data: *const u8, count: usize, reps: u32) -> usize;
    fn bench_decode_numbers(data: *const u8, count: usize, reps: u32) -> usize;
    fn bench_decode_rows(data: *const u8, count: usize, reps: u32) -> usize;
    fn bench_decode_texts(data: *const u8, count: usize, reps: u32) -> usize;
    fn bench_decode_lent_texts(data: *const u8, count: usize, reps: u32) -> usize;
    fn bench_decode_entries(data: *const u8, count: usize, reps: u32) -> usize;
    fn bench_decode_lent_entries(data: *const u8, count: usize, reps: u32) -> usize;
    fn bench_decode_strict_numbers(data: *const u8, count: usize, reps: u32) -> usize;
    fn bench_decode_strict_rows(data: *const u8, count: usize, reps: u32) -> usize;
    fn bench_decode_strict_texts(data: *const u8, count: usize, reps: u32) -> usize;
    fn bench_decode_strict_lent_texts(data: *const u8, count: usize, reps: u32) -> usize;
    fn bench_decode_strict_entries(data: *const u8, count: usize, reps: u32) -> usize;
    fn bench_decode_strict_lent_entries(data: *const u8, count: usize, reps: u32) -> usize;
    fn bench_decode_skip(data: *const u8, count: usize, reps: u32) -> usize;
    fn bench_decode_check(data: *const u8, count: usize, reps: u32) -> usize;
}

fn main() {
    // SAFETY: each export reads a slice, which it is given as a pointer and a length, and keeps nothing of it.
    loads::main(&loads::Calls {
        write_numbers: |n, reps| unsafe { bench_encode_numbers(n.as_ptr(), n.len(), reps) },
        write_counted: |n, reps| unsafe { bench_encode_counted(n.as_ptr(), n.len(), reps) },
        write_uncounted: |n, reps| unsafe { bench_encode_uncounted(n.as_ptr(), n.len(), reps) },
        write_tuple: |n, reps| unsafe { bench_encode_tuple(n.as_ptr(), n.len(), reps) },
        write_values: |n, reps| unsafe { bench_encode_values(n.as_ptr(), n.len(), reps) },
        write_wire: |n, reps| unsafe { bench_encode_wire(n.as_ptr(), n.len(), reps) },
        write_rows: |n, reps| unsafe { bench_encode_rows(n.as_ptr(), n.len(), reps) },
        write_texts: |d, reps| unsafe { bench_encode_texts(d.as_ptr(), d.len(), reps) },
        write_entries: |d, reps| unsafe { bench_encode_entries(d.as_ptr(), d.len(), reps) },
        write_bytes: |d, reps| unsafe { bench_encode_bytes(d.as_ptr(), d.len(), reps) },
        write_value: |d, reps| unsafe { bench_encode_value(d.as_ptr(), d.len(), reps) },
        read_numbers: |d, reps| unsafe { bench_decode_numbers(d.as_ptr(), d.len(), reps) },
        read_rows: |d, reps| unsafe { bench_decode_rows(d.as_ptr(), d.len(), reps) },
        read_texts: |d, reps| unsafe { bench_decode_texts(d.as_ptr(), d.len(), reps) },
        read_lent_texts: |d, reps| unsafe { bench_decode_lent_texts(d.as_ptr(), d.len(), reps) },
        read_entries: |d, reps| unsafe { bench_decode_entries(d.as_ptr(), d.len(), reps) },
        read_lent_entries: |d, reps| unsafe {
            bench_decode_lent_entries(d.as_ptr(), d.len(), reps)
        },
        strict_numbers: |d, reps| unsafe { bench_decode_strict_numbers(d.as_ptr(), d.len(), reps) },
        strict_rows: |d, reps| unsafe { bench_decode_strict_rows(d.as_ptr(), d.len(), reps) },
        strict_texts: |d, reps| unsafe { bench_decode_strict_texts(d.as_ptr(), d.len(), reps) },
        strict_lent_texts: |d, reps| unsafe {
            bench_decode_strict_lent_texts(d.as_ptr(), d.len(), reps)
        },
        strict_entries: |d, reps| unsafe { bench_decode_strict_entries(d.as_ptr(), d.len(), reps) },
        strict_lent_entries: |d, reps| unsafe {
            bench_decode_strict_lent_entries(d.as_ptr(), d.len(), reps)
        },
        skip: |d, reps| unsafe { bench_decode_skip(d.as_ptr(), d.len(), reps) },
        check: |d, reps| unsafe { bench_decode_check(d.as_ptr(), d.len(), reps) },
    });
}
