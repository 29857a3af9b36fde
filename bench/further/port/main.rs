//! Measures the proved code: some exports of bench_shapes and bench_encode, and those of bench_pieces and bench_calls, in bench/libraries.

#[macro_use]
#[path = "../../exports.rs"]
mod exports;
#[path = "../loads.rs"]
mod loads;

exports! {
    bench_read_f64
    bench_read_i64
    bench_refuse_byte
    bench_skip
    bench_write_f64
    bench_write_i64
    bench_write_u64
    pieces_of_1
    pieces_of_1460
    pieces_of_64
    chain_read
    chain_write
    chain_write_named
    expression_read
    expression_write
    once_read_number
    once_read_row
    once_read_text
    once_write_number
    once_write_row
    once_write_text
    pieces_walk
    pieces_walk_texts
}

fn main() {
    loads::main(&loads::Calls(calls()));
}
