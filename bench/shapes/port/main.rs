//! Measures the proved code: the exports of bench_shapes in bench/libraries, and those of bench_encode that write values of many types.

#[macro_use]
#[path = "../../exports.rs"]
mod exports;
#[path = "../loads.rs"]
mod loads;

exports! {
    bench_ahead_numbers
    bench_ahead_texts
    bench_buffered_numbers
    bench_buffered_texts
    bench_cursor_buffers
    bench_cursor_numbers
    bench_cursor_texts
    bench_cursor_two
    bench_read_array
    bench_read_bool
    bench_read_boxed
    bench_read_buffer
    bench_read_bytes
    bench_read_char
    bench_read_eight
    bench_read_ext
    bench_read_f64
    bench_read_five
    bench_read_four
    bench_read_i16
    bench_read_i64
    bench_read_lent_bytes
    bench_read_map
    bench_read_named_map
    bench_read_nested
    bench_read_nil
    bench_read_nothing
    bench_read_option
    bench_read_option_text
    bench_read_pair
    bench_read_quad
    bench_read_queue
    bench_read_raw
    bench_read_rows
    bench_read_set
    bench_read_shape
    bench_read_str
    bench_read_text
    bench_read_texts
    bench_read_triple
    bench_read_twelve
    bench_read_two
    bench_read_u128
    bench_read_value
    bench_refuse_byte
    bench_refuse_numbers
    bench_refuse_two
    bench_skip
    bench_write_bool
    bench_write_buffer
    bench_write_bytes
    bench_write_char
    bench_write_dog
    bench_write_dog_named
    bench_write_f32
    bench_write_f64
    bench_write_forced
    bench_write_four
    bench_write_four_named
    bench_write_i64
    bench_write_iterables
    bench_write_map
    bench_write_named_map
    bench_write_nested
    bench_write_nil
    bench_write_option
    bench_write_papers
    bench_write_papers_named
    bench_write_text
    bench_write_tuple
    bench_write_u128
    bench_write_u32
    bench_write_u64
}

fn main() {
    loads::main(&loads::Calls(calls()));
}
