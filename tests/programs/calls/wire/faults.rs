//! Each put of each write failed in turn.
use faulty_io::Trickle;
use rmp_wire::{
    ValueWriteError, write_array_len, write_bin, write_bin_len, write_bool, write_content,
    write_ext_meta, write_f32_bits, write_f64_bits, write_map_len, write_nil, write_sint,
    write_str, write_str_len, write_uint,
};
use std::alloc::Global;

// What each of the writes below writes.
const WHOLE: [&[u8]; 15] = [
    b"\xc0",
    b"\xc3",
    b"\xce\x00\x01\x88\x94",
    b"\xd1\xff\x7f",
    b"\xca\x3f\xc0\x00\x00",
    b"\xcb\x3f\xf8\x00\x00\x00\x00\x00\x00",
    b"\xa5Bobby",
    b"\xc4\x02\x01\x02",
    b"\x03\x04",
    b"\xda\x01\x2c",
    b"\xc5\x01\x2c",
    b"\xdc\x01\x2c",
    b"\xdf\x00\x01\x00\x00",
    b"\xc7\x03\x05",
    b"\xd8\xff",
];

fn put_leaf(sink: &mut Trickle, at: usize) -> Result<(), ValueWriteError> {
    match at {
        0 => write_nil(sink),
        1 => write_bool(sink, true),
        2 => write_uint(sink, 100500),
        3 => write_sint(sink, -129),
        4 => write_f32_bits(sink, 0x3fc0_0000),
        _ => put_content(sink, at),
    }
}

fn put_content(sink: &mut Trickle, at: usize) -> Result<(), ValueWriteError> {
    match at {
        5 => write_f64_bits(sink, 0x3ff8_0000_0000_0000),
        6 => write_str(sink, "Bobby"),
        7 => write_bin(sink, b"\x01\x02"),
        8 => write_content(sink, b"\x03\x04"),
        _ => put_head(sink, at),
    }
}

fn put_head(sink: &mut Trickle, at: usize) -> Result<(), ValueWriteError> {
    match at {
        9 => write_str_len(sink, 300),
        10 => write_bin_len(sink, 300),
        11 => write_array_len(sink, 300),
        12 => write_map_len(sink, 65536),
        13 => write_ext_meta(sink, 3, 5),
        _ => write_ext_meta(sink, 16, -1),
    }
}

// Whether the write fails as it has to after these bytes, which are in the sink, and counts as one fault.
fn fails_after(alloc: Global, at: usize, written: &[u8]) -> bool {
    let mut sink = Trickle::new(alloc, written.len());
    let is_told = match put_leaf(&mut sink, at) {
        Err(ValueWriteError::InvalidMarkerWrite(_)) => written.is_empty(),
        // (content comes after a head)
        Err(ValueWriteError::InvalidDataWrite(_)) => at == 8 || !written.is_empty(),
        _ => false,
    };
    is_told && sink.faults == 1 && sink.bytes.as_slice() == written
}

#[test]
fn each_put_of_each_write_fails(rt: HostRuntime) {
    for (at, whole) in WHOLE.iter().enumerate() {
        for room in 0..whole.len() {
            assert!(rt;
                fails_after(rt.alloc(), at, &whole[..room]),
                "write {at} at {room}"
            );
        }
        let mut sink = Trickle::new(rt.alloc(), whole.len());
        assert!(rt; put_leaf(&mut sink, at).is_ok(), "write {at}");
        assert!(rt; sink.bytes.as_slice() == *whole, "write {at}");
    }
}
