//! What is written into vectors, slices and other sinks.
use faulty_io::Trickle;
use rmp_wire::{
    IoFault, Sink, SliceSink, ValueWriteError, write_array_len, write_bin, write_bin_len,
    write_bool, write_content, write_ext_meta, write_f32_bits, write_f64_bits, write_map_len,
    write_nil, write_sint, write_str, write_str_len, write_uint,
};
use std::alloc::Global;
use std::io;
use std::mem::size_of;
use std::process::Abort;
use test_types::spell_into;

// What is written into an empty vector.
type Written = Result<Vec<u8>, ValueWriteError>;

// These bytes were written.
fn wrote(rt: &impl Abort, written: Written, want: &[u8]) {
    match written {
        Ok(bytes) => assert_eq!(rt; bytes.as_slice(), want),
        Err(e) => panic!(rt; "{want:?} is refused: {e}"),
    }
}

fn uint(alloc: Global, n: u64) -> Written {
    let mut out = Vec::new(alloc);
    write_uint(&mut out, n)?;
    Ok(out)
}

fn sint(alloc: Global, z: i64) -> Written {
    let mut out = Vec::new(alloc);
    write_sint(&mut out, z)?;
    Ok(out)
}

fn str_len(alloc: Global, len: u32) -> Written {
    let mut out = Vec::new(alloc);
    write_str_len(&mut out, len)?;
    Ok(out)
}

fn bin_len(alloc: Global, len: u32) -> Written {
    let mut out = Vec::new(alloc);
    write_bin_len(&mut out, len)?;
    Ok(out)
}

fn array_len(alloc: Global, len: u32) -> Written {
    let mut out = Vec::new(alloc);
    write_array_len(&mut out, len)?;
    Ok(out)
}

fn map_len(alloc: Global, len: u32) -> Written {
    let mut out = Vec::new(alloc);
    write_map_len(&mut out, len)?;
    Ok(out)
}

fn ext_meta(alloc: Global, len: u32, tag: i8) -> Written {
    let mut out = Vec::new(alloc);
    write_ext_meta(&mut out, len, tag)?;
    Ok(out)
}

#[test]
fn whole_numbers(rt: HostRuntime) {
    for (n, want) in [
        (127u64, b"\x7f".as_slice()),
        (128, b"\xcc\x80"),
        (300, b"\xcd\x01\x2c"),
        (65536, b"\xce\x00\x01\x00\x00"),
        (u64::MAX, b"\xcf\xff\xff\xff\xff\xff\xff\xff\xff"),
    ] {
        wrote(&rt, uint(rt.alloc(), n), want);
    }
    for (z, want) in [
        (300i64, b"\xcd\x01\x2c".as_slice()),
        (-32, b"\xe0"),
        (-33, b"\xd0\xdf"),
        (-129, b"\xd1\xff\x7f"),
        (-32769, b"\xd2\xff\xff\x7f\xff"),
        (-2147483649, b"\xd3\xff\xff\xff\xff\x7f\xff\xff\xff"),
    ] {
        wrote(&rt, sint(rt.alloc(), z), want);
    }
}

#[test]
fn heads_of_texts_and_bytes(rt: HostRuntime) {
    for (len, want) in [
        (31u32, b"\xbf".as_slice()),
        (32, b"\xd9\x20"),
        (255, b"\xd9\xff"),
        (256, b"\xda\x01\x00"),
        (65535, b"\xda\xff\xff"),
        (65536, b"\xdb\x00\x01\x00\x00"),
    ] {
        wrote(&rt, str_len(rt.alloc(), len), want);
    }
    for (len, want) in [
        (255u32, b"\xc4\xff".as_slice()),
        (256, b"\xc5\x01\x00"),
        (65536, b"\xc6\x00\x01\x00\x00"),
    ] {
        wrote(&rt, bin_len(rt.alloc(), len), want);
    }
}

#[test]
fn heads_of_lists_and_maps(rt: HostRuntime) {
    for (len, list, map) in [
        (15u32, b"\x9f".as_slice(), b"\x8f".as_slice()),
        (16, b"\xdc\x00\x10", b"\xde\x00\x10"),
        (65536, b"\xdd\x00\x01\x00\x00", b"\xdf\x00\x01\x00\x00"),
    ] {
        wrote(&rt, array_len(rt.alloc(), len), list);
        wrote(&rt, map_len(rt.alloc(), len), map);
    }
}

#[test]
fn heads_of_extensions(rt: HostRuntime) {
    for (len, want) in [
        (1u32, b"\xd4\xff".as_slice()),
        (2, b"\xd5\xff"),
        (4, b"\xd6\xff"),
        (8, b"\xd7\xff"),
        (16, b"\xd8\xff"),
        (3, b"\xc7\x03\xff"),
        (0, b"\xc7\x00\xff"),
        (256, b"\xc8\x01\x00\xff"),
        (65536, b"\xc9\x00\x01\x00\x00\xff"),
    ] {
        wrote(&rt, ext_meta(rt.alloc(), len, -1), want);
    }
}

// A value of each kind, one after another.
fn each(alloc: Global) -> Written {
    let mut out = Vec::new(alloc);
    write_nil(&mut out)?;
    write_bool(&mut out, true)?;
    write_bool(&mut out, false)?;
    write_f32_bits(&mut out, 0x3fc0_0000)?;
    write_f64_bits(&mut out, 0x3ff8_0000_0000_0000)?;
    write_str(&mut out, "Bobby")?;
    write_bin(&mut out, b"\x01\x02")?;
    write_ext_meta(&mut out, 2, 7)?;
    write_content(&mut out, b"\x03\x04")?;
    Ok(out)
}

#[test]
fn one_after_another(rt: HostRuntime) {
    wrote(
        &rt,
        each(rt.alloc()),
        b"\xc0\xc3\xc2\xca\x3f\xc0\0\0\xcb\x3f\xf8\0\0\0\0\0\0\xa5Bobby\xc4\x02\x01\x02\xd5\x07\x03\x04",
    );
}

fn put_uint<S: Sink>(sink: &mut S, n: u64) -> Result<(), ValueWriteError> {
    write_uint(sink, n)
}

fn put_nil<S: Sink>(sink: &mut S) -> Result<(), ValueWriteError> {
    write_nil(sink)
}

fn put_str<S: Sink>(sink: &mut S, text: &str) -> Result<(), ValueWriteError> {
    write_str(sink, text)
}

fn is_answer(
    rt: &impl Abort,
    answer: Result<(), ValueWriteError>,
    want: Result<(), ValueWriteError>,
) {
    assert_eq!(rt; answer, want);
}

const FULL: io::ErrorKind = io::ErrorKind::WriteZero;

#[test]
fn into_a_slice(rt: HostRuntime) {
    let mut buf = [9u8; 3];
    let mut sink = SliceSink::new(&mut buf);
    let fault = IoFault::from(FULL);
    let no_marker = Err(ValueWriteError::InvalidMarkerWrite(fault));
    is_answer(
        &rt,
        put_uint(&mut sink, 100500),
        Err(ValueWriteError::InvalidDataWrite(fault)),
    );
    assert_eq!(rt; sink.written(), 3);
    is_answer(&rt, put_nil(&mut sink), no_marker);
    is_answer(&rt, put_str(&mut sink, ""), no_marker);
    drop(sink);
    assert_eq!(rt; buf, [0xce, 0, 1]);
}

#[test]
fn into_an_empty_slice(rt: HostRuntime) {
    let mut sink = SliceSink::new(&mut []);
    let fault = IoFault::from(FULL);
    is_answer(
        &rt,
        put_nil(&mut sink),
        Err(ValueWriteError::InvalidMarkerWrite(fault)),
    );
    assert_eq!(rt; sink.written(), 0);
}

#[test]
fn a_text_into_a_slice(rt: HostRuntime) {
    let mut buf = [9u8; 4];
    let mut sink = SliceSink::new(&mut buf);
    is_answer(&rt, put_str(&mut sink, "ab"), Ok(()));
    is_answer(
        &rt,
        put_str(&mut sink, "c"),
        Err(ValueWriteError::InvalidDataWrite(IoFault::from(FULL))),
    );
    drop(sink);
    assert_eq!(rt; buf, *b"\xa2ab\xa1");
}

#[test]
fn a_number_into_the_front_of_a_slice(rt: HostRuntime) {
    let mut buf = [9u8; 5];
    assert_eq!(rt; spell_into(&mut buf, 300), Ok(3));
    assert_eq!(rt; buf, [0xcd, 0x01, 0x2c, 9, 9]);
}

#[test]
fn into_other_sinks(rt: HostRuntime) {
    let mut sink = Trickle::new(rt.alloc(), usize::MAX);
    is_answer(&rt, put_uint(&mut sink, 100500), Ok(()));
    is_answer(&rt, put_str(&mut &mut sink, "no"), Ok(()));
    assert_eq!(rt;
        sink.bytes.as_slice(),
        b"\xce\x00\x01\x88\x94\xa2no".as_slice()
    );
}

#[test]
fn into_a_sink_that_fails(rt: HostRuntime) {
    let mut sink = Trickle::new(rt.alloc(), 1);
    let fault = IoFault::from(io::ErrorKind::BrokenPipe);
    is_answer(
        &rt,
        put_uint(&mut sink, 100500),
        Err(ValueWriteError::InvalidDataWrite(fault)),
    );
    is_answer(
        &rt,
        put_nil(&mut sink),
        Err(ValueWriteError::InvalidMarkerWrite(fault)),
    );
    assert_eq!(rt; sink.bytes.as_slice(), b"\xce".as_slice());
    assert_eq!(rt; sink.faults, 2);
}

#[test]
fn who_takes_memory(rt: HostRuntime) {
    assert!(rt; Vec::<u8>::TAKES_MEMORY);
    assert!(rt; <&mut Vec<u8>>::TAKES_MEMORY);
    assert!(rt; !SliceSink::TAKES_MEMORY);
    assert!(rt; !<&mut SliceSink>::TAKES_MEMORY);
}

#[test]
fn sizes(rt: HostRuntime) {
    assert_eq!(rt; size_of::<ValueWriteError>(), 16);
    assert_eq!(rt; size_of::<Result<(), ValueWriteError>>(), 20);
}
