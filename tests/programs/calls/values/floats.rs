//! Doubles from floats of either size and from whole numbers.
use rmp_serde::decode::{Error, Text};
use rmp_serde::{Float64, from_slice, from_slice_strict, to_vec};

// The bits that a message is read as.
fn bits_of(rt: &HostRuntime, message: &[u8]) -> Result<u64, Error> {
    let float: Float64 = from_slice(rt.alloc(), message)?;
    Ok(float.bits)
}

#[test]
fn floats_of_either_size(rt: HostRuntime) -> Result<(), Error> {
    // 1.5 and -0.1 as doubles are the doubles that they are
    assert_eq!(rt;
        bits_of(&rt, b"\xcb\x3f\xf8\0\0\0\0\0\0")?,
        0x3ff8_0000_0000_0000
    );
    assert_eq!(rt;
        bits_of(&rt, b"\xcb\xbf\xb9\x99\x99\x99\x99\x99\x9a")?,
        0xbfb9_9999_9999_999a
    );
    // 0.5, -1.0, the float next to 0.1, the largest float and the smallest normal one
    assert_eq!(rt; bits_of(&rt, b"\xca\x3f\0\0\0")?, 0x3fe0_0000_0000_0000);
    assert_eq!(rt; bits_of(&rt, b"\xca\xbf\x80\0\0")?, 0xbff0_0000_0000_0000);
    assert_eq!(rt;
        bits_of(&rt, b"\xca\x3d\xcc\xcc\xcd")?,
        0x3fb9_9999_a000_0000
    );
    assert_eq!(rt;
        bits_of(&rt, b"\xca\x7f\x7f\xff\xff")?,
        0x47ef_ffff_e000_0000
    );
    assert_eq!(rt; bits_of(&rt, b"\xca\x00\x80\0\0")?, 0x3810_0000_0000_0000);
    // the smallest float above 0, the largest subnormal one, and one between them: each is a normal double
    assert_eq!(rt; bits_of(&rt, b"\xca\0\0\0\x01")?, 0x36a0_0000_0000_0000);
    assert_eq!(rt;
        bits_of(&rt, b"\xca\x00\x7f\xff\xff")?,
        0x380f_ffff_c000_0000
    );
    assert_eq!(rt; bits_of(&rt, b"\xca\x80\0\x30\x39")?, 0xb778_1c80_0000_0000);
    Ok(())
}

#[test]
fn zeros_infinities_and_nans(rt: HostRuntime) -> Result<(), Error> {
    assert_eq!(rt; bits_of(&rt, b"\xca\0\0\0\0")?, 0);
    assert_eq!(rt; bits_of(&rt, b"\xca\x80\0\0\0")?, 0x8000_0000_0000_0000);
    assert_eq!(rt;
        bits_of(&rt, b"\xcb\x80\0\0\0\0\0\0\0")?,
        0x8000_0000_0000_0000
    );
    assert_eq!(rt; bits_of(&rt, b"\xca\x7f\x80\0\0")?, 0x7ff0_0000_0000_0000);
    assert_eq!(rt; bits_of(&rt, b"\xca\xff\x80\0\0")?, 0xfff0_0000_0000_0000);
    // a NaN keeps its sign and its payload
    assert_eq!(rt; bits_of(&rt, b"\xca\x7f\xc0\0\0")?, 0x7ff8_0000_0000_0000);
    assert_eq!(rt; bits_of(&rt, b"\xca\xff\x80\0\x01")?, 0xfff0_0000_2000_0000);
    assert_eq!(rt;
        bits_of(&rt, b"\xcb\x7f\xf0\0\0\0\0\0\x01")?,
        0x7ff0_0000_0000_0001
    );
    Ok(())
}

#[test]
fn whole_numbers_that_doubles_hold(rt: HostRuntime) -> Result<(), Error> {
    assert_eq!(rt; bits_of(&rt, b"\x00")?, 0);
    assert_eq!(rt; bits_of(&rt, b"\x01")?, 0x3ff0_0000_0000_0000);
    assert_eq!(rt; bits_of(&rt, b"\xff")?, 0xbff0_0000_0000_0000);
    assert_eq!(rt; bits_of(&rt, b"\xcc\xff")?, 0x406f_e000_0000_0000);
    assert_eq!(rt; bits_of(&rt, b"\xd1\x80\0")?, 0xc0e0_0000_0000_0000);
    // 2 ^ 53 - 1, 2 ^ 53, 2 ^ 53 + 2, 2 ^ 63, 2 ^ 64 - 2048 and - 2 ^ 63
    assert_eq!(rt;
        bits_of(&rt, b"\xcf\0\x1f\xff\xff\xff\xff\xff\xff")?,
        0x433f_ffff_ffff_ffff
    );
    assert_eq!(rt;
        bits_of(&rt, b"\xcf\0\x20\0\0\0\0\0\0")?,
        0x4340_0000_0000_0000
    );
    assert_eq!(rt;
        bits_of(&rt, b"\xcf\0\x20\0\0\0\0\0\x02")?,
        0x4340_0000_0000_0001
    );
    assert_eq!(rt;
        bits_of(&rt, b"\xcf\x80\0\0\0\0\0\0\0")?,
        0x43e0_0000_0000_0000
    );
    assert_eq!(rt;
        bits_of(&rt, b"\xcf\xff\xff\xff\xff\xff\xff\xf8\0")?,
        0x43ef_ffff_ffff_ffff
    );
    assert_eq!(rt;
        bits_of(&rt, b"\xd3\x80\0\0\0\0\0\0\0")?,
        0xc3e0_0000_0000_0000
    );
    Ok(())
}

#[test]
fn whole_numbers_between_doubles_are_refused(rt: HostRuntime) {
    // 2 ^ 53 + 1, - 2 ^ 53 - 1, 2 ^ 63 - 1 and 2 ^ 64 - 1
    let messages = [
        b"\xcf\0\x20\0\0\0\0\0\x01",
        b"\xd3\xff\xdf\xff\xff\xff\xff\xff\xff",
        b"\xcf\x7f\xff\xff\xff\xff\xff\xff\xff",
        b"\xcf\xff\xff\xff\xff\xff\xff\xff\xff",
    ];
    for message in &messages {
        let read = bits_of(&rt, message.as_slice());
        assert!(rt; matches!(&read, Err(Error::Syntax(Text::InvalidValue))));
    }
}

#[test]
fn other_kinds_are_no_doubles(rt: HostRuntime) {
    let messages = [
        b"\xc0".as_slice(),
        b"\xc2",
        b"\xa0",
        b"\xc4\0",
        b"\x90",
        b"\x80",
        b"\xd4\x01\x02",
    ];
    for message in &messages {
        let read = bits_of(&rt, *message);
        assert!(rt; matches!(&read, Err(Error::Syntax(Text::InvalidType))));
    }
    assert!(rt; matches!(bits_of(&rt, b"\xca\x3f"), Err(e) if e.is_incomplete()));
    assert!(rt; matches!(bits_of(&rt, b""), Err(e) if e.is_incomplete()));
    let wide: Result<Float64, Error> = from_slice_strict(rt.alloc(), b"\xcc\x01");
    assert!(rt; matches!(&wide, Err(Error::NotCanonical)));
}

#[test]
fn doubles_are_written_as_doubles(rt: HostRuntime) {
    for value in [1.0, -0.0, 0.1, f64::MAX, f64::INFINITY] {
        let float = Float64::from_f64(value);
        assert_eq!(rt; float.bits, value.to_bits());
        assert!(rt; float.to_f64() == value);
        match to_vec(rt.alloc(), &float) {
            Ok(bytes) => {
                assert_eq!(rt; bytes[0], 0xcb);
                assert_eq!(rt; &bytes[1..], value.to_bits().to_be_bytes().as_slice());
            }
            Err(_) => assert!(rt; false),
        }
    }
    assert_eq!(rt; Float64::from_f64(f64::NAN).bits, 0x7ff8_0000_0000_0000);
    assert!(rt;
        Float64 {
            bits: 0xfff0_0000_0000_0001
        }
        .to_f64()
        .is_nan()
    );
}
