//! What `show` prints of bytes, and `show_lines` of lines of hex, and what they tell of what can't be read.
use canon_lines::RunFault;
use canon_lines::show::hex_lines::show_lines;
use canon_lines::show::{Form, show};
use faulty_io::Drip;

// Messages, what is printed of them, and what is told.
const ROWS: [(&[u8], &str, &str); 7] = [
    (b"", "", ""),
    (b"\x01\xa1a\x92\xc0\xc3", "1\n\"a\"\n[null,true]\n", ""),
    (
        b"\x01\x92\x02\xa3ab",
        "1\n",
        "message 2: refused at byte 3 in [1]: the text ends after 2 of 3 bytes\n",
    ),
    (
        b"\xc3\x81\xa1k\xa2\xff\xfe\x05",
        "true\n",
        "message 2: refused at byte 4 in .k: the text isn't UTF-8\n",
    ),
    (
        b"\x93\x01\xc1\x02",
        "",
        "message 1: refused at byte 2 in [1]: the byte c1 begins no message\n",
    ),
    (
        b"\x92\x01",
        "",
        "message 1: refused at byte 2 in [1]: the input ends\n",
    ),
    (
        b"\xcd\x01",
        "",
        "message 1: refused at byte 0: the input ends inside of a head\n",
    ),
];

#[test]
fn messages_are_shown_up_to_one_that_is_refused(
    rt: HostRuntime,
) -> Result<(), RunFault> {
    let alloc = rt.alloc();
    for (bytes, printed, told) in ROWS {
        let mut source = Drip::new(bytes, usize::MAX);
        let mut out = Vec::new(alloc);
        let mut errors = Vec::new(alloc);
        let accepted = show(alloc, &mut source, Form::Line, &mut out, &mut errors)?;
        assert!(rt; out.as_slice() == printed.as_bytes(), "for {printed:?}");
        assert!(rt; errors.as_slice() == told.as_bytes(), "for {told:?}");
        assert_eq!(rt; accepted, told.is_empty());
    }
    Ok(())
}

#[test]
fn lists_that_nest_too_deep_are_told_of(rt: HostRuntime) -> Result<(), RunFault> {
    let alloc = rt.alloc();
    let mut deep = [0x91; 1025];
    deep[1024] = 0xc0;
    let mut out = Vec::new(alloc);
    let mut errors = Vec::new(alloc);
    let mut source = deep.as_slice();
    assert!(rt; !show(alloc, &mut source, Form::Line, &mut out, &mut errors)?);
    assert!(rt; out.is_empty());
    assert!(rt; errors.as_slice().starts_with(b"message 1: refused at byte 1023 in [0][0]"));
    assert!(rt; errors.as_slice().ends_with(b"[0]: lists and maps nest too deep\n"));
    let mut source = &deep[1..];
    assert!(rt; show(alloc, &mut source, Form::Line, &mut out, &mut errors)?);
    Ok(())
}

#[test]
fn each_line_of_hex_is_shown_or_told_of(rt: HostRuntime) -> Result<(), RunFault> {
    let alloc = rt.alloc();
    let mut source = Drip::new(b"01 02\n0392c1\n9\n81a16b05".as_slice(), usize::MAX);
    let mut out = Vec::new(alloc);
    let mut errors = Vec::new(alloc);
    let accepted = show_lines(alloc, &mut source, Form::Line, &mut out, &mut errors)?;
    assert!(rt; !accepted);
    assert!(rt; out.as_slice() == b"1\n2\n3\n{\"k\":5}\n".as_slice());
    let told = "line 2, message 2: refused at byte 2 in [0]: the byte c1 begins no message\nline 3: refused: no hex\n";
    assert!(rt; errors.as_slice() == told.as_bytes());
    Ok(())
}
