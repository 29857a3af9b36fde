//! What `run` prints, and where it ends early.
use canon_lines::RunFault;
use canon_lines::run::run;
use faulty_io::{Drip, Trickle};
use std::alloc::AllocError;
use std::io::ErrorKind;
use std::process::Abort;
use test_lines::run_lines;

// Three lines, of which the second has two messages, and what they print.
const LINES: &str = "92cd0005d90161\n2A c3\n93c0c2d3ffffffffffffffdf\n";

const PRINTED: &str = "[5,t:61] 9205a161\n42 2a\ntrue c3\n[nil,false,-33] 93c0c2d0df\n";

// Lines, and what each prints.
const ROWS: [(&str, &str); 21] = [
    ("92cd0005d90161", "[5,t:61] 9205a161\n"),
    ("cf0000000000000100", "256 cd0100\n"),
    ("d3ffffffffffffffff", "-1 ff\n"),
    ("dc0000", "[] 90\n"),
    ("d900", "t: a0\n"),
    ("a1ff", "refused at 0: Utf8Error\n"),
    ("c1", "refused at 0: TypeMismatch\n"),
    ("92", "refused at 0: InvalidMarkerRead\n"),
    ("cd01", "refused at 0: InvalidDataRead\n"),
    ("9", "refused: hex\n"),
    ("2a \r\r", "refused: hex\n"),
    ("2a\r ", "refused: hex\n"),
    (
        "82a16bd1ffff02c40100",
        "{t:6b=-1,2=b:00} 82a16bff02c40100\n",
    ),
    ("c70305010203", "x(5):010203 c70305010203\n"),
    ("c80001ff05", "x(-1):05 d4ff05\n"),
    ("ca7f7fffff", "f32:7f7fffff ca7f7fffff\n"),
    (
        "cb7ff0000000000001",
        "f64:7ff0000000000001 cb7ff0000000000001\n",
    ),
    ("de000101c2", "{1=false} 8101c2\n"),
    (" 9\t1 C3\r", "[true] 91c3\n"),
    (
        "93c0c2c3\n\n \t\r\n7f",
        "[nil,false,true] 93c0c2c3\n127 7f\n",
    ),
    ("", ""),
];

// A text's answer is the same byte by byte.
fn check(rt: &(impl AllocGlobal + Abort), line: &str, want: &str) -> Result<(), RunFault> {
    let (out, accepted) = run_lines(rt.alloc(), line.as_bytes())?;
    assert!(rt; out.as_slice() == want.as_bytes(), "for {want:?}");
    assert!(rt; accepted != want.starts_with("refused"), "for {want:?}");
    let mut source = Drip::new(line.as_bytes(), usize::MAX);
    let mut out = Vec::new(rt.alloc());
    assert!(rt;
        run(rt.alloc(), &mut source, &mut out)? == accepted,
        "for {want:?}"
    );
    assert!(rt; out.as_slice() == want.as_bytes(), "for {want:?}");
    Ok(())
}

#[test]
fn a_line_that_is_refused_is_one_of_several(rt: HostRuntime) -> Result<(), RunFault> {
    let lines = "2ac1\nabc\n82a16bd1ffff02c40100\n92\n";
    let want =
        "42 2a\nrefused at 1: TypeMismatch\nrefused: hex\n{t:6b=-1,2=b:00} 82a16bff02c40100\nrefused at 0: InvalidMarkerRead\n";
    let (out, accepted) = run_lines(rt.alloc(), lines.as_bytes())?;
    assert!(rt; !accepted);
    assert!(rt; out.as_slice() == want.as_bytes());
    Ok(())
}

// Appends a text so many times.
fn push_many(text: &mut String, part: &str, times: usize) -> Result<(), AllocError> {
    for _ in 0..times {
        text.push_str(part)?;
    }
    Ok(())
}

#[test]
fn prints_each_row(rt: HostRuntime) -> Result<(), RunFault> {
    for (line, want) in ROWS {
        check(&rt, line, want)?;
    }
    check(&rt, LINES, PRINTED)
}

#[test]
fn nests_up_to_the_limit(rt: HostRuntime) -> Result<(), RunFault> {
    let mut line = String::new(rt.alloc());
    push_many(&mut line, "91", 1022)?;
    line.push_str("90")?;
    let mut want = String::new(rt.alloc());
    push_many(&mut want, "[", 1023)?;
    push_many(&mut want, "]", 1023)?;
    want.push(' ')?;
    want.push_str(line.as_str())?;
    want.push('\n')?;
    check(&rt, line.as_str(), want.as_str())
}

#[test]
fn refuses_deeper_nesting(rt: HostRuntime) -> Result<(), RunFault> {
    let mut line = String::new(rt.alloc());
    push_many(&mut line, "91", 1023)?;
    line.push_str("90")?;
    check(&rt, line.as_str(), "refused at 0: DepthLimitExceeded\n")
}

#[test]
fn no_input_prints_nothing(rt: HostRuntime) -> Result<(), RunFault> {
    let mut sink = Trickle::new(rt.alloc(), 0);
    let accepted = run(rt.alloc(), &mut b"".as_slice(), &mut sink)?;
    assert!(rt; accepted);
    assert_eq!(rt; sink.faults, 0);
    assert!(rt; sink.bytes.is_empty());
    Ok(())
}

#[test]
fn a_source_that_fails(rt: HostRuntime) -> Result<(), RunFault> {
    // The last pull is the one that finds the end.
    for pulls in 0..=LINES.len() {
        let mut source = Drip::new(LINES.as_bytes(), pulls);
        let mut out = Vec::new(rt.alloc());
        let answer = run(rt.alloc(), &mut source, &mut out);
        let is_input =
            matches!(&answer, Err(RunFault::Input(e)) if e.kind() == ErrorKind::TimedOut);
        assert!(rt; is_input, "after {pulls}");
        assert!(rt; out.is_empty(), "after {pulls}");
        assert_eq!(rt; source.faults, 1, "after {pulls}");
    }
    let mut out = Vec::new(rt.alloc());
    let mut source = Drip::new(LINES.as_bytes(), LINES.len() + 1);
    assert!(rt; run(rt.alloc(), &mut source, &mut out)?);
    assert!(rt; out.as_slice() == PRINTED.as_bytes());
    Ok(())
}

#[test]
fn a_sink_that_fails(rt: HostRuntime) -> Result<(), RunFault> {
    for puts in 0..PRINTED.len() {
        let mut sink = Trickle::new(rt.alloc(), puts);
        let answer = run(rt.alloc(), &mut LINES.as_bytes(), &mut sink);
        let is_output =
            matches!(&answer, Err(RunFault::Output(e)) if e.kind() == ErrorKind::BrokenPipe);
        assert!(rt; is_output, "after {puts}");
        assert!(rt;
            PRINTED.as_bytes().get(..puts) == Some(sink.bytes.as_slice()),
            "after {puts}"
        );
        assert_eq!(rt; sink.faults, 1, "after {puts}");
    }
    let mut sink = Trickle::new(rt.alloc(), PRINTED.len());
    assert!(rt; run(rt.alloc(), &mut LINES.as_bytes(), &mut sink)?);
    assert!(rt; sink.bytes.as_slice() == PRINTED.as_bytes());
    Ok(())
}
