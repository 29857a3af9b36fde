//! What `check` prints.
use canon_lines::RunFault;
use canon_lines::check::check;
use faulty_io::{Drip, Trickle};
use std::io::ErrorKind;
use std::process::Abort;
use test_lines::check_lines;

// Lines, and what each prints. The first three are the rows of one run.
const LINES: &str = "9205a161c0\nc092d90161\n05c1\n";

const PRINTED: &str =
    "canonical 4\ncanonical 1\ncanonical 1\nfault at 2\ncanonical 1\nrefused at 1: TypeMismatch\n";

const ROWS: [(&str, &str); 16] = [
    ("90 80 c0\r", "canonical 1\ncanonical 1\ncanonical 1\n"),
    ("", ""),
    (" \t\r\n7f", "canonical 1\n"),
    ("d1012c", "fault at 0\n"),
    ("92d900", "fault at 1\n"),
    ("c0 9201d900", "canonical 1\nfault at 3\n"),
    ("9202d3ffffffffffffffff c0", "fault at 2\n"),
    ("d9", "refused at 0: InvalidDataRead\n"),
    (
        "c0c0a261",
        "canonical 1\ncanonical 1\nrefused at 2: InvalidDataRead\n",
    ),
    ("c701", "refused at 0: InvalidDataRead\n"),
    ("c70102", "fault at 0\n"),
    ("92c1", "refused at 0: TypeMismatch\n"),
    ("05 9205", "canonical 1\nrefused at 1: InvalidMarkerRead\n"),
    ("a1ff", "canonical 2\n"),
    ("9", "refused: hex\n"),
    ("d900\n05", "fault at 0\ncanonical 1\n"),
];

fn check_row(rt: &(impl AllocGlobal + Abort), line: &str, want: &str) -> Result<(), RunFault> {
    let (out, accepted) = check_lines(rt.alloc(), line.as_bytes())?;
    assert!(rt; out.as_slice() == want.as_bytes(), "for {line:?}");
    let wanted = !want.contains("fault") && !want.contains("refused");
    assert!(rt; accepted == wanted, "for {line:?}");
    Ok(())
}

#[test]
fn prints_each_row(rt: HostRuntime) -> Result<(), RunFault> {
    for (line, want) in ROWS {
        check_row(&rt, line, want)?;
    }
    check_row(&rt, LINES, PRINTED)
}

#[test]
fn nests_without_a_limit(rt: HostRuntime) -> Result<(), RunFault> {
    let mut line = String::new(rt.alloc());
    for _ in 0..5000 {
        line.push_str("91")?;
    }
    line.push_str("90")?;
    check_row(&rt, line.as_str(), "canonical 5001\n")
}

#[test]
fn a_source_that_fails(rt: HostRuntime) -> Result<(), RunFault> {
    // The last pull is the one that finds the end.
    for pulls in 0..=LINES.len() {
        let mut source = Drip::new(LINES.as_bytes(), pulls);
        let mut sink = Trickle::new(rt.alloc(), 0);
        let answer = check(rt.alloc(), &mut source, &mut sink);
        let is_input =
            matches!(&answer, Err(RunFault::Input(e)) if e.kind() == ErrorKind::TimedOut);
        assert!(rt; is_input, "after {pulls}");
        assert_eq!(rt; (source.faults, sink.faults), (1, 0), "after {pulls}");
    }
    let mut out = Vec::new(rt.alloc());
    let mut source = Drip::new(LINES.as_bytes(), LINES.len() + 1);
    assert!(rt; !check(rt.alloc(), &mut source, &mut out)?);
    assert!(rt; out.as_slice() == PRINTED.as_bytes());
    Ok(())
}

#[test]
fn a_sink_that_fails(rt: HostRuntime) {
    for puts in 0..PRINTED.len() {
        let mut sink = Trickle::new(rt.alloc(), puts);
        let answer = check(rt.alloc(), &mut LINES.as_bytes(), &mut sink);
        let is_output =
            matches!(&answer, Err(RunFault::Output(e)) if e.kind() == ErrorKind::BrokenPipe);
        assert!(rt; is_output, "after {puts}");
        assert!(rt;
            PRINTED.as_bytes().get(..puts) == Some(sink.bytes.as_slice()),
            "after {puts}"
        );
        assert_eq!(rt; sink.faults, 1, "after {puts}");
    }
}
