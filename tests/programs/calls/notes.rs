//! What the calls of the example `example_notes` come to, and the arms by which docs/ERRORS.md sorts errors.
use example_notes::{Note, append, load, save};
use rmp_serde::decode::Error;
use std::alloc::Global;
use std::io::ErrorKind;

// A list of two notes, or nothing where memory is short.
fn two_notes(alloc: Global) -> Option<Vec<Note>> {
    let mut notes = Vec::new(alloc);
    for (title, text) in [("to do", "feed Bobby"), ("", "done")] {
        let title = String::from_str(alloc, title).ok()?;
        let text = String::from_str(alloc, text).ok()?;
        append(&mut notes, Note { title, text }).ok()?;
    }
    Some(notes)
}

#[test]
fn saved_notes_come_back(rt: HostRuntime) -> Result<(), Error> {
    let alloc = rt.alloc();
    let notes = two_notes(alloc).unwrap();
    let saved = save(alloc, &notes).unwrap();
    assert_eq!(rt;
        saved.as_slice(),
        b"\x92\x92\xa5to do\xaafeed Bobby\x92\xa0\xa4done".as_slice()
    );
    let loaded = load(alloc, saved.as_slice())?;
    assert_eq!(rt; loaded.len(), 2);
    assert_eq!(rt; loaded[0].title.as_str(), "to do");
    assert_eq!(rt; loaded[0].text.as_str(), "feed Bobby");
    assert_eq!(rt; loaded[1].title.as_str(), "");
    assert_eq!(rt; loaded[1].text.as_str(), "done");
    Ok(())
}

// What docs/ERRORS.md says to do about the bytes of notes.
fn sorted(alloc: Global, bytes: &[u8]) -> &'static str {
    match load(alloc, bytes) {
        Ok(_) => "serve",
        Err(Error::InvalidMarkerRead(fault)) if fault.kind() == ErrorKind::UnexpectedEof => "wait",
        Err(Error::InvalidDataRead(fault)) if fault.kind() == ErrorKind::UnexpectedEof => "wait",
        Err(_) => "refuse",
    }
}

#[test]
fn cut_notes_are_waited_for(rt: HostRuntime) {
    let alloc = rt.alloc();
    let whole = b"\x92\x92\xa2to\xa2do\x92\xa0\xa0".as_slice();
    for end in 0..whole.len() {
        assert_eq!(rt; sorted(alloc, &whole[..end]), "wait");
    }
    assert_eq!(rt; sorted(alloc, whole), "serve");
    assert_eq!(rt; sorted(alloc, b"\x92\x92\xa2to\x07"), "refuse");
    assert_eq!(rt; sorted(alloc, b"\x92\xc1"), "refuse");
    assert_eq!(rt; sorted(alloc, b"\x91\x93\xa0\xa0\xa0"), "refuse");
}
