//! Readers and writers of the world: interruptions, cursors and buffers.
use rmp_wire::{
    AheadSource, BufSource, Head, IoSink, IoSource, ReadReader, ReadSlice, Sink, SinkFault, Source,
    SourceFault, read_head, read_marker,
};
use std::alloc::Global;
use std::io;
use std::io::{BufReader, Cursor, ErrorKind, Read, Write};

// Interrupted so often, then it gives or takes a byte a call, and interrupts again before the next.
#[derive(Drop)]
struct Interrupting<'a> {
    bytes: &'a [u8],
    taken: Vec<u8>,
    often: u32,
    left: u32,
}

impl<'a> Interrupting<'a> {
    fn new(alloc: Global, bytes: &'a [u8], often: u32) -> Self {
        Interrupting {
            bytes,
            taken: Vec::new(alloc),
            often,
            left: often,
        }
    }

    // Whether this call is interrupted.
    fn interrupts(&mut self) -> bool {
        if self.left == 0 {
            self.left = self.often;
            return false;
        }
        self.left -= 1;
        true
    }
}

impl Read for Interrupting<'_> {
    fn read(&mut self, buf: &mut [u8]) -> Result<usize, io::Error> {
        if self.interrupts() {
            return Err(io::Error::from(ErrorKind::Interrupted));
        }
        match (self.bytes, buf) {
            ([first, rest @ ..], [place, ..]) => {
                *place = *first;
                self.bytes = rest;
                Ok(1)
            }
            _ => Ok(0),
        }
    }
}

impl Write for Interrupting<'_> {
    fn write(&mut self, buf: &[u8]) -> Result<usize, io::Error> {
        if self.interrupts() {
            return Err(io::Error::from(ErrorKind::Interrupted));
        }
        match buf {
            [first, ..] => {
                self.taken.push(*first)?;
                Ok(1)
            }
            _ => Ok(0),
        }
    }

    fn flush(&mut self) -> Result<(), io::Error> {
        Ok(())
    }
}

type Slow<'a> = IoSource<Interrupting<'a>>;

fn slow<'a>(alloc: Global, bytes: &'a [u8], often: u32) -> Slow<'a> {
    IoSource::new(Interrupting::new(alloc, bytes, often))
}

fn slow_sink(alloc: Global, often: u32) -> IoSink<Interrupting<'static>> {
    IoSink::new(Interrupting::new(alloc, b"", often))
}

fn head(source: &mut Slow) -> Option<Head> {
    let marker = read_marker(source).ok()?;
    read_head(marker, source).ok()
}

fn puts(sink: &mut IoSink<Interrupting>, bytes: &[u8]) -> bool {
    sink.put_all(bytes).is_ok()
}

#[test]
fn sixteen_interruptions_lose_nothing(rt: HostRuntime) {
    let mut source = slow(rt.alloc(), b"\xcd\x01\x02", 16);
    assert!(rt; head(&mut source) == Some(Head::Whole(258)));
    let mut sink = slow_sink(rt.alloc(), 16);
    assert!(rt; puts(&mut sink, &[7, 8]));
    assert_eq!(rt; sink.into_inner().taken.as_slice(), [7u8, 8].as_slice());
}

// The next byte of a source, or why it failed.
fn byte<S: Source>(source: &mut S) -> Result<u8, ErrorKind> {
    let mut byte = [0];
    match source.pull(&mut byte) {
        Ok(_) => Ok(byte[0]),
        Err(e) => Err(e.kind()),
    }
}

fn fault_of_put(sink: &mut IoSink<Interrupting>) -> Option<ErrorKind> {
    match sink.put(&[7]) {
        Err(SinkFault::Io(e)) => Some(e.kind()),
        _ => None,
    }
}

#[test]
fn the_seventeenth_interruption_is_a_fault(rt: HostRuntime) {
    let mut source = slow(rt.alloc(), b"\xc0", 17);
    assert!(rt; byte(&mut source) == Err(ErrorKind::Interrupted));
    assert!(rt; byte(&mut source) == Ok(0xc0));
    let mut sink = slow_sink(rt.alloc(), 17);
    assert!(rt; fault_of_put(&mut sink) == Some(ErrorKind::Interrupted));
}

fn skips<S: Source>(source: &mut S, len: usize) -> bool {
    source.skip(len)
}

fn is_front<S: Source>(source: &S, want: &[u8]) -> bool {
    source.front() == want
}

// The next two bytes, or none where fewer are left.
fn two<S: Source>(source: &mut S) -> Option<[u8; 2]> {
    let mut two = [0; 2];
    match source.pull_exact(&mut two) {
        Ok(()) => Some(two),
        Err(_) => None,
    }
}

// How many bytes one pull of two gives.
fn pulls<S: Source>(source: &mut S) -> Option<usize> {
    source.pull(&mut [0; 2]).ok()
}

fn position(cursor: &Cursor<&[u8]>) -> u64 {
    cursor.position()
}

#[test]
fn cursors_read_from_their_position(rt: HostRuntime) {
    let mut cursor = Cursor::new([1u8, 2, 3, 4, 5].as_slice());
    cursor.set_position(1);
    assert!(rt; is_front(&cursor, &[2, 3, 4, 5]));
    assert!(rt; skips(&mut cursor, 1));
    assert!(rt; two(&mut cursor) == Some([3, 4]));
    assert!(rt; two(&mut cursor) == None);
    assert!(rt; !skips(&mut cursor, 2));
    assert_eq!(rt; position(&cursor), 4);
    assert!(rt; pulls(&mut cursor) == Some(1));
    assert_eq!(rt; position(&cursor), 5);
}

#[test]
fn cursors_may_be_after_the_end(rt: HostRuntime) {
    let mut cursor = Cursor::new([1u8, 2, 3, 4, 5].as_slice());
    cursor.set_position(77);
    assert!(rt; pulls(&mut cursor) == Some(0));
    assert!(rt; skips(&mut cursor, 0));
    assert_eq!(rt; position(&cursor), 77);
}

#[test]
fn cursors_over_owned_bytes(rt: HostRuntime) {
    let mut owned: Vec<u8> = Vec::new(rt.alloc());
    owned
        .extend_from_slice(&[1, 2, 3, 4, 5])
        .expect(&rt, "room");
    let mut cursor = Cursor::new(owned);
    assert!(rt; skips(&mut cursor, 3));
    assert!(rt; is_front(&cursor, &[4, 5]));
}

// Whether these bytes come next.
fn gives<R: Source>(reader: &mut ReadReader<R>, wanted: &[u8]) -> bool {
    match reader.read_slice(wanted.len()) {
        Ok(piece) => piece.as_bytes() == wanted,
        Err(_) => false,
    }
}

fn is_cut<R: Source>(reader: &mut ReadReader<R>, len: usize) -> bool {
    match reader.read_slice(len) {
        Err(SourceFault::Io(e)) => e.kind() == ErrorKind::UnexpectedEof,
        _ => false,
    }
}

#[test]
fn pieces_are_copied_in_turn(rt: HostRuntime) {
    let mut long = [0u8; 300];
    long[1] = 1;
    long[199] = 2;
    long[200] = 3;
    long[299] = 4;
    let mut drip = ReadReader::new(rt.alloc(), slow(rt.alloc(), &long, 1));
    assert!(rt; gives(&mut drip, &long[..1]));
    assert!(rt; gives(&mut drip, &long[1..200]));
    assert!(rt; gives(&mut drip, &[]));
    assert!(rt; gives(&mut drip, &long[200..]));
    let mut near = ReadReader::new(rt.alloc(), Cursor::new(long.as_slice()));
    assert!(rt; gives(&mut near, &long[..299]));
    assert!(rt; is_cut(&mut near, 2));
    assert_eq!(rt; position(&near.into_inner()), 300);
}

// The last byte of a buffer, whether there is another one, and how much it then holds.
fn last_byte(mut source: BufSource<Interrupting>) -> (Option<u8>, bool, usize) {
    let mut last = [0; 1];
    let first = source.pull_exact(&mut last).ok().map(|_| last[0]);
    let second = source.pull_exact(&mut last).is_ok();
    (first, second, source.get_ref().buffer().len())
}

#[test]
fn a_buffer_is_read_where_it_lies(rt: HostRuntime) {
    let bytes = [1u8, 2, 3, 4, 5, 6, 7, 8, 9, 10];
    let inner = Interrupting::new(rt.alloc(), &bytes, 2);
    let buffer = BufReader::with_capacity(rt.alloc(), 4, inner).expect(&rt, "a buffer");
    let mut reader = ReadReader::new(rt.alloc(), BufSource::new(buffer));
    for n in 0..9 {
        assert!(rt; gives(&mut reader, &bytes[n..n + 1]));
    }
    assert_eq!(rt; last_byte(reader.into_inner()), (Some(10), false, 0));
}

#[test]
fn a_buffer_grows_where_it_is_filled(rt: HostRuntime) {
    let mut bytes = [0u8; 4000];
    bytes[0] = 1;
    bytes[1023] = 2;
    bytes[1024] = 3;
    bytes[3071] = 4;
    bytes[3072] = 5;
    bytes[3999] = 6;
    let mut source = AheadSource::new(rt.alloc(), Cursor::new(bytes.as_slice()));
    assert_eq!(rt; source.take_1().ok(), Some([1]));
    assert_eq!(rt; source.buffer().len(), 1023);
    assert_eq!(rt; source.get_ref().position(), 1024);
    let mut reader = ReadReader::new(rt.alloc(), source);
    assert!(rt; gives(&mut reader, &bytes[1..1024]));
    assert!(rt; gives(&mut reader, &bytes[1024..1025]));
    assert_eq!(rt; reader.get_ref().get_ref().position(), 3072);
    assert!(rt; gives(&mut reader, &bytes[1025..3100]));
    assert_eq!(rt; reader.get_ref().buffer().len(), 900);
    assert!(rt; is_cut(&mut reader, 901));
    assert_eq!(rt; reader.into_inner().into_inner().position(), 4000);
}

#[test]
fn reading_ahead_goes_on_where_it_was_interrupted(rt: HostRuntime) {
    let bytes = [1u8, 2, 3, 4, 5];
    let inner = Interrupting::new(rt.alloc(), &bytes, 2);
    let mut reader = ReadReader::new(rt.alloc(), AheadSource::new(rt.alloc(), inner));
    assert!(rt; gives(&mut reader, &bytes[..3]));
    assert!(rt; gives(&mut reader, &bytes[3..]));
    assert!(rt; is_cut(&mut reader, 1));
}
