//! A model of the format, head by head, from the MessagePack specification's table. It shares nothing with the library.

/// Why bytes are refused: the statuses of rmp.h.
#[derive(Clone, Copy, Debug, PartialEq, Eq)]
pub enum Refusal {
    End = 1,
    Cut = 2,
    Reserved = 3,
    NotCanonical = 4,
    NotUtf8 = 5,
    TooDeep = 6,
    Longer = 7,
}

/// How lists and maps nest at most: below this.
pub const LIMIT: usize = 1024;

enum Head {
    Leaf,
    Content { len: usize, is_text: bool },
    Parts(u64),
}

struct Met {
    head: Head,
    /// How long the head is.
    len: usize,
    canonical: Vec<u8>,
}

fn number(bytes: &[u8], width: usize) -> Result<u64, Refusal> {
    let taken = bytes.get(..width).ok_or(Refusal::Cut)?;
    Ok(taken.iter().fold(0, |n, b| n << 8 | u64::from(*b)))
}

/// The big-endian bytes of a number in so many of them.
pub fn big_endian(n: u64, width: usize) -> Vec<u8> {
    n.to_be_bytes()[8 - width..].to_vec()
}

/// The shortest head of a number, the one without a sign where two are as short.
pub fn spelled_number(z: i128) -> Vec<u8> {
    let tagged = |tag: u8, width: usize| [vec![tag], big_endian(z as u64, width)].concat();
    match z {
        -32..=127 => vec![z as u8],
        128..=0xff => tagged(0xcc, 1),
        0x100..=0xffff => tagged(0xcd, 2),
        0x1_0000..=0xffff_ffff => tagged(0xce, 4),
        0x1_0000_0000.. => tagged(0xcf, 8),
        -0x80..=-33 => tagged(0xd0, 1),
        -0x8000..=-0x81 => tagged(0xd1, 2),
        -0x8000_0000..=-0x8001 => tagged(0xd2, 4),
        _ => tagged(0xd3, 8),
    }
}

/// The shortest head of a length: the first byte of the short form and how many it says, and the first bytes of the long forms by
/// their widths.
pub fn spelled_length(short: Option<(u8, u64)>, long: &[(u8, usize)], n: u64) -> Vec<u8> {
    if let Some((first, most)) = short
        && n < most
    {
        return vec![first + n as u8];
    }
    let fits = |width: usize| width == 4 || n >> (8 * width) == 0;
    let (first, width) = *long.iter().find(|(_, width)| fits(*width)).expect("a length of 32 bits");
    [vec![first], big_endian(n, width)].concat()
}

pub const TEXTS: &[(u8, usize)] = &[(0xd9, 1), (0xda, 2), (0xdb, 4)];
pub const BYTES: &[(u8, usize)] = &[(0xc4, 1), (0xc5, 2), (0xc6, 4)];
pub const EXTENSIONS: &[(u8, usize)] = &[(0xc7, 1), (0xc8, 2), (0xc9, 4)];
pub const LISTS: &[(u8, usize)] = &[(0xdc, 2), (0xdd, 4)];
pub const MAPS: &[(u8, usize)] = &[(0xde, 2), (0xdf, 4)];

fn leaf(len: usize, canonical: Vec<u8>) -> Met {
    Met { head: Head::Leaf, len, canonical }
}

fn text(len: usize, n: u64) -> Met {
    Met {
        head: Head::Content { len: n as usize, is_text: true },
        len,
        canonical: spelled_length(Some((0xa0, 32)), TEXTS, n),
    }
}

fn list(len: usize, n: u64) -> Met {
    Met { head: Head::Parts(n), len, canonical: spelled_length(Some((0x90, 16)), LISTS, n) }
}

fn map(len: usize, n: u64) -> Met {
    Met { head: Head::Parts(2 * n), len, canonical: spelled_length(Some((0x80, 16)), MAPS, n) }
}

fn extension(len: usize, n: u64, tag: u8) -> Met {
    let mut canonical = match n {
        1 | 2 | 4 | 8 | 16 => vec![0xd4 + n.trailing_zeros() as u8],
        _ => spelled_length(None, EXTENSIONS, n),
    };
    canonical.push(tag);
    Met { head: Head::Content { len: n as usize, is_text: false }, len, canonical }
}

/// The heads of one byte.
fn short_head(first: u8) -> Option<Met> {
    match first {
        0x00..=0x7f => Some(leaf(1, spelled_number(i128::from(first)))),
        0x80..=0x8f => Some(map(1, u64::from(first - 0x80))),
        0x90..=0x9f => Some(list(1, u64::from(first - 0x90))),
        0xa0..=0xbf => Some(text(1, u64::from(first - 0xa0))),
        0xc0 | 0xc2 | 0xc3 | 0xe0..=0xff => Some(leaf(1, vec![first])),
        _ => None,
    }
}

/// The heads that go on after their first byte.
fn long_head(first: u8, rest: &[u8]) -> Result<Met, Refusal> {
    let wide = |base: u8| 1usize << (first - base);
    Ok(match first {
        0xc4..=0xc6 => {
            let width = wide(0xc4);
            let n = number(rest, width)?;
            let canonical = spelled_length(None, BYTES, n);
            Met { head: Head::Content { len: n as usize, is_text: false }, len: 1 + width, canonical }
        }
        0xc7..=0xc9 => {
            let width = wide(0xc7);
            let n = number(rest, width)?;
            extension(2 + width, n, *rest.get(width).ok_or(Refusal::Cut)?)
        }
        0xca | 0xcb => {
            let width = 4 * wide(0xca);
            let bits = number(rest, width)?;
            leaf(1 + width, [vec![first], big_endian(bits, width)].concat())
        }
        0xcc..=0xcf => {
            let width = wide(0xcc);
            leaf(1 + width, spelled_number(i128::from(number(rest, width)?)))
        }
        0xd0..=0xd3 => {
            let width = wide(0xd0);
            let shift = 64 - 8 * width;
            let z = (number(rest, width)? << shift) as i64 >> shift;
            leaf(1 + width, spelled_number(i128::from(z)))
        }
        0xd4..=0xd8 => extension(2, 1 << (first - 0xd4), *rest.first().ok_or(Refusal::Cut)?),
        0xd9..=0xdb => text(1 + wide(0xd9), number(rest, wide(0xd9))?),
        0xdc | 0xdd => list(1 + 2 * wide(0xdc), number(rest, 2 * wide(0xdc))?),
        0xde | 0xdf => map(1 + 2 * wide(0xde), number(rest, 2 * wide(0xde))?),
        _ => return Err(Refusal::Reserved),
    })
}

fn head(bytes: &[u8]) -> Result<Met, Refusal> {
    let (first, rest) = bytes.split_first().ok_or(Refusal::End)?;
    match short_head(*first) {
        Some(met) => Ok(met),
        None => long_head(*first, rest),
    }
}

/// Goes over the message at the front, with what is to be done about each head, and gives how long it is.
fn walk(
    bytes: &[u8],
    mut each: impl FnMut(usize, &[u8], &Met, usize) -> Result<(), Refusal>,
) -> Result<usize, Refusal> {
    let (mut at, mut open) = (0, vec![1u64]);
    loop {
        while open.last() == Some(&0) {
            open.pop();
        }
        let Some(wanted) = open.last_mut() else {
            return Ok(at);
        };
        *wanted -= 1;
        let met = head(&bytes[at..])?;
        each(at, &bytes[at..], &met, open.len())?;
        at += met.len;
        match met.head {
            Head::Leaf => {}
            Head::Content { len, .. } => at += len,
            Head::Parts(n) => open.push(n),
        }
    }
}

fn content<'a>(bytes: &'a [u8], met: &Met, len: usize) -> Result<&'a [u8], Refusal> {
    bytes[met.len..].get(..len).ok_or(Refusal::Cut)
}

/// Where a head is.
#[cfg(feature = "original")]
pub struct Place {
    /// Its first byte.
    pub first: u8,
    /// Where what is there after it begins, and how much of that is its content.
    pub content: usize,
    pub len: usize,
}

/// The heads of the message at the front, up to the first that is cut or has its content cut.
#[cfg(feature = "original")]
pub fn places(bytes: &[u8]) -> Vec<Place> {
    let mut places = Vec::new();
    let _ = walk(bytes, |at, front, met, _| {
        let len = match met.head {
            Head::Content { len, .. } => len,
            _ => 0,
        };
        places.push(Place { first: front[0], content: at + met.len, len });
        content(front, met, len).map(|_| ())
    });
    places
}

/// Whether the bytes begin with the canonical spelling of a message: how long it is, or the refusal and the place where it comes.
pub fn check(bytes: &[u8]) -> Result<usize, (Refusal, usize)> {
    let mut place = 0;
    walk(bytes, |at, front, met, _| {
        place = at;
        if front[..met.len] != met.canonical {
            return Err(Refusal::NotCanonical);
        }
        match met.head {
            Head::Content { len, .. } => content(front, met, len).map(|_| ()),
            _ => Ok(()),
        }
    })
    .map_err(|refusal| (refusal, place))
}

/// How long the message at the front is.
pub fn length(bytes: &[u8]) -> Result<usize, Refusal> {
    walk(bytes, |_, front, met, _| match met.head {
        Head::Content { len, .. } => content(front, met, len).map(|_| ()),
        _ => Ok(()),
    })
}

/// Whether a message can be passed over.
pub fn can_be_passed(bytes: &[u8]) -> bool {
    let passed = walk(bytes, |_, front, met, around| match met.head {
        Head::Content { len, .. } => content(front, met, len).map(|_| ()),
        Head::Parts(_) if around >= LIMIT => Err(Refusal::TooDeep),
        _ => Ok(()),
    });
    passed.is_ok()
}

/// The canonical spelling of the message that the bytes are.
pub fn canonical(bytes: &[u8]) -> Result<Vec<u8>, Refusal> {
    let mut out = Vec::new();
    let len = walk(bytes, |_, front, met, around| {
        out.extend_from_slice(&met.canonical);
        match met.head {
            Head::Content { len, is_text } => {
                let content = content(front, met, len)?;
                if is_text && std::str::from_utf8(content).is_err() {
                    return Err(Refusal::NotUtf8);
                }
                out.extend_from_slice(content);
            }
            Head::Parts(_) if around >= LIMIT => return Err(Refusal::TooDeep),
            _ => {}
        }
        Ok(())
    })?;
    if len < bytes.len() { Err(Refusal::Longer) } else { Ok(out) }
}
