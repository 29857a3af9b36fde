//! Gives the exports of crates/rmp_c, and of bench_shapes, bench_strict and bench_fuzz in bench/libraries, messages that a generator makes and
//! spoils, for so many seconds from a seed.

#[cfg(not(feature = "original"))]
mod alone;
#[cfg(feature = "original")]
mod beside;
mod generator;
#[cfg(feature = "original")]
mod lists;
mod model;
#[cfg(feature = "original")]
mod original;
#[cfg(feature = "original")]
mod reasons;
mod typed;

#[cfg(not(feature = "original"))]
use alone::Compared;
#[cfg(feature = "original")]
use beside::Compared;
use generator::Random;
use model::Refusal;
use std::time::{Duration, Instant};

/// What is at a place, as rmp.h says it.
#[repr(C)]
#[derive(Default)]
struct Item {
    kind: u32,
    items: u32,
    number: u64,
    start: usize,
    len: usize,
}

unsafe extern "C" {
    fn rmp_next(bytes: *const u8, len: usize, at: usize, item: &mut Item) -> u32;
    fn rmp_check(bytes: *const u8, len: usize, place: &mut usize) -> u32;
    fn rmp_canonical(bytes: *const u8, len: usize, out: *mut u8, room: usize, written: &mut usize) -> u32;
}

type OfBytes = unsafe extern "C" fn(*const u8, usize, u32) -> usize;

macro_rules! typed {
    ($($name:ident)*) => {
        unsafe extern "C" {
            $(fn $name(data: *const u8, count: usize, reps: u32) -> usize;)*
        }

        /// Each reads a list of values of a type, and answers how many there are, or none where it is refused.
        const TYPED: &[(&str, OfBytes)] = &[$((stringify!($name), $name)),*];
    };
}

typed! {
    bench_buffered_numbers
    bench_buffered_texts
    bench_cursor_numbers
    bench_cursor_texts
    bench_read_bool
    bench_read_buffer
    bench_read_bytes
    bench_read_char
    bench_read_eight
    bench_read_f64
    bench_read_five
    bench_read_i64
    bench_read_map
    bench_read_named_map
    bench_read_option
    bench_read_queue
    bench_read_shape
    bench_read_str
    bench_read_text
    bench_read_twelve
    bench_read_two
    bench_read_u128
    bench_skip
}

macro_rules! strict {
    ($($name:ident as $other:ident)*) => {
        unsafe extern "C" {
            $(fn $name(data: *const u8, count: usize, reps: u32) -> usize;)*
        }

        /// Each reads strictly what the other call beside it reads.
        const STRICT: &[(&str, OfBytes, OfBytes)] = &[$((stringify!($name), $name, $other)),*];
    };
}

strict! {
    bench_strict_buffer as bench_read_buffer
    bench_strict_bytes as bench_read_bytes
    bench_strict_char as bench_read_char
    bench_strict_f64 as bench_read_f64
    bench_strict_i64 as bench_read_i64
    bench_strict_map as bench_read_map
    bench_strict_option as bench_read_option
    bench_strict_skip as bench_skip
    bench_strict_text as bench_read_text
    bench_strict_u128 as bench_read_u128
}

/// What was answered, where it isn't what the model says.
type Answered = Result<(), String>;

pub fn same<T: PartialEq + std::fmt::Debug>(call: &str, said: T, wanted: T) -> Answered {
    if said == wanted { Ok(()) } else { Err(format!("{call}: {said:?}, and not {wanted:?}")) }
}

fn check(bytes: &[u8]) -> Result<usize, (u32, usize)> {
    let mut place = 0;
    // SAFETY: the call reads the slice, which it is given as a pointer and a length, writes to the place, and keeps nothing.
    match unsafe { rmp_check(bytes.as_ptr(), bytes.len(), &mut place) } {
        0 => Ok(place),
        status => Err((status, place)),
    }
}

fn canonical(bytes: &[u8], room: usize) -> Result<Vec<u8>, (u32, usize)> {
    let (mut out, mut written) = (vec![0; room], 0);
    // SAFETY: as above; it writes to the room and to the length alone.
    match unsafe { rmp_canonical(bytes.as_ptr(), bytes.len(), out.as_mut_ptr(), room, &mut written) } {
        0 => {
            out.truncate(written);
            Ok(out)
        }
        status => Err((status, written)),
    }
}

/// How long the message at the front is, head by head.
fn length(bytes: &[u8]) -> Result<usize, u32> {
    let (mut at, mut open) = (0, vec![1u64]);
    while let Some(wanted) = open.last_mut() {
        if *wanted == 0 {
            open.pop();
            continue;
        }
        *wanted -= 1;
        let mut item = Item::default();
        // SAFETY: as above; it writes to the item alone.
        match unsafe { rmp_next(bytes.as_ptr(), bytes.len(), at, &mut item) } {
            0 => at = item.start + item.len,
            status => return Err(status),
        }
        match item.kind {
            8 => open.push(u64::from(item.items)),
            9 => open.push(2 * u64::from(item.items)),
            _ => {}
        }
    }
    Ok(at)
}

fn read(call: OfBytes, bytes: &[u8], reps: u32) -> usize {
    // SAFETY: as above.
    unsafe { call(bytes.as_ptr(), bytes.len(), reps) }
}

/// Gives the bytes to every read of a type, with one of the forms to write in for each, and compares.
fn try_types(bytes: &[u8], turn: u64, compared: &mut Compared) -> Answered {
    compared.of_skip(bytes, &typed::try_skip(bytes)?)?;
    for kind in 0..typed::TYPES.len() {
        let form = ((turn + kind as u64) % 4) as u32;
        compared.of_type(kind, bytes, form, &typed::try_type(kind, bytes, form)?)?;
    }
    Ok(())
}

/// Gives the bytes to every other call.
fn try_all(bytes: &[u8], compared: &mut Compared) -> Result<Option<Refusal>, String> {
    let wanted = model::check(bytes);
    let told = match check(bytes) {
        // before a head that isn't canonical no place is said
        Err((status, place)) => Err((status, if status == Refusal::NotCanonical as u32 { place } else { 0 })),
        whole => whole,
    };
    let place = |(refusal, at)| (refusal as u32, if refusal == Refusal::NotCanonical { at } else { 0 });
    same("rmp_check", told, wanted.map_err(place))?;
    same("rmp_next", length(bytes), model::length(bytes).map_err(|refusal| refusal as u32))?;
    let spelled = model::canonical(bytes);
    let said = canonical(bytes, bytes.len()).map_err(|(status, _)| status);
    same("rmp_canonical", said, spelled.clone().map_err(|refusal| refusal as u32))?;
    let passed = usize::from(model::can_be_passed(bytes));
    for (name, call) in TYPED {
        let once = read(*call, bytes, 1);
        same(&format!("{name}, twice"), read(*call, bytes, 2), 2 * once)?;
        compared.of_list(name, bytes, once)?;
        if *name == "bench_skip" {
            same(name, once, passed)?;
        } else if let Ok(shortest) = &spelled {
            // what is read depends on the message alone, and no beginning of its spelling is read
            same(&format!("{name}, of the canonical spelling"), read(*call, shortest, 1), once)?;
            same(&format!("{name}, cut"), read(*call, &bytes[..bytes.len() - 1], 1), 0)?;
        }
    }
    for (name, strict, other) in STRICT {
        let taken = read(*other, bytes, 1);
        same(name, read(*strict, bytes, 1), if wanted.is_ok() { taken } else { 0 })?;
        if let Ok(shortest) = &spelled {
            same(&format!("{name}, of the canonical spelling"), read(*strict, shortest, 1), taken)?;
        }
    }
    if let Ok(shortest) = &spelled {
        same("rmp_check, of the canonical spelling", check(shortest), Ok(shortest.len()))?;
        let short = canonical(bytes, shortest.len() - 1);
        same("rmp_canonical, without room", short, Err((8, shortest.len())))?;
    }
    Ok(spelled.err())
}

/// How many inputs are made from one seed.
const BLOCK: u64 = 1000;

fn main() {
    let words: Vec<u64> = std::env::args().skip(1).map(|word| word.parse().expect("a number")).collect();
    let (end, first) = (Instant::now() + Duration::from_secs(words[0]), words[1]);
    let (mut inputs, mut whole, mut refused) = (0u64, 0u64, [0u64; 8]);
    let mut compared = Compared::default();
    for seed in first.. {
        eprintln!("seed {seed}");
        let mut random = Random::new(seed);
        for _ in 0..BLOCK {
            let bytes = generator::input(&mut random);
            match try_types(&bytes, inputs, &mut compared).and_then(|()| try_all(&bytes, &mut compared)) {
                Ok(None) => whole += 1,
                Ok(Some(refusal)) => refused[refusal as usize] += 1,
                Err(what) => {
                    let digits: String = bytes.iter().map(|b| format!("{b:02x}")).collect();
                    println!("{what}\nseed {seed}, input {digits}");
                    std::process::exit(1);
                }
            }
            inputs += 1;
        }
        if Instant::now() >= end {
            break;
        }
    }
    println!("{inputs} inputs, no difference and no crash: {whole} whole messages; refused {}", counts(&refused));
    compared.print();
}

fn counts(refused: &[u64; 8]) -> String {
    let names = [
        (Refusal::End, "at the end of the bytes"),
        (Refusal::Cut, "inside of a head or of content"),
        (Refusal::Reserved, "at the byte c1"),
        (Refusal::NotUtf8, "at a text that isn't UTF-8"),
        (Refusal::TooDeep, "for their depth"),
        (Refusal::Longer, "with bytes after the message"),
    ];
    let said: Vec<String> = names.iter().map(|(refusal, name)| format!("{} {name}", refused[*refusal as usize])).collect();
    said.join(", ")
}
