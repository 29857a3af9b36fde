//! The limit on nesting.
use super::rows::{TOO_DEEP, gives, reader, refused};
use rmp_decode::{Deserialize, Deserializer, Error};
use rmp_wire::config::SerializerConfig;
use rmp_wire::{ReadRefReader, Source};
use std::alloc::Global;

// So many lists of one element, and then an empty one.
fn lists(alloc: Global, times: usize) -> Result<Vec<u8>, Error> {
    let mut input = Vec::new(alloc);
    for _ in 0..times {
        input.push(0x91)?;
    }
    input.push(0x90)?;
    Ok(input)
}

// Passes over so many lists in one another, under a limit.
fn passed(rt: &impl AllocGlobal, times: usize, limit: usize) -> Result<(), Error> {
    let input = lists(rt.alloc(), times)?;
    let mut de = reader(rt, &input);
    de.set_max_depth(limit);
    de.deserialize_ignored_any()
}

#[test]
fn limits(rt: HostRuntime) {
    for (times, limit) in [(98, 100), (1022, 1024), (60_000, 65_000), (65_533, 70_000)] {
        gives(&rt, passed(&rt, times, limit), ());
        refused(&rt, passed(&rt, limit.min(65_535), limit), TOO_DEEP);
    }
    for (times, limit) in [(99, 100), (1023, 1024), (65_534, 70_000)] {
        refused(&rt, passed(&rt, times, limit), TOO_DEEP);
    }
}

fn read<'de, T: Deserialize<'de, ReadRefReader<'de>>>(
    rt: &impl AllocGlobal,
    limit: usize,
    input: &'de [u8],
) -> Result<T, Error> {
    let mut de = reader(rt, input);
    de.set_max_depth(limit);
    T::deserialize(&mut de)
}

type Pair = (u8, (u8, u8));

#[test]
fn least_limit(rt: HostRuntime) {
    for limit in [0, 1] {
        gives(&rt, read(&rt, limit, &[0x2a]), 42u8);
        refused::<Vec<u8>>(&rt, read(&rt, limit, &[0x90]), TOO_DEEP);
        gives(&rt, read(&rt, limit, &[0xc4, 2, 1, 9]), (1u8, 9u8));
    }
    let input = [0x92, 1, 0x92, 2, 3];
    gives::<Pair>(&rt, read(&rt, 3, &input), (1, (2, 3)));
    refused::<Pair>(&rt, read(&rt, 2, &input), TOO_DEEP);
}

// Sets the limit inside of a list, and passes over its element.
fn within<R: Source, C: SerializerConfig>(
    de: &mut Deserializer<R, C>,
    limit: usize,
) -> Result<(), Error> {
    de.set_max_depth(limit);
    match de.deserialize_seq() {
        Ok(seq) => seq.end(),
        Err(e) => Err(e),
    }
}

fn within_three<R: Source, C: SerializerConfig>(de: &mut Deserializer<R, C>) -> Result<(), Error> {
    // what was set before counts no more
    de.set_max_depth(1);
    within(de, 3)
}

fn within_two<R: Source, C: SerializerConfig>(de: &mut Deserializer<R, C>) -> Result<(), Error> {
    within(de, 2)
}

// Reads an empty list inside of a list, under a limit that is set there.
fn inner_list<R: Source, C: SerializerConfig>(de: &mut Deserializer<R, C>) -> Result<(), Error> {
    let mut seq = match de.deserialize_seq() {
        Ok(seq) => seq,
        Err(e) => return Err(e),
    };
    match seq.next_element_with(within_three) {
        Ok(_) => {}
        Err(e) => return Err(e),
    }
    match seq.next_element_with(within_two) {
        Ok(_) => {}
        Err(e) => return Err(e),
    }
    seq.end()
}

fn list_of_lists<R: Source, C: SerializerConfig>(
    de: &mut Deserializer<R, C>,
) -> Result<Option<()>, Error> {
    let mut seq = match de.deserialize_seq() {
        Ok(seq) => seq,
        Err(e) => return Err(e),
    };
    seq.next_element_with(inner_list)
}

#[test]
fn limit_inside(rt: HostRuntime) {
    // two levels are open where the limit is set: 3 leaves one, and 2 leaves none
    let mut de = reader(&rt, &[0x91, 0x92, 0x90, 0x90]);
    refused(&rt, list_of_lists(&mut de), TOO_DEEP);
}
