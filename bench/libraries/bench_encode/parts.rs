//! A list of numbers whose elements are written one by one.
use rmp_encode::{Error, Serializer};
use rmp_wire::config::SerializerConfig;
use rmp_wire::{Sink, ValueWriteError, write_array_len, write_uint};

/// As a list whose length is told.
pub fn write_counted<W: Sink, C: SerializerConfig>(
    se: &mut Serializer<W, C>,
    numbers: &[u32],
) -> Result<(), Error> {
    let mut seq = se.serialize_seq(Some(numbers.len()))?;
    for n in numbers {
        seq.serialize_element(n)?;
    }
    seq.end()
}

/// As a list whose length isn't told.
pub fn write_uncounted<W: Sink, C: SerializerConfig>(
    se: &mut Serializer<W, C>,
    numbers: &[u32],
) -> Result<(), Error> {
    let mut seq = se.serialize_seq(None)?;
    for n in numbers {
        seq.serialize_element(n)?;
    }
    seq.end()
}

/// As a tuple.
pub fn write_tuple<W: Sink, C: SerializerConfig>(
    se: &mut Serializer<W, C>,
    numbers: &[u32],
) -> Result<(), Error> {
    let mut tuple = se.serialize_tuple(numbers.len())?;
    for n in numbers {
        tuple.serialize_element(n)?;
    }
    tuple.end()
}

/// By the serializer's calls of single values, after a head that the wire writes.
pub fn write_values<W: Sink, C: SerializerConfig>(
    se: &mut Serializer<W, C>,
    numbers: &[u32],
) -> Result<(), Error> {
    let Ok(len) = u32::try_from(numbers.len()) else {
        return Ok(());
    };
    write_array_len(se.get_mut(), len)?;
    for n in numbers {
        se.serialize_u32(*n)?;
    }
    Ok(())
}

/// By the wire's calls alone, one for the head and one for each number. Numbers past 32 bits of them aren't written.
pub fn write_wire<W: Sink>(out: &mut W, numbers: &[u32]) -> Result<(), ValueWriteError> {
    let Ok(len) = u32::try_from(numbers.len()) else {
        return Ok(());
    };
    write_array_len(out, len)?;
    for n in numbers {
        write_uint(out, u64::from(*n))?;
    }
    Ok(())
}
