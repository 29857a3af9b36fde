//! A type that refuses a value, inside of each container: the container's error is the type's own.
ghost use Rattle.std.specs.Prelude.{⊤, ◌==◌, if◌then◌else◌, None, Some, pos};
ghost use Rattle.rmp_encode.specs.Data.{whole};

use rmp_encode::{Both, Error, Serialize, Serializer, to_vec, write};
use rmp_wire::Sink;
use rmp_wire::config::{BytesMode, SerializerConfig};
use std::boxed::Box;
use std::collections::{BTreeMap, BTreeSet, VecDeque};
use std::test::Fail;

// A number that isn't 13.
#[derive(Clone, Copy, Drop, PartialEq, Eq, PartialOrd, Ord)]
struct Floor(u16);

impl Serialize for Floor {
    ghost data_of = { λ v _. if v.0 == 13 then None else Some (whole (pos v.0)) };

    ghost is_value = { λ v. ⊤ };

    fn serialize<W: Sink, C: SerializerConfig>(
        &self,
        se: &mut Serializer<W, C>,
    ) -> Result<(), Error> {
        if self.0 == 13 {
            return Err(Error::Syntax("no thirteenth"));
        }
        se.serialize_u16(self.0)
    }

    fn as_u8(&self, _human: bool) -> Option<u8> {
        None
    }
}

fn is_own(answer: &Result<(), Error>) -> bool {
    matches!(answer, Err(Error::Syntax("no thirteenth")))
}

// Whether the value is refused for its floor, in each mode and by each call.
fn refuses<T: Serialize>(rt: &HostRuntime, value: &T) -> bool {
    let modes = [
        BytesMode::Normal,
        BytesMode::ForceIterables,
        BytesMode::ForceAll,
    ];
    for mode in modes {
        let mut se = Serializer::new(rt.alloc(), Vec::new(rt.alloc())).with_bytes(mode);
        if !is_own(&value.serialize(&mut se)) {
            return false;
        }
    }
    let mut sink = Vec::new(rt.alloc());
    if !is_own(&write(rt.alloc(), &mut sink, value)) {
        return false;
    }
    match to_vec(rt.alloc(), value) {
        Ok(_bytes) => false,
        Err(e) => is_own(&Err(e)),
    }
}

#[test]
fn pointers_and_options(rt: HostRuntime) -> Result<(), Fail> {
    assert!(rt; refuses(&rt, &Floor(13)));
    assert!(rt; refuses(&rt, &&Floor(13)));
    assert!(rt; refuses(&rt, &Box::new(rt.alloc(), Floor(13))?));
    assert!(rt; refuses(&rt, &Some(Floor(13))));
    assert!(rt; !refuses(&rt, &Some(Floor(12))));
    Ok(())
}

#[test]
fn lists_and_maps(rt: HostRuntime) -> Result<(), Fail> {
    let floors = [Floor(1), Floor(13)];
    assert!(rt; refuses(&rt, &floors));
    assert!(rt; refuses(&rt, &floors.as_slice()));
    assert!(rt; refuses(&rt, &vec![in rt.alloc(); Floor(1), Floor(13)]?));
    let mut queue = VecDeque::new(rt.alloc());
    queue.push_back(Floor(13))?;
    assert!(rt; refuses(&rt, &queue));
    let mut set = BTreeSet::new(rt.alloc());
    set.insert(Floor(13))?;
    assert!(rt; refuses(&rt, &set));
    let mut of_keys = BTreeMap::new(rt.alloc());
    of_keys.insert(Floor(13), 1u8)?;
    assert!(rt; refuses(&rt, &of_keys));
    let mut of_values = BTreeMap::new(rt.alloc());
    of_values.insert(1u8, Floor(13))?;
    assert!(rt; refuses(&rt, &of_values));
    Ok(())
}

#[test]
fn tuples(rt: HostRuntime) -> Result<(), Fail> {
    assert!(rt; refuses(&rt, &(Floor(13),)));
    assert!(rt; refuses(&rt, &(1u8, Floor(13))));
    assert!(rt; refuses(&rt, &(1u8, 2u8, Floor(13))));
    assert!(rt; refuses(&rt, &(1u8, Floor(13), 3u8, 4u8, 5u8, 6u8, 7u8, 8u8)));
    assert!(rt; refuses(&rt, &((1u8, Floor(13)), [Floor(1)])));
    assert!(rt; refuses(&rt, &[(1u8, Floor(1)), (2u8, Floor(13))]));
    Ok(())
}

#[test]
fn what_is_opened(rt: HostRuntime) -> Result<(), Fail> {
    let mut se = Serializer::new(rt.alloc(), Vec::new(rt.alloc()));
    let mut list = se.serialize_seq(Some(1))?;
    assert!(rt; is_own(&list.serialize_element(&Floor(13))));
    drop(list);
    let mut kept = se.serialize_seq(None)?;
    assert!(rt; is_own(&kept.serialize_element(&Floor(13))));
    drop(kept);
    let mut of_keys = se.serialize_map(Some(1))?;
    assert!(rt; is_own(&of_keys.serialize_key(&Floor(13))));
    drop(of_keys);
    let mut of_values = se.serialize_map(None)?;
    of_values.serialize_key(&1u8)?;
    assert!(rt; is_own(&of_values.serialize_value(&Floor(13))));
    drop(of_values);
    let mut tuple = se.serialize_tuple(1)?;
    assert!(rt; is_own(&tuple.serialize_element(&Floor(13))));
    drop(tuple);
    let mut elements = se.serialize_tuple_struct("Way", 1)?;
    assert!(rt; is_own(&elements.serialize_element(&Floor(13))));
    drop(elements);
    let mut fields = se.serialize_struct("Way", 1)?;
    assert!(rt; is_own(&fields.serialize_field("to", &Floor(13))));
    drop(fields);
    Ok(())
}

#[test]
fn what_one_call_writes(rt: HostRuntime) -> Result<(), Fail> {
    let mut se = Serializer::new(rt.alloc(), Vec::new(rt.alloc()));
    assert!(rt; is_own(&se.serialize_some(&Floor(13))));
    assert!(rt; is_own(&se.serialize_newtype_struct("Way", &Floor(13))));
    assert!(rt; is_own(&se.serialize_newtype_variant("Way", 0, "Up", &Floor(13))));
    assert!(rt; is_own(&se.collect_seq(&[Floor(1), Floor(13)])));
    let (from, to) = (Floor(1), Floor(13));
    let way = Both {
        first: &from,
        second: &to,
    };
    assert!(rt; is_own(&se.serialize_elements("Way", &way)));
    assert!(rt; is_own(&se.serialize_fields("Way", &["from", "to"], &way)));
    assert!(rt; is_own(&se.serialize_tuple_variant_of("Way", 0, "Up", &way)));
    assert!(rt; is_own(&se.serialize_struct_variant_of("Way", 0, "Up", &["from", "to"], &way)));
    Ok(())
}
