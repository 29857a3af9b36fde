//! What the derived types are written as and read from.
use rmp_decode::{
    Deserialize, Deserializer, Error, Text, from_read, from_slice, from_slice_strict,
};
use rmp_encode::{Serialize, Serializer, to_vec, to_vec_named, write_named};
use rmp_wire::{Bytes, Marker};
use std::alloc::Global;
use std::io::Cursor;
use std::test::Fail;
use test_derived::{Counted, Dog, Four, Mixed, Newtype, Opt, Point, Two, Unit, V12};
use test_lent::{Event, Label, Line, Piece};
use test_wide::{Chart, Manifest, Papers, Survey};

fn dog(alloc: Global, name: &str, age: u16) -> Result<Dog, Fail> {
    Ok(Dog {
        name: String::from_str(alloc, name)?,
        age,
    })
}

#[test]
fn a_dog(rt: HostRuntime) -> Result<(), Fail> {
    let bobby = dog(rt.alloc(), "Bobby", 8)?;
    assert_eq!(rt;
        to_vec(rt.alloc(), &bobby)?.as_slice(),
        b"\x92\xa5Bobby\x08".as_slice()
    );
    assert_eq!(rt;
        to_vec_named(rt.alloc(), &bobby)?.as_slice(),
        b"\x82\xa4name\xa5Bobby\xa3age\x08".as_slice()
    );
    for input in [
        b"\x83\xa1\x78\x81\x05\x90\xa3age\x08\xa4name\xa5Bobby".as_slice(),
        b"\x82\x01\x08\x00\xa5Bobby",
        b"\x92\xa5Bobby\x08",
    ] {
        let read: Result<Dog, Error> = from_slice(rt.alloc(), input);
        assert!(rt; matches!(&read, Ok(dog) if dog.name.as_str() == "Bobby" && dog.age == 8));
    }
    Ok(())
}

#[test]
fn other_dogs(rt: HostRuntime) {
    let read: Result<Dog, Error> = from_slice(rt.alloc(), b"\x82\x01\x08\x00\xa1A");
    assert!(rt; matches!(&read, Ok(dog) if dog.name.as_str() == "A" && dog.age == 8));
    let wide = b"\x83\xa1\x78\x81\xcc\x05\x90\xa3age\x08\xa4name\xa5Bobby";
    let read: Result<Dog, Error> = from_slice(rt.alloc(), wide);
    assert!(rt; matches!(&read, Ok(dog) if dog.name.as_str() == "Bobby" && dog.age == 8));
}

#[test]
fn no_dog(rt: HostRuntime) {
    let read: Result<Dog, Error> = from_slice(rt.alloc(), b"\x82\xa3age\x08\xa3age\x08");
    assert!(rt; matches!(&read, Err(Error::Syntax(Text::DuplicateField))));
    let read: Result<Dog, Error> = from_slice(rt.alloc(), b"\x81\xa4name\xa1A");
    assert!(rt; matches!(&read, Err(Error::Syntax(Text::MissingField(_)))));
    let read: Result<Dog, Error> = from_slice(rt.alloc(), b"\x92\xa5a");
    assert!(rt; matches!(&read, Err(Error::InvalidDataRead(_))));
    let read: Result<Dog, Error> = from_slice_strict(
        rt.alloc(),
        b"\x83\xa1\x78\x81\xcc\x05\x90\xa3age\x08\xa4name\xa5Bobby",
    );
    assert!(rt; matches!(&read, Err(Error::NotCanonical)));
}

#[test]
fn a_field_that_may_be_missing(rt: HostRuntime) -> Result<(), Fail> {
    let none = Opt { v: None };
    assert_eq!(rt;
        to_vec(rt.alloc(), &none)?.as_slice(),
        b"\x91\xc0".as_slice()
    );
    assert_eq!(rt;
        to_vec_named(rt.alloc(), &Opt { v: Some(1) })?.as_slice(),
        b"\x81\xa1v\x01".as_slice()
    );
    let read: Result<Opt, Error> = from_slice(rt.alloc(), b"\x80");
    assert!(rt; matches!(&read, Ok(Opt { v: None })));
    let read: Result<Opt, Error> = from_slice(rt.alloc(), b"\x90");
    assert!(rt; matches!(&read, Err(Error::Syntax(Text::InvalidLength))));
    Ok(())
}

#[test]
fn many_fields(rt: HostRuntime) -> Result<(), Fail> {
    let papers = Papers {
        number: 7,
        name: String::from_str(rt.alloc(), "A")?,
        born: 300,
        chip: None,
        mother: Some(1),
        father: None,
        weight: 9,
        height: -1,
        vaccinated: true,
    };
    assert_eq!(rt;
        to_vec(rt.alloc(), &papers)?.as_slice(),
        b"\x99\x07\xa1A\xcd\x01\x2c\xc0\x01\xc0\x09\xff\xc3".as_slice()
    );
    let read: Result<Papers, Error> = from_slice(
        rt.alloc(),
        b"\x86\xaavaccinated\xc3\xa6number\x07\xa4name\xa1A\xa6height\xff\xa6weight\x09\xa4born\xcd\x01\x2c",
    );
    assert!(rt;
        matches!(
            &read,
            Ok(Papers {
                number: 7,
                chip: None,
                height: -1,
                vaccinated: true,
                ..
            })
        )
    );
    let read: Result<Papers, Error> = from_slice(rt.alloc(), b"\x81\xa6number\x07");
    assert!(rt; matches!(&read, Err(Error::Syntax(Text::MissingField(_)))));
    Ok(())
}

const CHART: &[u8] =
    b"\xdc\x00\x10\x07\xa1A\xcd\x01\x2c\x09\xff\xd0\xdf\xcd\x80\x00\xd3\xff\xff\xff\xff\x00\x00\x00\x00\
    \xc3\xc0\xa1B\x92\x01\xcd\x03\xe8\x91\xa1C\x50\x51\xa1D";

const CHART_IN_REVERSE: &[u8] =
    b"\xde\x00\x0f\xa4last\xa1D\xa5lungs\x51\xa5heart\x50\xa5notes\x91\xa1C\xa5shots\x92\x01\xcd\x03\xe8\
    \xa5owner\xa1B\xa8neutered\xc3\xa7balance\xd3\xff\xff\xff\xff\x00\x00\x00\x00\xa6offset\xcd\x80\x00\xa5fever\xd0\xdf\
    \xa6height\xff\xa6weight\x09\xa4born\xcd\x01\x2c\xa4name\xa1A\xa6number\x07";

fn is_chart(chart: &Chart) -> bool {
    let numbers = matches!(
        chart,
        Chart {
            number: 7,
            born: 300,
            weight: 9,
            height: -1,
            fever: -33,
            offset: 32768,
            balance: -4294967296,
            neutered: true,
            chip: None,
            heart: 80,
            lungs: 81,
            ..
        }
    );
    let lists = matches!(chart.shots.as_slice(), [1, 1000])
        && matches!(chart.notes.as_slice(), [note] if note.as_str() == "C");
    let owned = matches!(&chart.owner, Some(owner) if owner.as_str() == "B");
    numbers && lists && owned && chart.name.as_str() == "A" && chart.last.as_str() == "D"
}

#[test]
fn as_many_fields_as_may_be(rt: HostRuntime) -> Result<(), Fail> {
    let read: Result<Chart, Error> = from_slice(rt.alloc(), CHART);
    assert!(rt; matches!(&read, Ok(chart) if is_chart(chart)));
    if let Ok(chart) = &read {
        assert_eq!(rt; to_vec(rt.alloc(), chart)?.as_slice(), CHART);
    }
    let read: Result<Chart, Error> = from_slice(rt.alloc(), CHART_IN_REVERSE);
    assert!(rt; matches!(&read, Ok(chart) if is_chart(chart)));
    let read: Result<Chart, Error> = from_slice(rt.alloc(), b"\x82\xa4last\xa1D\xa4last\xa1D");
    assert!(rt; matches!(&read, Err(Error::Syntax(Text::DuplicateField))));
    let read: Result<Chart, Error> = from_slice(rt.alloc(), b"\x81\xa4last\xa1D");
    assert!(rt; matches!(&read, Err(Error::Syntax(Text::MissingField(_)))));
    let read: Result<Chart, Error> = from_slice(rt.alloc(), b"\x94\x07\xa1A\xcd\x01\x2c\x09");
    assert!(rt; matches!(&read, Err(Error::Syntax(Text::InvalidLength))));
    Ok(())
}

#[test]
fn structs_without_names(rt: HostRuntime) -> Result<(), Fail> {
    let point = Point(300, String::from_str(rt.alloc(), "a")?);
    assert_eq!(rt;
        to_vec(rt.alloc(), &point)?.as_slice(),
        b"\x92\xcd\x01\x2c\xa1a".as_slice()
    );
    let read: Result<Point, Error> = from_slice(rt.alloc(), b"\x92\xcd\x01\x2c\xa1a");
    assert!(rt; matches!(&read, Ok(point) if point.0 == 300 && point.1.as_str() == "a"));
    let number = Newtype(42);
    assert_eq!(rt; to_vec(rt.alloc(), &number)?.as_slice(), b"\x2a".as_slice());
    let mut named = Vec::new(rt.alloc());
    write_named(rt.alloc(), &mut named, &number)?;
    assert_eq!(rt; named.as_slice(), b"\x2a".as_slice());
    let read: Result<Newtype, Error> = from_slice(rt.alloc(), b"\x2a");
    assert!(rt; matches!(&read, Ok(Newtype(42))));
    assert_eq!(rt; to_vec(rt.alloc(), &Unit)?.as_slice(), b"\x90".as_slice());
    let read: Result<Unit, Error> = from_slice(rt.alloc(), b"\xdc\x00\x00");
    assert!(rt; read.is_ok());
    let read: Result<Unit, Error> = from_slice_strict(rt.alloc(), b"\xdc\x00\x00");
    assert!(rt; matches!(&read, Err(Error::NotCanonical)));
    Ok(())
}

#[test]
fn types_inside(rt: HostRuntime) -> Result<(), Fail> {
    let counted = Counted {
        value: dog(rt.alloc(), "A", 1)?,
        count: 2,
    };
    assert_eq!(rt;
        to_vec(rt.alloc(), &counted)?.as_slice(),
        b"\x92\x92\xa1A\x01\x02".as_slice()
    );
    let read: Result<Counted<Dog>, Error> = from_slice(
        rt.alloc(),
        b"\x82\xa5count\x02\xa5value\x92\xa1A\x01",
    );
    assert!(rt; matches!(&read, Ok(counted) if counted.value.age == 1 && counted.count == 2));
    let mixed: Mixed<u8> = Mixed::Kept {
        four: Some(Four::New(200)),
        dog: dog(rt.alloc(), "A", 1)?,
    };
    let bytes = to_vec(rt.alloc(), &mixed)?;
    assert_eq!(rt;
        bytes.as_slice(),
        b"\x81\xa4Kept\x92\x81\xa3New\xcc\xc8\x92\xa1A\x01".as_slice()
    );
    let read: Result<Mixed<u8>, Error> = from_slice(rt.alloc(), bytes.as_slice());
    assert!(rt;
        matches!(
            &read,
            Ok(Mixed::Kept {
                four: Some(Four::New(200)),
                ..
            })
        )
    );
    Ok(())
}

#[test]
fn variants_in_a_row(rt: HostRuntime) -> Result<(), Fail> {
    let mut se = Serializer::new(rt.alloc(), Vec::new(rt.alloc()));
    V12::V1.serialize(&mut se)?;
    V12::V2(42, 100500).serialize(&mut se)?;
    let bytes = b"\xa2V1\x81\xa2V2\x92\x2a\xce\x00\x01\x88\x94";
    assert_eq!(rt; se.into_inner().as_slice(), bytes.as_slice());
    let mut de = Deserializer::from_read_ref(rt.alloc(), bytes);
    assert!(rt; matches!(&V12::deserialize(&mut de), Ok(V12::V1)));
    assert!(rt; matches!(&V12::deserialize(&mut de), Ok(V12::V2(42, 100500))));
    assert!(rt; de.remaining_slice().is_empty());
    let read: Result<V12, Error> = from_slice(rt.alloc(), b"\xa2V2");
    assert!(rt; matches!(&read, Err(Error::Syntax(Text::InvalidType))));
    // the content's error, and not that of a name
    let read: Result<V12, Error> = from_slice(rt.alloc(), b"\x81\xa2V2\x91\x2a");
    assert!(rt; matches!(&read, Err(Error::Syntax(Text::InvalidLength))));
    let read: Result<V12, Error> = from_slice(rt.alloc(), b"\x81\xa2V2\x92\x2a\xff");
    assert!(rt; matches!(&read, Err(Error::Syntax(Text::InvalidValue))));
    Ok(())
}

// Two variants, one after another, and the cursor's position after each.
#[test]
fn variants_over_a_cursor(rt: HostRuntime) {
    let bytes = b"\xa2V1\x81\xa2V2\x92\x2a\xce\x00\x01\x88\x94".as_slice();
    let mut de = Deserializer::new(rt.alloc(), Cursor::new(bytes));
    assert!(rt; matches!(&V12::deserialize(&mut de), Ok(V12::V1)));
    assert_eq!(rt; de.position(), 3);
    assert!(rt; matches!(&V12::deserialize(&mut de), Ok(V12::V2(42, 100500))));
    assert_eq!(rt; de.position(), 14);
}

#[test]
fn variants_without_content(rt: HostRuntime) {
    let read: Result<Two, Error> = from_slice(rt.alloc(), b"\x82\x00\x24\x01\x25");
    assert!(rt; matches!(&read, Err(Error::LengthMismatch(2))));
    let read: Result<Two, Error> = from_slice(rt.alloc(), b"\x81\x00\x2a");
    assert!(rt; matches!(&read, Err(Error::TypeMismatch(Marker::FixPos(42)))));
    let read: Result<Two, Error> = from_slice(rt.alloc(), b"\x81\x02\xc0");
    assert!(rt; matches!(&read, Err(Error::Syntax(Text::UnknownVariant))));
    for input in [b"\x81\x00\xc0".as_slice(), b"\x81\xcd\x00\x00\xc0"] {
        let read: Result<Two, Error> = from_slice(rt.alloc(), input);
        assert!(rt; matches!(&read, Ok(Two::First)));
    }
    let read: Result<Two, Error> = from_slice_strict(rt.alloc(), b"\x81\xcd\x00\x00\xc0");
    assert!(rt; matches!(&read, Err(Error::NotCanonical)));
}

#[test]
fn variants_of_each_kind(rt: HostRuntime) -> Result<(), Fail> {
    let b = String::from_str(rt.alloc(), "q")?;
    let four = vec![in rt.alloc();
        Four::Unit,
        Four::New(200),
        Four::Tup(200, 300),
        Four::Str { a: 1, b },
    ]?;
    let bytes =
        b"\x94\xa4Unit\x81\xa3New\xcc\xc8\x81\xa3Tup\x92\xcc\xc8\xcd\x01\x2c\x81\xa3Str\x92\x01\xa1q";
    assert_eq!(rt; to_vec(rt.alloc(), &four)?.as_slice(), bytes.as_slice());
    assert_eq!(rt;
        to_vec_named(rt.alloc(), &four[3])?.as_slice(),
        b"\x81\xa3Str\x82\xa1a\x01\xa1b\xa1q".as_slice()
    );
    let read: Result<Vec<Four>, Error> = from_slice(rt.alloc(), bytes);
    assert!(rt;
        matches!(&read, Ok(four) if four.len() == 4 && matches!(&four[2], Four::Tup(200, 300)))
    );
    Ok(())
}

// A line with a tag, and no source.
const LINE: &[u8] = b"\x94\x02\xa4disk\x91\xa1a\xc0";

#[test]
fn texts_are_lent(rt: HostRuntime) -> Result<(), Fail> {
    let read: Result<Line<'_>, Error> = from_slice(rt.alloc(), LINE);
    match &read {
        Ok(line) => {
            assert_eq!(rt; line.text, "disk");
            assert!(rt; line.level == 2 && line.source.is_none());
            assert!(rt; matches!(line.tags.as_slice(), ["a"]));
            assert_eq!(rt; to_vec(rt.alloc(), line)?.as_slice(), LINE);
            assert_eq!(rt;
                to_vec_named(rt.alloc(), line)?.as_slice(),
                b"\x84\xa5level\x02\xa4text\xa4disk\xa4tags\x91\xa1a\xa6source\xc0".as_slice()
            );
        }
        Err(_) => assert!(rt; false),
    }
    Ok(())
}

#[test]
fn a_source_lends_no_text(rt: HostRuntime) {
    let read: Result<Line<'_>, Error> = from_read(rt.alloc(), LINE);
    assert!(rt; matches!(&read, Err(Error::Syntax(Text::InvalidType))));
    let read: Result<Label<'_>, Error> = from_read(rt.alloc(), b"\xa1a".as_slice());
    assert!(rt; matches!(&read, Err(Error::Syntax(Text::InvalidType))));
}

#[test]
fn lent_bytes_come_back(rt: HostRuntime) -> Result<(), Fail> {
    let piece = Piece(Bytes::new(&[1, 2, 3]), 7);
    let message = to_vec(rt.alloc(), &piece)?;
    assert_eq!(rt;
        message.as_slice(),
        b"\x92\xc4\x03\x01\x02\x03\x07".as_slice()
    );
    let read: Result<Piece<'_>, Error> = from_slice(rt.alloc(), message.as_slice());
    assert!(rt; matches!(&read, Ok(Piece(bytes, 7)) if bytes.as_bytes() == [1, 2, 3].as_slice()));
    Ok(())
}

#[test]
fn variants_that_borrow_come_back(rt: HostRuntime) -> Result<(), Fail> {
    let events: [(Event<'_, u16>, &[u8]); 5] = [
        (Event::Started, b"\xa7Started"),
        (Event::Said("hi"), b"\x81\xa4Said\xa2hi"),
        (
            Event::Moved(-2, Label("up")),
            b"\x81\xa5Moved\x92\xfe\xa2up",
        ),
        (
            Event::Put {
                key: "k",
                size: 300,
            },
            b"\x81\xa3Put\x92\xa1k\xcd\x01\x2c",
        ),
        (Event::Held(9), b"\x81\xa4Held\x09"),
    ];
    for (event, bytes) in &events {
        assert_eq!(rt; to_vec(rt.alloc(), event)?.as_slice(), *bytes);
        let read: Result<Event<'_, u16>, Error> = from_slice(rt.alloc(), bytes);
        match &read {
            Ok(again) => assert_eq!(rt; to_vec(rt.alloc(), again)?.as_slice(), *bytes),
            Err(_) => assert!(rt; false),
        }
    }
    Ok(())
}

const MANIFEST: &[u8] = b"\xdc\x00\x14\xa1A\x81\xa6Toward\xa1B\x91\x92\x01\xa1C\
    \xc4\x10\0\0\0\0\0\0\0\0\0\0\0\0\0\0\0\x07\xc0\xa1D\x92\xff\xc0\x81\xa1E\x05\x93\x01\xcd\x01\x00\x03\xc0\
    \xc4\x02\x08\x09\x92\xd0\xdf\xc3\xa1F\x09\xcb\x3f\xf0\0\0\0\0\0\0\x91\xa1G\xff\
    \xc4\x10\xff\xff\xff\xff\xff\xff\xff\xff\xff\xff\xff\xff\xff\xff\xff\xff\x92\x01\x02\xc3";

#[test]
fn twenty_fields_of_many_kinds(rt: HostRuntime) -> Result<(), Fail> {
    let read: Result<Manifest, Error> = from_slice(rt.alloc(), MANIFEST);
    let Ok(manifest) = read else {
        return Err(Fail::from("a manifest is refused"));
    };
    assert_eq!(rt; to_vec(rt.alloc(), &manifest)?.as_slice(), MANIFEST);
    assert!(rt;
        matches!(
            &manifest,
            Manifest {
                seal: 7,
                flag: 'D',
                last: None,
                pair: (-33, Some(true)),
                tonnage: 9,
                heading: -1,
                debt: -1,
                done: true,
                ..
            }
        )
    );
    let named = to_vec_named(rt.alloc(), &manifest)?;
    assert!(rt;
        named.as_slice().starts_with(
            b"\xde\x00\x14\xa4ship\xa1A\xa6course\x81\xa6Toward\xa1B\xa4crew"
        )
    );
    let again: Result<Manifest, Error> = from_slice(rt.alloc(), named.as_slice());
    let Ok(again) = again else {
        return Err(Fail::from("a named manifest is refused"));
    };
    assert_eq!(rt; to_vec(rt.alloc(), &again)?.as_slice(), MANIFEST);
    let read: Result<Manifest, Error> = from_slice(rt.alloc(), b"\x82\xa4done\xc3\xa4done\xc3");
    assert!(rt; matches!(&read, Err(Error::Syntax(Text::DuplicateField))));
    let read: Result<Manifest, Error> = from_slice(rt.alloc(), b"\x81\xa4done\xc3");
    assert!(rt; matches!(&read, Err(Error::Syntax(Text::MissingField(_)))));
    Ok(())
}

const SURVEY: &[u8] = b"\xdc\x00\x20\xa1A\x81\xa6Toward\xa1B\x91\x92\x01\xa1C\
    \xc4\x10\0\0\0\0\0\0\0\0\0\0\0\0\0\0\0\x07\xc0\xa1D\x92\xff\xc0\x81\xa1E\x05\x93\x01\xcd\x01\x00\x03\xc0\
    \xc4\x02\x08\x09\x92\xd0\xdf\xc3\xa1F\x09\xcb\x3f\xf0\0\0\0\0\0\0\x91\xa1G\xff\
    \xc4\x10\xff\xff\xff\xff\xff\xff\xff\xff\xff\xff\xff\xff\xff\xff\xff\xff\x92\x01\x02\xc3\
    \x81\xa6Toward\xa1H\x91\x92\xff\xc0\xcd\x01\x2c\x0c\x81\x01\xa1I\xc0\x92\xc3\xc2\x91\x81\xa6Toward\xa1J\
    \x92\x02\xa1K\x91\xc4\x01\x07\xa1L\xa1M";

#[test]
fn thirty_two_fields_of_many_kinds(rt: HostRuntime) -> Result<(), Fail> {
    let read: Result<Survey, Error> = from_slice(rt.alloc(), SURVEY);
    let Ok(survey) = read else {
        return Err(Fail::from("a survey is refused"));
    };
    assert_eq!(rt; to_vec(rt.alloc(), &survey)?.as_slice(), SURVEY);
    assert!(rt;
        matches!(
            &survey,
            Survey {
                seal: 7,
                debt: -1,
                done: true,
                length: 300,
                beam: 12,
                sounding: None,
                crane: Some('L'),
                ..
            }
        )
    );
    let named = to_vec_named(rt.alloc(), &survey)?;
    assert!(rt;
        named.as_slice().starts_with(
            b"\xde\x00\x20\xa4ship\xa1A\xa6course\x81\xa6Toward\xa1B\xa4crew"
        )
    );
    assert!(rt;
        named
            .as_slice()
            .ends_with(b"\xa5crane\xa1L\xa8surveyor\xa1M")
    );
    let again: Result<Survey, Error> = from_slice(rt.alloc(), named.as_slice());
    let Ok(again) = again else {
        return Err(Fail::from("a named survey is refused"));
    };
    assert_eq!(rt; to_vec(rt.alloc(), &again)?.as_slice(), SURVEY);
    let read: Result<Survey, Error> = from_slice(
        rt.alloc(),
        b"\x82\xa8surveyor\xa1M\xa8surveyor\xa1M",
    );
    assert!(rt; matches!(&read, Err(Error::Syntax(Text::DuplicateField))));
    let read: Result<Survey, Error> = from_slice(rt.alloc(), b"\x81\xa8surveyor\xa1M");
    assert!(rt; matches!(&read, Err(Error::Syntax(Text::MissingField(_)))));
    Ok(())
}
