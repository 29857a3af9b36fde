//! What a recursive enum with lists, options, tuples, a default and types of its own crate is written as and read from. The bytes are those of
//! serde's derive.
use crate::recursive::{TOO_DEEP, nested, read, reads, reads_both, refused, strictly, writes};
use rmp_decode::Error;
use std::test::Fail;
use test_recursive::{Order, Span, Task};

const TASK: &[u8] =
    b"\x81\xa3Run\x95\xaaone-by-one\x92\x05\xce\x00\x01\x11p\xff\x92\x81\xa4Move\x92\xff\xcd\x01,\x81\xa4Wait\x92\xcd\x01,\x92\xa1x\xa2yz\
    \x81\xa5After\x92\x92\x01\xcd\x01,\x81\xa5After\x92\xc0\xa4Idle";

const TASK_NAMED: &[u8] =
    b"\x81\xa3Run\x85\xa5order\xaaone-by-one\xa4span\x82\xa5first\x05\xa4last\xce\x00\x01\x11p\xa5least\xff\
    \xa5steps\x92\x81\xa4Move\x92\xff\xcd\x01,\x81\xa4Wait\x82\xa7atLeast\xcd\x01,\xa8thenCall\x92\xa1x\xa2yz\
    \xa9otherwise\x81\xa5After\x92\x92\x01\xcd\x01,\x81\xa5After\x92\xc0\xa4Idle";

// What a map may leave out, in another order, and the task that is read then.
const SHORT: &[u8] = b"\x81\xa3Run\x83\xa5steps\x90\xa4span\x81\xa5first\x07\xa5order\xa8Together";

const SHORT_LISTED: &[u8] = b"\x81\xa3Run\x95\xa8Together\x92\x07\xc0\xff\x90\xc0";

#[test]
fn tasks_written(rt: HostRuntime) -> Result<(), Fail> {
    let mut then_call = Vec::new(rt.alloc());
    then_call.push(String::from_str(rt.alloc(), "x")?)?;
    then_call.push(String::from_str(rt.alloc(), "yz")?)?;
    let wait = Task::Wait {
        at_least: 300,
        then_call,
    };
    let steps = vec![in rt.alloc(); Task::Move(-1, 300), wait]?;
    let idle = Box::new(rt.alloc(), Task::Idle)?;
    let last = Box::new(rt.alloc(), Task::After(None, idle))?;
    let task = Task::Run {
        order: Order::InTurn,
        span: Span {
            first: 5,
            last: Some(70000),
        },
        least: -1,
        steps,
        otherwise: Some(Box::new(rt.alloc(), Task::After(Some((1, 300)), last))?),
    };
    writes(&rt, rt.alloc(), &task, false, TASK);
    writes(&rt, rt.alloc(), &task, true, TASK_NAMED);
    Ok(())
}

#[test]
fn tasks_read(rt: HostRuntime) {
    reads_both::<Task>(&rt, rt.alloc(), TASK, TASK_NAMED);
    reads::<Task>(&rt, rt.alloc(), 7, TASK, false, TASK);
    refused::<Task>(&rt, rt.alloc(), read(rt.alloc(), 6, TASK), TOO_DEEP);
    for input in [SHORT, SHORT_LISTED] {
        reads::<Task>(&rt, rt.alloc(), 1024, input, false, SHORT_LISTED);
    }
    let turned = b"\xde\x00\x01\x03\x83\xa4more\x92\x01\x02\xa8thenCall\x90\x00\x05".as_slice();
    let wait = b"\x81\xa4Wait\x92\x05\x90".as_slice();
    reads::<Task>(&rt, rt.alloc(), 1024, turned, false, wait);
    refused::<Task>(
        &rt,
        rt.alloc(),
        strictly(rt.alloc(), turned),
        "not canonical",
    );
}

#[test]
fn tasks_refused(rt: HostRuntime) {
    for (input, why) in [
        (b"\xa3Run".as_slice(), "invalid type"),
        (b"\x81\xa3Run\x80", "missing field"),
        (
            b"\x81\xa3Run\x94\xa8Together\x92\x07\xc0\x05\x90",
            "invalid length",
        ),
        (b"\x81\xa3Run\x81\xa5order\xa6InTurn", "unknown variant"),
        (b"\x81\xa3Run\x81\xa4span\x81\xa4last\x01", "missing field"),
        (b"\x81\xa3Run\x81\xa5least\xc0", "invalid type"),
        (
            b"\x81\xa3Run\x82\xa5least\x01\xa5least\x01",
            "duplicate field",
        ),
        (
            b"\x81\xa5After\x92\x92\x01\xa1a\xa4Idle",
            "wrong msgpack marker FixStr(1)",
        ),
        (b"\x81\xa5After\x92\x91\x01\xa4Idle", "invalid length"),
        (b"\x81\xa4Wait\x92\x01\x92\xa1a\x01", "invalid type"),
        (
            b"\x81\xa5After\x93\xc0\xa4Idle\x02",
            "array had incorrect length, expected 2",
        ),
        (b"\x81\xa5After\x91\xc0", "invalid length"),
        (b"\x81\xa5After\xc0", "invalid type"),
        (
            b"\x81\xa5After\x92\xc0\x80",
            "array had incorrect length, expected 0",
        ),
        (b"\x81\xa4Move\x91\x01", "invalid length"),
        (b"\x81\xa4Wait\x81\xa8at_least\x01", "missing field"),
        (
            b"\x81\xa4Wait\x93\x01\x90\x02",
            "array had incorrect length, expected 2",
        ),
    ] {
        refused::<Task>(&rt, rt.alloc(), read(rt.alloc(), 1024, input), why);
    }
}

// Each task but the last is two levels deep: the map of its name, and the list of its values.
#[test]
fn fifty_tasks(rt: HostRuntime) -> Result<(), Error> {
    let deepest = nested(rt.alloc(), b"\x81\xa5After\x92\xc0", 50, b"\xa4Idle")?;
    reads::<Task>(&rt, rt.alloc(), 101, &deepest, false, &deepest);
    refused::<Task>(&rt, rt.alloc(), read(rt.alloc(), 100, &deepest), TOO_DEEP);
    Ok(())
}
