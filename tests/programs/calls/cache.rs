//! What the calls of the example `example_cache` come to: questions of several types.
use example_cache::Cache;
use rmp_encode::Error;

#[test]
fn the_same_message_is_the_same_question(rt: HostRuntime) -> Result<(), Error> {
    let alloc = rt.alloc();
    let mut cache = Cache::new(alloc);
    cache.put(alloc, &("pages", 300u32), 1u8)?;
    cache.put(alloc, &("pages", 301u32), 2u8)?;
    assert_eq!(rt; cache.get(alloc, &("pages", 300u64))?.copied(), Some(1));
    assert_eq!(rt; cache.get(alloc, &("pages", 301i16))?.copied(), Some(2));
    assert_eq!(rt; cache.get(alloc, &("pages", 302u32))?.copied(), None);
    cache.put(alloc, &("pages", 300u16), 3u8)?;
    assert_eq!(rt; cache.get(alloc, &("pages", 300u32))?.copied(), Some(3));
    assert_eq!(rt; cache.get(alloc, &("pages", 301u32))?.copied(), Some(2));
    Ok(())
}
