//! Memory does not grow with the number of calls. It is a program of its own, since others would take memory meanwhile.

use std::fs;

use pendratsoa::{Decoder, Item, Version};

const INPUT: &[u8] = b"\x04\0\0\0\0\0\0\x09\x72\x07\x0A\x05input";

/// The resident memory of the process in bytes, where Linux says so. The pages of files are none of it: the system
/// drops them and reads them again when others need memory.
fn resident() -> Option<usize> {
    let text = fs::read_to_string("/proc/self/statm").ok()?;
    let mut pages = text.split(' ').skip(1).map(str::parse::<usize>);
    let (all, of_files) = (pages.next()?.ok()?, pages.next()?.ok()?);
    Some(all.checked_sub(of_files)? * 4096)
}

#[test]
fn memory_does_not_grow() {
    let mut decoder = Decoder::new(Version::V8);
    let mut decode = |rounds| {
        for _ in 0..rounds {
            decoder.feed(INPUT).unwrap();
            for item in decoder.items() {
                match item.unwrap() {
                    Item::Message(message) => assert!(message.json().unwrap().len() > 20),
                    other => panic!("{other:?}"),
                }
            }
            assert_eq!(decoder.rest(), 0);
        }
    };
    decode(10_000);
    // the least allocation of malloc has 32 bytes, which are 3 MB each time if each round leaves one; the system may
    // make a large page of several at any time
    let mut held = vec![resident()];
    for _ in 0..6 {
        decode(100_000);
        held.push(resident());
        match held[held.len() - 2..] {
            [Some(before), Some(after)] if after >= before + (1 << 20) => {}
            _ => return,
        }
    }
    panic!("{held:?} bytes");
}
