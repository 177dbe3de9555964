//! Varints and keys, written by hand: neither the library's nor prost's take part where payloads are made up or judged.

/// Wire types of a key.
pub const VARINT: u8 = 0;
pub const EIGHT_BYTES: u8 = 1;
pub const LENGTH: u8 = 2;
pub const GROUP: u8 = 3;
pub const GROUP_END: u8 = 4;
pub const FOUR_BYTES: u8 = 5;

/// Writes a number in its shortest encoding.
pub fn put_varint(number: u64, out: &mut Vec<u8>) {
    let mut rest = number;
    while rest >= 0x80 {
        out.push(rest as u8 | 0x80);
        rest >>= 7;
    }
    out.push(rest as u8);
}

/// The number of a key.
pub fn key(number: u32, wire_type: u8) -> u64 {
    u64::from(number) << 3 | u64::from(wire_type)
}

/// Takes a number of bytes from the front.
pub fn take<'a>(bytes: &mut &'a [u8], length: usize) -> Option<&'a [u8]> {
    if length > bytes.len() {
        return None;
    }
    let (front, rest) = bytes.split_at(length);
    *bytes = rest;
    Some(front)
}

/// Takes a varint from the front: ten bytes at most, and a tenth of 0 or 1.
pub fn take_varint(bytes: &mut &[u8]) -> Option<u64> {
    let mut number = 0;
    for place in 0..10 {
        let byte = take(bytes, 1)?[0];
        if place == 9 && byte > 1 {
            return None;
        }
        number |= u64::from(byte & 0x7F) << (7 * place);
        if byte < 0x80 {
            return Some(number);
        }
    }
    None
}

/// Takes a key from the front: the number of a field and a wire type.
pub fn take_key(bytes: &mut &[u8]) -> Option<(u32, u8)> {
    let key = u32::try_from(take_varint(bytes)?).ok()?;
    let number = key >> 3;
    (number > 0).then_some((number, (key & 7) as u8))
}

/// Takes a length and that number of bytes from the front.
pub fn take_lengthy<'a>(bytes: &mut &'a [u8]) -> Option<&'a [u8]> {
    let length = usize::try_from(take_varint(bytes)?).ok()?;
    take(bytes, length)
}
