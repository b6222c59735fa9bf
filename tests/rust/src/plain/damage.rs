//! Damaged copies of stored bytes.

use crate::random::Random;

/// Tags and other bytes that stored forms often hold.
const OFTEN: [u8; 26] = [
    0, 1, 2, 3, 4, 5, 6, 7, 8, 9, 0x10, 0x11, 0x12, 0x13, 0x14, 0x20, 0x23, 0x24, 0x30, 0x32, 0x33,
    0x40, 0x41, 0x44, 0x45, 0x80,
];

/// A copy with one to three faults: a byte changed, dropped or doubled, or the end cut off; or one part
/// longer or shorter by a byte, with every length around it mended.
pub fn damaged(r: &mut Random, bytes: &[u8]) -> Vec<u8> {
    let mut bytes = bytes.to_vec();
    if r.one_in(3) {
        resize_part(r, &mut bytes);
        return bytes;
    }
    for _ in 0..r.pick(&[1, 1, 1, 2, 3]) {
        if bytes.is_empty() {
            bytes.push(r.pick(&OFTEN));
            continue;
        }
        let at = r.below(bytes.len());
        match r.below(8) {
            0 => drop(bytes.remove(at)),
            1 => bytes.insert(at, bytes[at]),
            2 => bytes.truncate(at),
            3 => bytes[at] = u8::try_from(r.below(256)).expect("a byte"),
            4 => bytes[at] = bytes[at].wrapping_add(1),
            5 => bytes[at] = bytes[at].wrapping_sub(1),
            _ => bytes[at] = r.pick(&OFTEN),
        }
    }
    bytes
}

/// Where the parts in a body begin, by the tag around it; none where it holds none.
const fn parts_from(tag: u8) -> Option<usize> {
    match tag {
        1..=3 | 5 | 8 | 9 | 0x20..=0x23 | 0x40 | 0x41 | 0x44 | 0x45 => Some(0),
        4 => Some(4),
        _ => None,
    }
}

/// The length that the header at `at` states; none where there is no header.
fn length_at(bytes: &[u8], at: usize) -> Option<usize> {
    let header = bytes.get(at..at + 3)?;
    let length = usize::from(u16::from_be_bytes([header[1], header[2]]));
    (at + 3 + length <= bytes.len()).then_some(length)
}

/// The headers on a random way from a part of the whole down to some part inside it.
fn way(r: &mut Random, bytes: &[u8]) -> Vec<usize> {
    let mut way = Vec::new();
    let (mut from, mut to) = (0, bytes.len());
    loop {
        let mut at = from;
        let mut heads = Vec::new();
        while let Some(length) = length_at(&bytes[..to], at) {
            heads.push(at);
            at += 3 + length;
        }
        if heads.is_empty() {
            return way;
        }
        let head = r.pick(&heads);
        way.push(head);
        let Some(skipped) = parts_from(bytes[head]) else {
            return way;
        };
        if r.one_in(6) {
            return way;
        }
        to = head + 3 + length_at(bytes, head).expect("a header");
        from = (head + 3 + skipped).min(to);
    }
}

fn resize_part(r: &mut Random, bytes: &mut Vec<u8>) {
    let way = way(r, bytes);
    let Some(&last) = way.last() else {
        return;
    };
    let length = length_at(bytes, last).expect("a header");
    let grows = length == 0 || r.one_in(2);
    if grows {
        let at = last + 3 + r.pick(&[0, length]);
        bytes.insert(at, r.pick(&OFTEN));
    } else {
        bytes.remove(last + 3 + r.pick(&[0, length - 1]));
    }
    for head in way {
        let old = u16::from_be_bytes([bytes[head + 1], bytes[head + 2]]);
        let new = if grows {
            old.wrapping_add(1)
        } else {
            old.wrapping_sub(1)
        };
        bytes[head + 1..head + 3].copy_from_slice(&new.to_be_bytes());
    }
}
