//! The same check as a Rust programmer would write it: slices, recursion, no trees. The benchmark's other side.

fn part(s: &[u8]) -> Option<(u8, &[u8], &[u8])> {
    let (head, after) = s.split_first_chunk::<3>()?;
    let (body, rest) = after.split_at_checked(u16::from_be_bytes([head[1], head[2]]).into())?;
    Some((head[0], body, rest))
}

fn tagged(s: &[u8], tag: u8) -> Option<(&[u8], &[u8])> {
    part(s).filter(|p| p.0 == tag).map(|p| (p.1, p.2))
}

fn field(s: &[u8]) -> Option<&[u8]> {
    tagged(s, 0x10).filter(|p| p.0.len() <= 32 && p.0.is_ascii()).map(|p| p.1)
}

fn word(s: &[u8]) -> Option<&[u8]> {
    tagged(s, 0x12).filter(|p| p.0.len() >= 4 && p.0[4..].is_ascii()).map(|p| p.1)
}

fn bound(s: &[u8]) -> Option<&[u8]> {
    let (tag, body, rest) = part(s)?;
    matches!((tag, body.len()), (0x30, 0) | (0x31 | 0x32, 8)).then_some(rest)
}

fn leaf(tag: u8, b: &[u8]) -> Option<&[u8]> {
    match tag {
        1 => {
            let (text, rest) = tagged(field(b)?, 0x11)?;
            text.is_ascii().then_some(rest)
        }
        2 => {
            let mut left = field(b)?;
            while !left.is_empty() {
                left = word(left)?;
            }
            Some(left)
        }
        6 | 7 => Some(b),
        _ => bound(bound(field(b)?)?),
    }
}

fn boolean(b: &[u8], deep: usize) -> u8 {
    let Some((minimum, mut left)) = tagged(b, 0x13) else { return 20 };
    if minimum.len() != 2 {
        return 20;
    }
    while !left.is_empty() {
        let Some((0x20..=0x23, clause, rest)) = part(left) else { return 20 };
        match check(clause, deep) {
            0 => left = rest,
            fault => return fault,
        }
    }
    0
}

fn check(s: &[u8], deep: usize) -> u8 {
    let Some((tag @ 1..=9, body, rest)) = part(s) else { return 20 };
    if deep == 0 {
        return 21;
    }
    let inside = match tag {
        3 => boolean(body, deep - 1),
        4 => match body.split_first_chunk::<4>() {
            Some((bits, _)) if f32::from_be_bytes(*bits).is_nan() && *bits != [0x7f, 0xc0, 0, 0] => 20,
            Some((_, query)) => check(query, deep - 1),
            None => 20,
        },
        5 => check(body, deep - 1),
        _ => if leaf(tag, body).is_some_and(<[u8]>::is_empty) { 0 } else { 20 },
    };
    if inside == 0 && !rest.is_empty() { 20 } else { inside }
}

pub fn query(s: &[u8], most: usize, depth: usize) -> u8 {
    if s.len() > most { 19 } else { check(s, depth) }
}

fn entry(s: &[u8]) -> Option<&[u8]> {
    let (tag, body, rest) = part(s)?;
    let left = match tag {
        0x41 => word(field(body)?)?,
        0x44 | 0x45 => tagged(field(body)?, 0x14).filter(|p| p.0.len() == 8)?.1,
        _ => return None,
    };
    left.is_empty().then_some(rest)
}

fn record(s: &[u8]) -> Option<&[u8]> {
    let (mut entries, rest) = tagged(s, 0x40)?;
    while !entries.is_empty() {
        entries = entry(entries)?;
    }
    Some(rest)
}

pub fn list(s: &[u8]) -> u8 {
    if s.len() > 65_536 {
        return 22;
    }
    let mut left = s;
    while !left.is_empty() {
        match record(left) {
            Some(rest) => left = rest,
            None => return 23,
        }
    }
    0
}
