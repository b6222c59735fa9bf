//! Random texts and setups for parsing: the original's generators, and what takes their texts to the
//! limits that document 01 adds.

use original::answers::Setup;
use original::random::Random as Numbers;
use original::random_text;
use plain::random::Random;

pub fn case(r: &mut Random) -> (Setup, Vec<u8>) {
    let mut numbers = Numbers::new(r.bits());
    let mut setup = random_text::setup(&mut numbers);
    let mut text = random_text::text(&mut numbers, 300);
    if r.one_in(3) {
        text = random_text::damaged(&mut numbers, &text);
    }
    let changes = r.pick(&[0, 0, 0, 0, 1, 1, 2]);
    for _ in 0..changes {
        change(r, &mut numbers, &mut setup, &mut text);
    }
    (setup, text)
}

/// One thing that is near to a limit, or past it.
fn change(r: &mut Random, numbers: &mut Numbers, setup: &mut Setup, text: &mut Vec<u8>) {
    match r.below(8) {
        0 => insert(r, text, name),
        1 => insert(r, text, |r| numeral(r, numbers)),
        2 => bracketed(r, text),
        3 => insert(r, text, long_word),
        4 => lengthened(r, text),
        5 => insert(r, text, |r| vec![r.pick(&[0x80, 0xC3, 0xFF])]),
        6 => broken_setup(r, setup),
        _ => insert(r, text, random_byte),
    }
}

fn insert(r: &mut Random, text: &mut Vec<u8>, what: impl FnOnce(&mut Random) -> Vec<u8>) {
    let at = r.below(text.len() + 1);
    let new = what(r);
    text.splice(at..at, new);
}

fn random_byte(r: &mut Random) -> Vec<u8> {
    vec![u8::try_from(r.below(128)).expect("ASCII")]
}

/// A word of about one chunk or two, joined to what may be a stop word behind the chunk's end.
fn long_word(r: &mut Random) -> Vec<u8> {
    let mut out = vec![r.pick(b"w7_"); 250 + r.below(270)];
    out.extend(r.pick(&[
        &b""[..],
        b"the",
        b"'the",
        b".5",
        b",7",
        b"_",
        b"'s of",
        b"a",
    ]));
    out
}

/// A name of about 32 bytes and its colon, some bytes escaped.
fn name(r: &mut Random) -> Vec<u8> {
    let mut out = vec![b' '];
    for _ in 0..r.pick(&[31, 32, 32, 33, 33, 34]) {
        if r.one_in(8) {
            out.push(b'\\');
        }
        out.push(r.pick(b"nN1-"));
    }
    out.extend(r.pick(&[&b":"[..], b" : "]));
    out
}

/// A boost, its numeral of any length up to about 40 bytes.
fn numeral(r: &mut Random, numbers: &mut Numbers) -> Vec<u8> {
    let mut out = b"a^".to_vec();
    let mut digits = random_text::numeral(numbers).into_bytes();
    if r.one_in(3) {
        let zeros = r.pick(&[39, 40, 41, 42_usize]).saturating_sub(digits.len());
        let at = digits.iter().position(u8::is_ascii_digit).unwrap_or(0);
        digits.splice(at..at, vec![b'0'; zeros]);
    }
    for b in digits {
        if matches!(b, b'+' | b'-') || r.one_in(10) {
            out.push(b'\\');
        }
        out.push(b);
    }
    out.push(b' ');
    out
}

/// About 24 brackets around it; not all are closed.
fn bracketed(r: &mut Random, text: &mut Vec<u8>) {
    let open = r.pick(&[20, 21, 22, 23, 24, 24, 25, 26]);
    let shut = if r.one_in(4) { r.below(27) } else { open };
    *text = [&vec![b'('; open][..], text, &vec![b')'; shut]].concat();
}

/// About 1,024 bytes: repeated, then cut.
fn lengthened(r: &mut Random, text: &mut Vec<u8>) {
    let length = 1_020 + r.below(8);
    text.push(b' ');
    *text = text.iter().copied().cycle().take(length).collect();
}

fn broken_setup(r: &mut Random, setup: &mut Setup) {
    match r.below(6) {
        0 => setup.operator = r.pick(&[2, 3, 255]),
        1 => setup.analyzer = r.pick(&[0, 6, 7, 255]),
        2 => setup.field = vec![b'n'; r.pick(&[32, 33, 40])],
        3 => setup.field = vec![b'n', r.pick(&[0x7F, 0x80])],
        4 => setup
            .fields
            .extend([r.pick(&[0, 1, 3, 5, 6]), r.pick(&[0, 0, 1, 33, 255])]),
        _ => {
            let cut = r.below(setup.fields.len() + 1);
            setup.fields.truncate(cut);
        }
    }
}
