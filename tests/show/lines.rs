//! The lines of a stored query as the show program prints them, made from its bytes.

fn escaped(s: &[u8]) -> String {
    let one = |&c: &u8| match c {
        0x21..=0x7e if c != b'\\' && c != b':' => (c as char).to_string(),
        _ => format!("\\{:02x}", c),
    };
    s.iter().map(one).collect()
}

fn field(s: &[u8]) -> String {
    if s.is_empty() { "\\".to_string() } else { escaped(s) }
}

// The parts of a body: tag and body of each.
fn parts(mut s: &[u8]) -> Vec<(u8, &[u8])> {
    let mut all = Vec::new();
    while !s.is_empty() {
        let n = s[1] as usize * 256 + s[2] as usize;
        all.push((s[0], &s[3..3 + n]));
        s = &s[3 + n..];
    }
    all
}

// The lines of one stored query that parsing and its rewriting can give.
fn lines(depth: usize, kind: &str, tag: u8, body: &[u8], text: &mut String) {
    let mut line = |node: String| text.push_str(&format!("{depth} {kind} {node}\n"));
    let nested = |s: &[u8], text: &mut String| parts(s).iter().for_each(|(t, b)| lines(depth + 1, "-", *t, b, text));
    match tag {
        1 => {
            let p = parts(body);
            line(format!("term {} {}", field(p[0].1), escaped(p[1].1)));
        }
        2 => {
            let p = parts(body);
            let word = |w: &[u8]| format!(" {}:{}", u32::from_be_bytes(w[..4].try_into().unwrap()), escaped(&w[4..]));
            line(format!("phrase {}{}", field(p[0].1), p[1..].iter().map(|w| word(w.1)).collect::<String>()));
        }
        3 => {
            let p = parts(body);
            line(format!("boolean {}", p[0].1[0] as usize * 256 + p[0].1[1] as usize));
            for (t, q) in &p[1..] {
                let kind = ["must", "should", "mustnot", "filter"][(t - 0x20) as usize];
                parts(q).iter().for_each(|(u, b)| lines(depth + 1, kind, *u, b, text));
            }
        }
        4 => {
            line(format!("boost {:08x}", u32::from_be_bytes(body[..4].try_into().unwrap())));
            nested(&body[4..], text);
        }
        5 => {
            line("constantscore".to_string());
            nested(body, text);
        }
        6 => line("matchall".to_string()),
        7 => line("matchnone".to_string()),
        _ => panic!("no query of a text has the tag {tag}"),
    }
}

pub fn shown(query: &[u8]) -> String {
    let mut text = String::new();
    parts(query).iter().for_each(|(t, b)| lines(0, "-", *t, b, &mut text));
    text
}
