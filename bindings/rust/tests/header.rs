//! The crate beside the header, its own manifest and the archive: what is said in two places is the same.

use gorbihesh::{Analyzer, Operator, Refusal, calls};
use std::collections::BTreeMap;

const HEADER: &str = include_str!("../../../include/gorbihesh.h");

/// The numbers that the header defines: `#define GORBIHESH_NAME 12`.
fn defined() -> BTreeMap<&'static str, usize> {
    let lines = HEADER.lines().filter_map(|line| {
        let mut words = line.strip_prefix("#define GORBIHESH_")?.split_whitespace();
        Some((words.next()?, words.next()?.parse().ok()?))
    });
    lines.collect()
}

/// The lines `GORBIHESH_NAME = 12, /* comment */` of an enum.
fn members(of: &str) -> Vec<(&'static str, u32, &'static str)> {
    let (_, rest) = HEADER
        .split_once(&format!("enum {of} {{"))
        .expect("an enum");
    let (body, _) = rest.split_once("};").expect("its end");
    let members = body.split("GORBIHESH_").skip(1).map(|member| {
        let (name, rest) = member.split_once(" = ").expect("a number");
        let (number, comment) = rest.split_at(rest.find([',', ' ', '\n']).unwrap_or(rest.len()));
        let comment = comment.split_once("/* ").map_or("", |(_, comment)| comment);
        let comment = comment.split_once(" */").map_or("", |(comment, _)| comment);
        (name, number.parse().expect("a number"), comment)
    });
    members.collect()
}

/// `LONG_TEXT` as `LongText`.
fn camel(name: &str) -> String {
    let word = |word: &str| word[..1].to_string() + &word[1..].to_lowercase();
    name.split('_').map(word).collect()
}

#[test]
fn limits_and_rooms_are_the_headers() {
    let mut header = defined();
    for part in ["VERSION_MAJOR", "VERSION_MINOR", "VERSION_PATCH"] {
        header.remove(part);
    }
    let own = BTreeMap::from([
        ("PARSE_ROOM", gorbihesh::PARSE_ROOM),
        ("REWRITE_ROOM", gorbihesh::REWRITE_ROOM),
        ("REWRITE_STRICT_ROOM", gorbihesh::REWRITE_STRICT_ROOM),
        ("SELECT_ROOM", gorbihesh::SELECT_ROOM),
        ("TEXT_MOST", gorbihesh::TEXT_MOST),
        ("FIELD_MOST", gorbihesh::FIELD_MOST),
        ("ENTRIES_MOST", gorbihesh::ENTRIES_MOST),
        ("REWRITE_QUERY_MOST", gorbihesh::REWRITE_QUERY_MOST),
        ("REWRITE_DEPTH_MOST", gorbihesh::REWRITE_DEPTH_MOST),
        ("SELECT_QUERY_MOST", gorbihesh::SELECT_QUERY_MOST),
        ("SELECT_DEPTH_MOST", gorbihesh::SELECT_DEPTH_MOST),
        ("LIST_MOST", gorbihesh::LIST_MOST),
    ]);
    assert_eq!(own, header);
}

#[test]
fn rooms_are_the_archives() {
    assert_eq!(calls::parse_room(), gorbihesh::PARSE_ROOM);
    assert_eq!(calls::rewrite_room(), gorbihesh::REWRITE_ROOM);
    assert_eq!(
        calls::rewrite_strict_room(),
        gorbihesh::REWRITE_STRICT_ROOM
    );
    assert_eq!(calls::select_room(), gorbihesh::SELECT_ROOM);
}

#[test]
fn one_version() {
    let header = defined();
    let [major, minor, patch] = ["MAJOR", "MINOR", "PATCH"].map(|part| {
        let number = header[&*format!("VERSION_{part}")];
        u32::try_from(number).expect("a small number")
    });
    assert_eq!(
        major * 1_000_000 + minor * 1_000 + patch,
        gorbihesh::VERSION
    );
    assert_eq!(
        format!("{major}.{minor}.{patch}"),
        env!("CARGO_PKG_VERSION")
    );
    assert_eq!(calls::version(), gorbihesh::VERSION);
}

#[test]
fn refusals_are_the_headers() {
    let header = members("gorbihesh_refusal");
    assert_eq!(header[0], ("DONE", 0, "no refusal"));
    let own: Vec<_> = Refusal::ALL
        .iter()
        .map(|refusal| (format!("{refusal:?}"), refusal.number()))
        .collect();
    let named: Vec<_> = header[1..].iter().map(|m| (camel(m.0), m.1)).collect();
    assert_eq!(own, named);
    let source = include_str!("../src/refusal.rs");
    for (name, number, when) in &header[1..] {
        let line = format!("    {} = {number}, {when:?};\n", camel(name));
        assert!(source.contains(&line), "src/refusal.rs lacks {line}");
    }
}

#[test]
fn operators_and_analyzers_are_the_headers() {
    let numbers = |of| -> Vec<_> { members(of).iter().map(|m| (camel(m.0), m.1)).collect() };
    let own = [Operator::Or, Operator::And].map(|o| (format!("{o:?}"), o as u32));
    assert_eq!(numbers("gorbihesh_operator"), own);
    let own = [
        Analyzer::Whitespace,
        Analyzer::Simple,
        Analyzer::Keyword,
        Analyzer::Words,
        Analyzer::English,
    ];
    let own = own.map(|a| (format!("{a:?}"), a as u32));
    assert_eq!(numbers("gorbihesh_analyzer"), own);
}
