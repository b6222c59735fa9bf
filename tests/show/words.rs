// Texts under an analyzer of words, as the show program would print them: the program itself has the simple analyzer, so the archive parses
// and rewrites them, and the lines are made from its stored queries. A case is a line `or note 5` (operator, field, analyzer) and a text.
mod lines;

use lines::shown;

#[repr(C)]
#[derive(Clone, Copy)]
struct Answer {
    refusal: u32,
    length: u32,
    count: u32,
    rounds: u32,
    place: u32,
}

#[rustfmt::skip]
unsafe extern "C" {
    fn gorbihesh_parse(operator: u8, analyzer: u8, field: *const u8, field_len: usize, fields: *const u8, fields_len: usize,
        text: *const u8, text_len: usize, out: *mut u8, out_len: usize, room: *mut u8, room_len: usize) -> Answer;
    fn gorbihesh_rewrite(query: *const u8, query_len: usize, out: *mut u8, out_len: usize, room: *mut u8, room_len: usize) -> Answer;
    fn gorbihesh_parse_room() -> usize;
    fn gorbihesh_rewrite_room() -> usize;
}

const OUT: usize = 65_535;

fn parsed(operator: u8, analyzer: u8, field: &[u8], text: &[u8]) -> Result<Vec<u8>, (u32, u32)> {
    let (mut out, mut room) = (vec![0; OUT], vec![0; unsafe { gorbihesh_parse_room() }]);
    let answer = unsafe {
        gorbihesh_parse(operator, analyzer, field.as_ptr(), field.len(), std::ptr::null(), 0,
            text.as_ptr(), text.len(), out.as_mut_ptr(), OUT, room.as_mut_ptr(), room.len())
    };
    out.truncate(answer.length as usize);
    if answer.refusal == 0 { Ok(out) } else { Err((answer.refusal, answer.place)) }
}

fn rewritten(query: &[u8]) -> (u32, Vec<u8>) {
    let (mut out, mut room) = (vec![0; OUT], vec![0; unsafe { gorbihesh_rewrite_room() }]);
    let answer = unsafe { gorbihesh_rewrite(query.as_ptr(), query.len(), out.as_mut_ptr(), OUT, room.as_mut_ptr(), room.len()) };
    assert_eq!((answer.refusal, answer.count, answer.place), (0, 0, 0), "what was parsed is rewritten");
    out.truncate(answer.length as usize);
    (answer.rounds, out)
}

fn printed(input: &str) -> String {
    let (setup, text) = input.split_once('\n').expect("two lines");
    let [operator, field, analyzer] = setup.split(' ').collect::<Vec<_>>()[..] else { panic!("{setup}") };
    let operator = u8::from(operator == "and");
    match parsed(operator, analyzer.parse().unwrap(), field.as_bytes(), text.trim_end_matches('\n').as_bytes()) {
        Err((refusal, place)) => format!("refused {refusal} {place}\n"),
        Ok(query) => {
            let (rounds, after) = rewritten(&query);
            format!("written\n{}rewritten {rounds}\n{}", shown(&query), shown(&after))
        }
    }
}

fn main() {
    let folder = std::env::args().nth(1).expect("the folder of cases");
    let mut names: Vec<_> = std::fs::read_dir(folder).unwrap().map(|e| e.unwrap().path()).collect();
    names.retain(|p| p.extension().unwrap() == "in");
    names.sort();
    for name in &names {
        let got = printed(&std::fs::read_to_string(name).unwrap());
        if got != std::fs::read_to_string(name.with_extension("out")).unwrap() {
            println!("{} differs:\n{got}", name.display());
            std::process::exit(1);
        }
    }
    println!("{} texts of words as shown", names.len());
}
