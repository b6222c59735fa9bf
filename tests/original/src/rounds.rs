
// What follows is no part of the original: it is appended to the text of search/query.rs, since
// `rewrite_once` is private to that file, and counts the rounds of `Query::rewrite`.

/// One round of rewriting.
#[must_use]
pub fn one_round(q: &Query) -> Query {
    rewrite_once(q)
}

/// The loop of `Query::rewrite`, with every round counted, the last unchanged one included. `see`
/// is shown the query before each round.
pub fn rewrite_counted(q: &Query, mut see: impl FnMut(&Query)) -> (Query, u32) {
    let mut q = q.clone();
    let mut rounds = 0;
    loop {
        see(&q);
        rounds += 1;
        let r = rewrite_once(&q);
        if r == q {
            return (r, rounds);
        }
        q = r;
    }
}
