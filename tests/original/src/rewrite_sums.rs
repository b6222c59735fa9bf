//! Cases of rewrite.txt about duplicates: sums of boosts, Should clauses under each minimum, Filter
//! clauses beside Must.

use crate::lists::List;
use crate::rewrite_cases::{a, b, boolean};
use original::search::{Occur, Query};

pub fn add(list: &mut List) {
    sums(list);
    interleaved(list);
    minima(list);
    filters(list);
}

const TINY: f32 = f32::from_bits(0x3380_0000); // 2^-24
const LEAST: f32 = f32::from_bits(1); // 2^-149

/// Boosts of one base. Sums of 32 bits, or in another order, would differ in many of them.
const SUMS: &[&[f32]] = &[
    &[0.5, 0.5],
    &[0.5, 0.25, 0.25],
    &[1.0, 1.0],
    &[1.0, 1.0, 1.0],
    &[2.0, -1.0],
    &[1.0, -1.0],
    &[1.0, 0.0],
    &[1.0, -0.0],
    &[0.0, 0.0],
    &[0.0, -0.0],
    &[-0.0, -0.0],
    &[0.1, 0.2],
    &[0.1, 0.2, 0.3, 0.4],
    &[0.1, 0.9],
    &[1.0, TINY, TINY],
    &[TINY, TINY, 1.0],
    &[1.0, TINY],
    &[1.0, TINY, LEAST],
    &[1.0, TINY, TINY, TINY],
    &[1.0, -TINY],
    &[-1.0, 2.0, TINY, LEAST],
    &[16_777_216.0, 1.0],
    &[16_777_216.0, 1.0, 1.0],
    &[16_777_216.0, 1.0, 1.0, 1.0],
    &[16_777_216.0, 1.0, -16_777_216.0],
    &[f32::MAX, f32::MAX],
    &[f32::MAX, f32::MAX, -f32::MAX],
    &[f32::MAX, 1.014_120_4e31],
    &[f32::MAX, 1.014_120_5e31],
    &[-f32::MAX, -f32::MAX],
    &[f32::INFINITY, 1.0],
    &[f32::INFINITY, f32::INFINITY],
    &[f32::NEG_INFINITY, 5.0],
    &[LEAST, LEAST],
    &[LEAST, -LEAST],
    &[LEAST, 1.0],
    &[f32::MIN_POSITIVE, -LEAST],
    &[3.0, 1e-30, -3.0],
    &[1e30, 1.0, -1e30],
];

fn boosted(base: &Query, boost: f32) -> Query {
    if boost.to_bits() == 1.0_f32.to_bits() {
        base.clone()
    } else {
        base.clone().boost(boost)
    }
}

fn sums(list: &mut List) {
    for boosts in SUMS {
        for (kind, minimum) in [(Occur::Must, 0), (Occur::Should, 1), (Occur::Should, 2)] {
            let clauses = boosts.iter().map(|x| (kind, boosted(&a(), *x)));
            let mut clauses: Vec<_> = clauses.collect();
            list.rewritten(&boolean(minimum, &clauses));
            if kind == Occur::Must {
                clauses.push((Occur::MustNot, b()));
                list.rewritten(&boolean(minimum, &clauses));
            }
        }
    }
}

/// Two kinds and two bases among each other: each sum in clause order, at the first one's place.
fn interleaved(list: &mut List) {
    use Occur::{Filter, Must, MustNot, Should};
    let clauses = [
        (Must, a()),
        (Should, a().boost(0.1)),
        (MustNot, a().boost(2.0)),
        (Must, b().boost(3.0)),
        (Filter, b()),
        (Should, b()),
        (Must, a().boost(0.5)),
        (Should, a().boost(0.2)),
        (MustNot, a().boost(2.0)),
        (Filter, b().boost(3.0)),
        (Should, a().boost(0.3)),
        (Must, b()),
    ];
    for minimum in 0..5 {
        list.rewritten(&boolean(minimum, &clauses));
    }
    for skipped in 0..clauses.len() {
        let mut fewer = clauses.to_vec();
        fewer.remove(skipped);
        list.rewritten(&boolean(1, &fewer));
    }
}

/// Should clauses, some the same, under minima from 0 to above their number.
fn minima(list: &mut List) {
    let rows: [&[Query]; 8] = [
        &[a(), a()],
        &[a(), b()],
        &[a(), a(), b()],
        &[a(), a(), a()],
        &[a(), b(), a(), b()],
        &[a().boost(2.0), a(), a().boost(2.0)],
        &[a(), Query::MatchNone, b()],
        &[a().boost(1.0), a(), a().boost(-0.0), a().boost(0.0)],
    ];
    for row in rows {
        let clauses: Vec<_> = row.iter().map(|q| (Occur::Should, q.clone())).collect();
        let beside = [&clauses[..], &[(Occur::Must, a())]].concat();
        for minimum in 0..=4 {
            list.rewritten(&boolean(minimum, &clauses));
        }
        list.rewritten(&boolean(2, &beside));
    }
    list.rewritten(&boolean(65_535, &[(Occur::Should, a())]));
    list.rewritten(&boolean(65_535, &[(Occur::Must, a()), (Occur::Must, a())]));
}

/// A Filter is dropped when equal to the base of a Must that stands before it; its own boost counts.
fn filters(list: &mut List) {
    use Occur::{Filter, Must};
    let [x, y] = [2.0, 3.0].map(|boost| a().boost(boost));
    let rows: [&[(Occur, Query)]; 12] = [
        &[(Must, a()), (Filter, a())],
        &[(Filter, a()), (Must, a())],
        &[(Must, x.clone()), (Filter, a())],
        &[(Must, x.clone()), (Filter, x.clone())],
        &[(Must, a()), (Filter, x.clone())],
        &[(Must, a()), (Filter, a().boost(1.0))],
        &[(Must, x.clone()), (Filter, y.clone()), (Filter, a())],
        &[(Filter, x.clone()), (Filter, a()), (Must, a())],
        &[(Filter, a()), (Filter, a())],
        &[(Filter, x.clone()), (Filter, x.clone())],
        &[(Filter, x.clone()), (Filter, y)],
        &[(Must, a()), (Filter, a().constant_score())],
    ];
    for row in rows {
        list.rewritten(&boolean(0, row));
        for kind in [Occur::Must, Occur::Should] {
            let more = [row, &[(kind, b()), (kind, a())]].concat();
            list.rewritten(&boolean(0, &more));
        }
    }
}
