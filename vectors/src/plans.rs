//! The lines on join plans of both editions: those that stand in crates/decode, and any number of others.
use crate::damage::{damages, left_over, Damage};
use crate::edges::edges;
use crate::library::{encoded, Edition, BOTH};
use crate::lines::Lines;
use crate::numbers::{numbers, Field, Number};
use crate::shapes::{longest, poor, shapes, short, uneven};
use crate::{hex, Rng};

fn good(rng: &mut Rng, lines: &mut Lines) {
    lines.out.note("plans of both editions: a short one, the longest (448 and 491 bytes), empty maps and no change, then any");
    let by_hand = "0500000000000000 00000000 0200000000000000 01000000 0b00000000000000 2c010000 3601000000000000 0900000000000000 0300000000000000 01000000 02000000 07000000";
    assert_eq!(hex(&encoded(&short(), Edition::Old)), by_hand.replace(' ', ""));
    assert_eq!(hex(&encoded(&short(), Edition::New)), "05 00 02 01 0b fb2c01 fb3601 09 03 01 02 07".replace(' ', ""));
    lines.valid(&short());
    assert!(encoded(&longest(), Edition::Old).len() == 448 && encoded(&longest(), Edition::New).len() == 491);
    lines.valid(&longest());
    for p in poor().iter().chain(&shapes()) {
        lines.valid(p);
    }
    for _ in 0..40 {
        let p = rng.wide_plan(16);
        lines.valid(&p);
    }
}

/// Cut at every place, which is 2 wherever it falls, and bytes left over.
fn cuts(rng: &mut Rng, lines: &mut Lines) {
    lines.out.note("plans of both editions: cut at every place, bytes left over");
    for edition in BOTH {
        let bytes = encoded(&uneven(), edition);
        for n in 0..bytes.len() {
            lines.refused(edition, &bytes[..n], 2, "cut", false);
        }
        for ns in [numbers(&uneven()), numbers(&longest())].iter() {
            for _ in 0..4 {
                let d = left_over(rng);
                lines.one(ns, edition, ns.len(), &d);
            }
        }
        let whole = encoded(&longest(), edition);
        lines.refused(edition, &whole[..whole.len() - 1], 2, "cut", false);
    }
}

/// Each kind of damage at each number; a map of over sixteen stations that is whole.
fn single(rng: &mut Rng, lines: &mut Lines) {
    lines.out.note("plans of both editions: one damage, of every kind at every number");
    for (p, edition) in shapes().iter().take(4).flat_map(|p| BOTH.iter().map(move |e| (p, *e))) {
        let ns = numbers(p);
        for at in 0..ns.len() {
            one_of_each(rng, lines, &ns, edition, at);
        }
    }
    for _ in 0..4 {
        let p = rng.crowded_plan();
        lines.crowded(&p);
    }
}

fn one_of_each(rng: &mut Rng, lines: &mut Lines, ns: &[Number], edition: Edition, at: usize) {
    let mut all = damages(&ns[at], edition);
    all.sort_by_key(|d| d.why);
    while !all.is_empty() {
        let same = all.iter().take_while(|d| d.why == all[0].why).count();
        let d = &all[rng.below(same as u64) as usize];
        lines.one(ns, edition, at, d);
        all.drain(..same);
    }
}

/// The first damage of a kind.
fn of_kind(n: &Number, edition: Edition, why: &str) -> Damage {
    damages(n, edition).into_iter().find(|d| d.why == why).unwrap()
}

/// In one node: an id that does not ascend before a key that is badly written, and a badly written id before key 0.
fn id_and_key(lines: &mut Lines) {
    let badly = ["marker 254 or 255", "longer than need be", "cut before a number", "cut inside a number", "marker 254 or 255, the last byte"];
    for p in shapes().iter().filter(|p| p.pub_keys.len() > 1) {
        let ns = numbers(p);
        let at = ns.iter().position(|n| matches!(n.field, Field::Id(Some(_)))).unwrap();
        for edition in BOTH {
            for why in badly.iter().filter(|why| edition == Edition::New || why.starts_with("cut")) {
                let bad = of_kind(&ns[at + 1], edition, why);
                for rule in ["id repeated", "ids unsorted"] {
                    lines.two(&ns, edition, (at, &of_kind(&ns[at], edition, rule)), (at + 1, &bad));
                }
            }
        }
        let zero = of_kind(&ns[at + 1], Edition::New, "key 0");
        for why in [badly[0], badly[1], "longer than need be, and against its rule", "too large for its field"] {
            lines.two(&ns, Edition::New, (at, &of_kind(&ns[at], Edition::New, why)), (at + 1, &zero));
        }
    }
}

/// Two damages, first in numbers that stand beside each other (so an id and its key), then anywhere.
fn double(rng: &mut Rng, lines: &mut Lines) {
    lines.out.note("plans of both editions: two damages, of which the earlier decides");
    id_and_key(lines);
    for (p, edition) in shapes().iter().flat_map(|p| BOTH.iter().map(move |e| (p, *e))) {
        let ns = numbers(p);
        for at in 0..ns.len() {
            for _ in 0..2 {
                lines.two_at(rng, &ns, edition, at, at + 1);
            }
            lines.two_anywhere(rng, &ns, edition);
        }
    }
}

/// The lines that stand in crates/decode, the same at each call.
pub fn standing() -> Lines {
    let mut rng = Rng(0x2545_f491_4f6c_dd1d);
    let mut lines = Lines::default();
    good(&mut rng, &mut lines);
    edges(&mut lines);
    cuts(&mut rng, &mut lines);
    single(&mut rng, &mut lines);
    double(&mut rng, &mut lines);
    lines
}

/// Plans at random of all shapes, each converted both ways and damaged, once and twice at a time.
pub fn at_random(seed: u64, count: u64) -> Lines {
    let mut rng = Rng(seed.wrapping_mul(2).wrapping_add(1).wrapping_mul(0x9e37_79b9_7f4a_7c15));
    let mut lines = Lines::default();
    for _ in 0..count {
        let p = rng.wide_plan(16);
        let ns = numbers(&p);
        lines.valid(&p);
        for edition in BOTH {
            for _ in 0..3 {
                lines.one_anywhere(&mut rng, &ns, edition);
                lines.two_anywhere(&mut rng, &ns, edition);
            }
        }
        if rng.below(10) == 0 {
            let p = rng.crowded_plan();
            lines.crowded(&p);
        }
    }
    lines
}
