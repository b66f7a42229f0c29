//! The numbers at which the new edition takes another length, or a field its end, in every field of a join plan.
use crate::library::{decoded, Edition, BOTH};
use crate::lines::Lines;
use crate::numbers::{numbers, written, Field, Number};
use crate::shapes::shapes;
use crate::JoinPlan;

pub const EDGES: [u64; 7] = [250, 251, (1 << 16) - 1, 1 << 16, (1 << 32) - 1, 1 << 32, u64::MAX];

/// The numbers with the ids behind an id in its map raised, so that they ascend; none where there is no room for them.
fn raised(ns: &[Number], at: usize) -> Option<Vec<Number>> {
    let mut out = ns.to_vec();
    if let Field::Id(_) = ns[at].field {
        let mut id = ns[at].value;
        for n in out[at + 1..].iter_mut().take_while(|n| matches!(n.field, Field::Id(Some(_)) | Field::Key)) {
            if let Field::Id(_) = n.field {
                id += 1;
                n.value = id;
            }
        }
        if id >= 1 << 32 {
            return None;
        }
    }
    Some(out)
}

/// The row that a field has for a number, whatever stands behind it.
fn against_field(n: &Number) -> Option<(u8, &'static str)> {
    match n.field {
        _ if !n.fits() => Some((16, "too large for its field")),
        Field::Tag(_) => Some((2, "unknown tag")),
        Field::Count => Some((3, "count over 16")),
        _ => None,
    }
}

/// In each edition that can write it.
fn refused(lines: &mut Lines, ns: &[Number], at: usize, row: u8, why: &'static str) {
    for edition in BOTH.iter().filter(|e| **e == Edition::New || ns[at].fits()) {
        lines.refused(*edition, &written(ns, *edition), row, why, false);
    }
}

/// An edge in a field: a plan that is converted, or the row that the field has for it. The greatest id has no room behind it.
fn edge(lines: &mut Lines, ns: &[Number], at: usize, x: u64) {
    let mut with = ns.to_vec();
    with[at].value = x;
    if let Some((row, why)) = against_field(&with[at]) {
        return refused(lines, &with, at, row, why);
    }
    match raised(&with, at) {
        Some(good) => lines.valid(&decoded::<JoinPlan>(&written(&good, Edition::New), Edition::New).unwrap()),
        None => refused(lines, &with, at, 2, "ids unsorted"),
    }
}

/// All of them, and a few tags and counts that are no edges.
pub fn edges(lines: &mut Lines) {
    lines.out.note("plans of both editions: 250, 251, 2^16-1, 2^16, 2^32-1, 2^32 and 2^64-1 in every field, then other tags and counts");
    for p in shapes() {
        let ns = numbers(&p);
        for at in 0..ns.len() {
            let more = match ns[at].field {
                Field::Tag(known) => vec![known, 300],
                Field::Count => vec![17, 1 << 40],
                _ => vec![],
            };
            for x in EDGES.iter().chain(&more) {
                edge(lines, &ns, at, *x);
            }
        }
    }
}
