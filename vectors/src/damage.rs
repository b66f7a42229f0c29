//! Damages of one number of a join plan, each with the row for which it is built.
use crate::library::Edition;
use crate::numbers::{least, marked, shortest, Field, Number};
use crate::Rng;

/// What stands in place of one number, or behind the last; where it ends the plan, nothing stands behind it.
pub struct Damage {
    pub why: &'static str,
    pub row: u8,
    bytes: Vec<u8>,
    pub ends: bool,
}

fn inside(why: &'static str, row: u8, bytes: Vec<u8>) -> Damage {
    Damage { why, row, bytes, ends: false }
}

fn last(why: &'static str, row: u8, bytes: Vec<u8>) -> Damage {
    Damage { why, row, bytes, ends: true }
}

/// Values that fit the field and that its own rule refuses.
fn against_rule(n: &Number) -> Vec<(&'static str, u8, u64)> {
    let tags = |known| [known, known + 1, 250, 251, 300, 65535, 65536, u64::from(u32::MAX)];
    let counts = [17, 18, 250, 251, 65535, 65536, u64::from(u32::MAX), 1 << 32, 1 << 40, u64::MAX];
    match n.field {
        Field::Any64 | Field::Any32 | Field::Id(None) => vec![],
        Field::Tag(known) => tags(known).iter().map(|x| ("unknown tag", 2, *x)).collect(),
        Field::Count => counts.iter().map(|x| ("count over 16", 3, *x)).collect(),
        Field::Id(Some(0)) => vec![("id repeated", 2, 0)],
        Field::Id(Some(before)) => vec![("id repeated", 2, before), ("ids unsorted", 2, before - 1), ("ids unsorted", 2, 0)],
        Field::Key => vec![("key 0", 2, 0)],
    }
}

/// Each form of x that is longer than need be.
fn longer(x: u64) -> impl Iterator<Item = Vec<u8>> {
    (251..=253).filter(move |m| x < least(*m)).map(move |m| marked(m, x))
}

fn markers(n: &Number) -> Vec<Damage> {
    let mut out = vec![];
    for marker in [254, 255] {
        let mut long = vec![marker];
        long.extend_from_slice(&u128::from(n.value).to_le_bytes());
        let mut before = vec![marker];
        before.extend(shortest(n.value));
        out.push(inside("marker 254 or 255", 16, long));
        out.push(inside("marker 254 or 255", 16, before));
        out.push(inside("marker 254 or 255", 16, vec![marker]));
        out.push(last("marker 254 or 255, the last byte", 16, vec![marker]));
    }
    out
}

/// Numbers that do not fit their field: the low bytes alone would be taken, or be another row; and the greatest.
fn too_large(n: &Number) -> Vec<Damage> {
    let mut values = vec![];
    if n.width() == 4 {
        values = vec![1 << 32, n.value + (1 << 32), u64::MAX];
        values.extend(against_rule(n).iter().take(1).map(|(_, _, x)| x + (1 << 32)));
    }
    values.iter().map(|x| inside("too large for its field", 16, marked(253, *x))).collect()
}

/// A marker with fewer bytes than it announces, whatever they say; and nothing at all.
fn cut_new() -> Vec<Damage> {
    let mut out = vec![last("cut before a number", 2, vec![])];
    for marker in 251..=253 {
        for x in [0, 7, u64::MAX] {
            let whole = marked(marker, x);
            for n in [1, 2, whole.len() - 1] {
                out.push(last("cut inside a number", 2, whole[..n].to_vec()));
            }
        }
    }
    out
}

fn cut_old(n: &Number) -> Vec<Damage> {
    let whole = n.bytes(Edition::Old);
    let mut out = vec![last("cut before a number", 2, vec![])];
    out.extend((1..whole.len()).map(|k| last("cut inside a number", 2, whole[..k].to_vec())));
    out
}

/// All damages of one number.
pub fn damages(n: &Number, edition: Edition) -> Vec<Damage> {
    let bad = |x| Number { value: x, ..*n }.bytes(edition);
    let mut out: Vec<Damage> = against_rule(n).into_iter().map(|(why, row, x)| inside(why, row, bad(x))).collect();
    if edition == Edition::Old {
        out.extend(cut_old(n));
        return out;
    }
    out.extend(longer(n.value).map(|b| inside("longer than need be", 16, b)));
    for (_, _, x) in against_rule(n) {
        out.extend(longer(x).map(|b| inside("longer than need be, and against its rule", 16, b)));
    }
    out.extend(too_large(n));
    out.extend(markers(n));
    out.extend(cut_new());
    out
}

/// Bytes behind the last number.
pub fn left_over(rng: &mut Rng) -> Damage {
    let bytes = (0..[1, 1, 2, 9, 40][rng.below(5) as usize]).map(|_| [0, 1, 251, 254, 255, rng.next() as u8][rng.below(6) as usize]).collect();
    last("left over", 2, bytes)
}

/// One damage at a number, or behind the last one.
pub fn some_damage(rng: &mut Rng, numbers: &[Number], at: usize, edition: Edition) -> Damage {
    if at == numbers.len() {
        return left_over(rng);
    }
    let mut all = damages(&numbers[at], edition);
    // each kind as often as the others, however many forms it has
    let mut kinds: Vec<&'static str> = all.iter().map(|d| d.why).collect();
    kinds.sort_unstable();
    kinds.dedup();
    let kind = kinds[rng.below(kinds.len() as u64) as usize];
    all.retain(|d| d.why == kind);
    let k = rng.below(all.len() as u64) as usize;
    all.swap_remove(k)
}

/// The bytes of a plan with damages at these places.
pub fn damaged(numbers: &[Number], edition: Edition, damages: &[(usize, &Damage)]) -> Vec<u8> {
    let mut out = vec![];
    for at in 0..=numbers.len() {
        match damages.iter().find(|(place, _)| *place == at) {
            Some((_, d)) => {
                out.extend_from_slice(&d.bytes);
                if d.ends {
                    break;
                }
            }
            None => out.extend(numbers.get(at).map_or(vec![], |n| n.bytes(edition))),
        }
    }
    out
}
