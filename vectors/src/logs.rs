//! Holds the conversions of join plans in generated logs (compare/generate), whose answers are those of the generator's own rule, to the library. Where the rule has a plan, the library must
//! read the one and write the other, both ways. Where the rule refuses what the library reads, it must show in the plan why. Says how many there were of each answer, and what the library reads.
use crate::library::{decoded, decoded_at_start, encoded, Edition};
use crate::{Change, ChangeState, JoinPlan};
use std::collections::BTreeMap;
use std::path::Path;

/// A map as it was read: with ids that do not ascend, and with those that stand there twice.
type Pairs = Vec<(u32, u64)>;

fn maps(p: &JoinPlan<Pairs>) -> Vec<&Pairs> {
    match &p.change {
        ChangeState::InProgress(Change::NodeChange(m)) | ChangeState::Complete(Change::NodeChange(m)) => vec![m, &p.pub_keys],
        _ => vec![&p.pub_keys],
    }
}

/// What the library lets pass in bytes that it reads, each with the number that the rule has for it.
fn let_pass(bytes: &[u8], p: &JoinPlan<Pairs>, edition: Edition) -> Vec<(u8, &'static str)> {
    let found = [
        (16, "longer than need be", longer(bytes, p, edition)),
        (3, "over 16 stations", maps(p).iter().any(|m| m.len() > 16)),
        (2, "ids not ascending", maps(p).iter().any(|m| m.windows(2).any(|w| w[0].0 >= w[1].0))),
        (2, "key 0", maps(p).iter().any(|m| m.iter().any(|(_, key)| *key == 0))),
        (2, "left over", decoded::<JoinPlan<Pairs>>(bytes, edition).is_none()),
    ];
    found.iter().filter(|f| f.2).map(|f| (f.0, f.1)).collect()
}

fn longer(bytes: &[u8], p: &JoinPlan<Pairs>, edition: Edition) -> bool {
    !bytes.starts_with(&encoded(p, edition))
}

/// One conversion.
struct Call<'a> {
    edition: Edition,
    bytes: Vec<u8>,
    lent: usize,
    answer: &'a str,
}

fn unhex(digits: &str) -> Option<Vec<u8>> {
    if digits == "-" {
        return Some(vec![]);
    }
    (0..digits.len()).step_by(2).map(|i| digits.get(i..i + 2).and_then(|d| u8::from_str_radix(d, 16).ok())).collect()
}

/// A line of a log with its answer, where it is a conversion.
fn call<'a>(line: &str, answer: &'a str) -> Option<Call<'a>> {
    let words: Vec<&str> = line.split(' ').collect();
    match words.as_slice() {
        ["plan-new", plan, lent] if answer != "bad line" => Some(Call { edition: Edition::Old, bytes: unhex(plan)?, lent: lent.parse().ok()?, answer }),
        ["plan-old", plan, lent] if answer != "bad line" => Some(Call { edition: Edition::New, bytes: unhex(plan)?, lent: lent.parse().ok()?, answer }),
        _ => None,
    }
}

/// Whether the library makes the one plan of the other, in both directions.
fn agrees(c: &Call, told: &[u8]) -> bool {
    let (from, to) = (c.edition, c.edition.other());
    match (decoded::<JoinPlan>(&c.bytes, from), decoded::<JoinPlan>(told, to)) {
        (Some(p), Some(q)) => p == q && encoded(&p, to) == told && encoded(&q, from) == c.bytes,
        _ => false,
    }
}

/// The bytes that must be lent for the edition that is written (02, CR 5).
fn room(written: Edition) -> usize {
    match written {
        Edition::New => 491,
        Edition::Old => 448,
    }
}

/// What the library has to say to an answer; an error where that contradicts it. Row 1 goes by the buffer alone, and before all else.
fn judged(c: &Call) -> Result<String, String> {
    if (c.lent < room(c.edition.other())) != (c.answer == "refused 1") {
        return Err("row 1 is not the buffer's".to_string());
    }
    if let Some(plan) = c.answer.strip_prefix("plan ") {
        return if unhex(plan).map_or(false, |told| agrees(c, &told)) { Ok("the same plan".to_string()) } else { Err("not the library's plan".to_string()) };
    }
    let row: u8 = c.answer.strip_prefix("refused ").and_then(|n| n.parse().ok()).ok_or("no answer to a conversion")?;
    if row == 1 {
        return Ok("not asked".to_string());
    }
    match decoded_at_start::<JoinPlan<Pairs>>(&c.bytes, c.edition) {
        None => Ok("refuses too".to_string()),
        Some(p) => {
            let found = let_pass(&c.bytes, &p, c.edition);
            let words: Vec<&str> = found.iter().map(|f| f.1).collect();
            let told = format!("reads: {}", words.join(", "));
            if found.iter().any(|f| f.0 == row) { Ok(told) } else { Err(told) }
        }
    }
}

/// The lines of a log that are answered.
fn asked(log: &str) -> impl Iterator<Item = &str> {
    log.lines().filter(|line| !line.is_empty() && !line.starts_with('#'))
}

type Counts = BTreeMap<String, usize>;

/// Counts the conversions of one log; answers how many contradict the library.
fn check_log(path: &Path, counts: &mut Counts) -> usize {
    let (log, answers) = (std::fs::read_to_string(path).unwrap(), std::fs::read_to_string(path.with_extension("txt")).unwrap());
    assert_eq!(asked(&log).count(), answers.lines().count());
    let mut bad = 0;
    for (line, answer) in asked(&log).zip(answers.lines()) {
        if let Some(c) = call(line, answer) {
            let told = judged(&c).unwrap_or_else(|why| {
                bad += 1;
                println!("{}: {} -> {}: {}", path.display(), line, answer, why);
                "CONTRADICTS".to_string()
            });
            let what = format!("{} {}: {}", c.edition.kind(), if answer.starts_with("plan ") { "plan" } else { answer }, told);
            *counts.entry(what).or_insert(0) += 1;
        }
    }
    bad
}

/// All logs of a folder.
pub fn check(dir: &str) {
    let (mut counts, mut bad) = (Counts::new(), 0);
    for entry in std::fs::read_dir(dir).unwrap() {
        let path = entry.unwrap().path();
        if path.extension().map_or(false, |e| e == "log") {
            bad += check_log(&path, &mut counts);
        }
    }
    for (what, n) in &counts {
        println!("{:8} {}", n, what);
    }
    let all: usize = counts.values().sum();
    println!("{} conversions, {} contradict the library", all, bad);
    assert!(all > 0 && bad == 0);
}
