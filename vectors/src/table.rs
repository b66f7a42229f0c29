//! What the library does with damaged plans: for each kind of line and damage, alone and with a second one behind it, how many there were and how many of them the library reads.
use crate::library::{decoded, decoded_at_start, Edition};
use crate::JoinPlan;
use std::collections::BTreeMap;
use std::fmt::Write as _;

struct Row {
    number: u8,
    made: usize,
    /// Read as a whole, nothing being left over.
    whole: usize,
    /// Read where bytes may be left over.
    at_start: usize,
}

#[derive(Default)]
pub struct Table(BTreeMap<(&'static str, &'static str, bool), Row>);

impl Table {
    pub fn count(&mut self, edition: Edition, bytes: &[u8], number: u8, why: &'static str, second: bool) {
        let row = self.0.entry((edition.kind(), why, second)).or_insert(Row { number, made: 0, whole: 0, at_start: 0 });
        assert_eq!(row.number, number);
        row.made += 1;
        row.whole += usize::from(decoded::<JoinPlan>(bytes, edition).is_some());
        row.at_start += usize::from(decoded_at_start::<JoinPlan>(bytes, edition).is_some());
    }
    pub fn text(&self) -> String {
        let mut s = String::from("damaged plans: line, damage, its number, how many, how many of them the library reads as a whole, and how many where bytes may be left over\n");
        for ((kind, why, second), row) in &self.0 {
            let what = format!("{}{}", why, if *second { "; then another" } else { "" });
            writeln!(s, "  {} {:60} {:2} {:6} {:6} {:6}", kind, what, row.number, row.made, row.whole, row.at_start).unwrap();
        }
        s
    }
}
