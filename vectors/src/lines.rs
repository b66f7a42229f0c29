//! Lines of the kinds `plan-new` (a plan of the old edition, answered with the new one's bytes) and `plan-old` (the other way). A valid plan answers with the library's own encoding in the
//! other edition; a damaged one with the row for which it was built, of two damages that of the earlier one.
use crate::damage::{damaged, some_damage, Damage};
use crate::library::{decoded, encoded, Edition, BOTH};
use crate::numbers::Number;
use crate::table::Table;
use crate::{hex, JoinPlan, Out, Rng};

#[derive(Default)]
pub struct Lines {
    pub out: Out,
    pub table: Table,
}

impl Lines {
    /// A plan is converted both ways into what the library itself makes of it.
    pub fn valid(&mut self, p: &JoinPlan) {
        assert!(encoded(p, Edition::Old).len() <= 448 && encoded(p, Edition::New).len() <= 491);
        for edition in BOTH {
            let bytes = encoded(p, edition);
            assert!(decoded::<JoinPlan>(&bytes, edition).as_ref() == Some(p));
            self.out.line(edition.kind(), &bytes, &format!("ok {}", hex(&encoded(p, edition.other()))));
        }
    }
    pub fn refused(&mut self, edition: Edition, bytes: &[u8], row: u8, why: &'static str, second: bool) {
        self.table.count(edition, bytes, row, why, second);
        self.out.line(edition.kind(), bytes, &format!("refused {}", row));
    }
    /// A plan that is whole, with a map that has too many stations.
    pub fn crowded(&mut self, p: &JoinPlan) {
        for edition in BOTH {
            self.refused(edition, &encoded(p, edition), 3, "map of over 16 stations", false);
        }
    }
    /// One damage at a place.
    pub fn one(&mut self, ns: &[Number], edition: Edition, at: usize, d: &Damage) {
        self.refused(edition, &damaged(ns, edition, &[(at, d)]), d.row, d.why, false);
    }
    pub fn one_anywhere(&mut self, rng: &mut Rng, ns: &[Number], edition: Edition) {
        let at = rng.below(ns.len() as u64 + 1) as usize;
        self.one(ns, edition, at, &some_damage(rng, ns, at, edition));
    }
    /// Two damages: the earlier decides, so it must not end the plan.
    pub fn two(&mut self, ns: &[Number], edition: Edition, first: (usize, &Damage), second: (usize, &Damage)) {
        assert!(first.0 < second.0 && !first.1.ends);
        self.refused(edition, &damaged(ns, edition, &[first, second]), first.1.row, first.1.why, true);
    }
    /// Two damages of any kind at these places; none where all those tried at the first one ended the plan.
    pub fn two_at(&mut self, rng: &mut Rng, ns: &[Number], edition: Edition, at: usize, behind: usize) {
        let first = (0..20).map(|_| some_damage(rng, ns, at, edition)).find(|d| !d.ends);
        if let Some(d) = first {
            self.two(ns, edition, (at, &d), (behind, &some_damage(rng, ns, behind, edition)));
        }
    }
    pub fn two_anywhere(&mut self, rng: &mut Rng, ns: &[Number], edition: Edition) {
        let at = rng.below(ns.len() as u64) as usize;
        let behind = at + 1 + rng.below((ns.len() - at) as u64) as usize;
        self.two_at(rng, ns, edition, at, behind);
    }
}
