//! Join plans at random, of all shapes, with numbers of all lengths.
use crate::edges::EDGES;
use crate::{Change, ChangeState, EncryptionSchedule, JoinPlan, Map, Params, Rng, SubsetHandlingStrategy};

impl Rng {
    fn pick<T: Copy>(&mut self, from: &[T]) -> T {
        from[self.below(from.len() as u64) as usize]
    }
    /// A number of any length, often at an edge or beside one.
    fn wide64(&mut self) -> u64 {
        match self.below(4) {
            0 => self.pick(&EDGES),
            1 => self.pick(&EDGES).wrapping_add(self.below(5)).wrapping_sub(2),
            2 => self.below(251),
            _ => {
                let cut = self.below(64);
                self.next() >> cut
            }
        }
    }
    fn wide32(&mut self) -> u32 {
        let x = self.wide64();
        if x < 1 << 32 {
            x as u32
        } else {
            (x >> 32) as u32
        }
    }
    fn wide_map(&mut self, n: u64) -> Map {
        let mut m = Map::new();
        while (m.len() as u64) < n {
            let (id, key) = (self.wide32(), self.wide64().max(1));
            m.insert(id, key);
        }
        m
    }
    fn stations(&mut self) -> u64 {
        match self.below(3) {
            0 => self.pick(&[0, 1, 16]),
            _ => self.below(17),
        }
    }
    fn wide_schedule(&mut self) -> EncryptionSchedule {
        match self.below(4) {
            0 => EncryptionSchedule::Always,
            1 => EncryptionSchedule::Never,
            2 => EncryptionSchedule::EveryNthEpoch(self.wide32()),
            _ => EncryptionSchedule::TickTock(self.wide32(), self.wide32()),
        }
    }
    fn wide_change(&mut self, n: u64) -> Change {
        if self.below(2) == 0 {
            Change::NodeChange(self.wide_map(n))
        } else {
            Change::EncryptionSchedule(self.wide_schedule())
        }
    }
    /// A plan of any shape, with as many stations at most in each map.
    pub fn wide_plan(&mut self, most: u64) -> JoinPlan {
        let (n, k) = (self.stations().min(most), self.stations().min(most));
        JoinPlan {
            era: self.wide64(),
            change: match self.below(5) {
                0 => ChangeState::None,
                1 | 2 => ChangeState::InProgress(self.wide_change(n)),
                _ => ChangeState::Complete(self.wide_change(n)),
            },
            pub_keys: self.wide_map(k),
            pub_key_set: self.wide64(),
            params: Params {
                max_future_epochs: self.wide64(),
                subset_handling_strategy: if self.below(2) == 0 { SubsetHandlingStrategy::Incremental } else { SubsetHandlingStrategy::AllAtEnd },
                encryption_schedule: self.wide_schedule(),
            },
        }
    }
    /// A plan that is whole, but one of its maps has more than sixteen stations.
    pub fn crowded_plan(&mut self) -> JoinPlan {
        let n = self.pick(&[17, 17, 18, 40]);
        let mut p = self.wide_plan(2);
        if self.below(2) == 0 {
            p.pub_keys = self.wide_map(n);
        } else {
            p.change = ChangeState::InProgress(Change::NodeChange(self.wide_map(n)));
        }
        p
    }
}
