//! Join plans written by hand.
use crate::{Change, ChangeState, EncryptionSchedule, JoinPlan, Map, Params, SubsetHandlingStrategy};

fn stations(ids: &[u32]) -> Map {
    ids.iter().map(|id| (*id, u64::from(*id) + 10)).collect()
}

fn plan(change: ChangeState, ids: &[u32], schedule: EncryptionSchedule) -> JoinPlan {
    let params = Params { max_future_epochs: 3, subset_handling_strategy: SubsetHandlingStrategy::AllAtEnd, encryption_schedule: schedule };
    JoinPlan { era: 5, change, pub_keys: stations(ids), pub_key_set: 9, params }
}

/// Plans that have every field between them.
pub fn shapes() -> Vec<JoinPlan> {
    use EncryptionSchedule::{Always, EveryNthEpoch, Never, TickTock};
    vec![
        plan(ChangeState::InProgress(Change::NodeChange(stations(&[1]))), &[2, 7], TickTock(1, 4)),
        plan(ChangeState::Complete(Change::NodeChange(stations(&[0, 3]))), &[4], EveryNthEpoch(6)),
        plan(ChangeState::InProgress(Change::EncryptionSchedule(TickTock(2, 3))), &[], Always),
        plan(ChangeState::Complete(Change::EncryptionSchedule(EveryNthEpoch(8))), &[1], Never),
        plan(ChangeState::None, &[1, 2, 3], TickTock(0, 0)),
    ]
}

/// The longest plan: every number that may be long is.
pub fn longest() -> JoinPlan {
    let full: Map = (0..16).map(|i| (u32::MAX - i, u64::MAX - u64::from(i))).collect();
    let mut p = plan(ChangeState::Complete(Change::NodeChange(full.clone())), &[], EncryptionSchedule::TickTock(u32::MAX, u32::MAX));
    p.era = u64::MAX;
    p.pub_keys = full;
    p.pub_key_set = u64::MAX;
    p.params.max_future_epochs = u64::MAX;
    p
}

/// A plan that can be written out by hand: era 5, no change, stations 1 and 300 with keys 11 and 310, key set 9.
pub fn short() -> JoinPlan {
    plan(ChangeState::None, &[1, 300], EncryptionSchedule::EveryNthEpoch(7))
}

/// Plans that joining would refuse, which the conversion reads and does not judge: no station, key set 0; an empty map that is voted for.
pub fn poor() -> Vec<JoinPlan> {
    let mut nothing = plan(ChangeState::None, &[], EncryptionSchedule::Always);
    nothing.pub_key_set = 0;
    let mut emptied = nothing.clone();
    emptied.change = ChangeState::Complete(Change::NodeChange(Map::new()));
    vec![nothing, emptied]
}

/// A plan with numbers of two, three, five and nine bytes in the new edition.
pub fn uneven() -> JoinPlan {
    let mut p = plan(ChangeState::InProgress(Change::NodeChange(stations(&[70_000]))), &[300], EncryptionSchedule::TickTock(1, 251));
    p.era = u64::MAX;
    p
}
