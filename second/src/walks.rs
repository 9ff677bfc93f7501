//! Timetables with a start that is out of range, or with a start, a shortfall or an owner by which the
//! transition does not lead to the base's shortfalls; now and then one that is still sound.

use crate::built::{
    alone, go_on, led_to, lengthen, limit, listed_ids, match_base, some_listed, some_unlisted,
};
use crate::random::Random;
use crate::timetable::{Timetable, CYCLE, DEBT_LIMIT, LONGEST_TRANSITION};

/// A listed partition starts at exactly 256 R, one below, or above, and the transition leads from
/// there to its shortfall, within its bound where it can.
pub fn start(random: &mut Random, timetable: &mut Timetable) {
    let id = some_listed(random, timetable);
    let limit = first_too_far(timetable, id);
    serve(timetable, id, limit);
    let start = match random.below(10) {
        0..=3 => limit,
        4..=6 => limit - 1,
        7..=8 => limit + random.between(1, 300) as u16,
        _ => random.pick(&[limit + 256, 2048, 4096, 1 << 15, u16::MAX]).unwrap_or(limit),
    };
    timetable.starts[id] = start;
    timetable.entries[id].shortfall = led_to(timetable, id, start);
}

/// The first start that is not below 256 R.
fn first_too_far(timetable: &Timetable, id: usize) -> u16 {
    CYCLE as u16 * u16::from(timetable.entries[id].bound)
}

/// The transition goes on, idle slots to a partition, until it leads there from a start within the
/// bound; if the longest does not, the partition is alone.
fn serve(timetable: &mut Timetable, id: usize, start: u16) {
    let within =
        |timetable: &Timetable| led_to(timetable, id, start) < limit(&timetable.entries[id]);
    while !within(timetable) && usize::from(timetable.length) < LONGEST_TRANSITION {
        go_on(timetable, id as u8);
    }
    if !within(timetable) {
        alone(timetable, id);
    }
    match_base(timetable);
}

/// An id that is not listed is owed something else at the request slot than at the base: one more or
/// less, a whole slot, or any; now and then a transition slot takes that off.
pub fn unlisted_start(random: &mut Random, timetable: &mut Timetable) {
    let id = some_unlisted(random, timetable);
    let any = random.below(u64::from(DEBT_LIMIT)) as u16;
    let kept = timetable.entries[id].shortfall;
    let debt = random.pick(&[kept, kept, any, DEBT_LIMIT - 1]).unwrap_or(kept);
    let near = [debt.saturating_sub(1), debt.saturating_sub(CYCLE as u16), debt / 2];
    let other = random.pick(&[near[0], near[0], near[1], near[2], 0, any]).unwrap_or(0);
    let other = if other == debt { (debt + 1) % DEBT_LIMIT } else { other };
    (timetable.starts[id], timetable.entries[id].shortfall) =
        if random.chance(1, 2) { (debt, other) } else { (other, debt) };
    if timetable.length > 0 && random.chance(1, 16) {
        timetable.owners[0] = id as u8;
        timetable.entries[id].shortfall = led_to(timetable, id, timetable.starts[id]);
    }
}

/// A listed partition starts elsewhere below 256 R; the walk misses, unless it leads to the same.
pub fn other_start(random: &mut Random, timetable: &mut Timetable) {
    let id = some_listed(random, timetable);
    some_transition(random, timetable);
    let (right, most) = (timetable.starts[id], first_too_far(timetable, id) - 1);
    let any = random.between(0, u64::from(most)) as u16;
    let near = [right.saturating_sub(1), (right + 1).min(most)];
    let start = random.pick(&[near[0], near[1], any, any, 0, most]).unwrap_or(any);
    timetable.starts[id] = if start == right { (right + 1) % (most + 1) } else { start };
}

/// A listed partition has another shortfall at the base, within its bound: one more or less, any, the
/// start, or none.
pub fn other_shortfall(random: &mut Random, timetable: &mut Timetable) {
    some_listed(random, timetable);
    some_transition(random, timetable);
    let wide = |&id: &usize| limit(&timetable.entries[id]) > 1;
    let ids: Vec<usize> = listed_ids(timetable).into_iter().filter(wide).collect();
    let Some(id) = random.pick(&ids) else { return other_start(random, timetable) };
    let (right, most) = (timetable.entries[id].shortfall, limit(&timetable.entries[id]) - 1);
    let any = random.between(0, u64::from(most)) as u16;
    let near = [right.saturating_sub(1), (right + 1).min(most)];
    let start = timetable.starts[id].min(most);
    let shortfall = random.pick(&[near[0], near[1], any, start, start, 0]).unwrap_or(any);
    let other = if shortfall == right { (right + 1) % (most + 1) } else { shortfall };
    timetable.entries[id].shortfall = other;
}

/// A transition slot has another listed owner, or two slots have exchanged theirs.
pub fn other_owner(random: &mut Random, timetable: &mut Timetable) {
    some_listed(random, timetable);
    if timetable.length < 2 {
        let length = random.between(2, LONGEST_TRANSITION as u64) as u8;
        lengthen(random, timetable, length);
    }
    let ids = listed_ids(timetable);
    if ids.len() < 2 {
        return other_start(random, timetable);
    }
    let [one, other] = [(); 2].map(|()| random.below(u64::from(timetable.length)) as usize);
    if random.chance(1, 4) {
        timetable.owners.swap(one, other);
    } else {
        let others: Vec<usize> =
            ids.into_iter().filter(|&id| id != usize::from(timetable.owners[one])).collect();
        timetable.owners[one] = random.pick(&others).unwrap_or(0) as u8;
    }
}

/// Every other timetable without a transition gets one.
fn some_transition(random: &mut Random, timetable: &mut Timetable) {
    if timetable.length == 0 && random.chance(1, 2) {
        let length = random.between(1, LONGEST_TRANSITION as u64) as u8;
        lengthen(random, timetable, length);
    }
}
