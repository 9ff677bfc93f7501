//! Demand 3 (docs/RULES.md 1.6) by brute force: runs are recorded slot by slot and all their windows
//! are looked at, across changes and absences back to slot 0; each length tried is held against a
//! search through all choices of offsets, and each refusal for want of a schedule against these and
//! whoever may get a slot. The R of a short field is the one that the requests before, as they were
//! read, gave the id last.

use crate::change::{change, listed, Outcome, Request, AREA};
use crate::generate::Generator;
use crate::queries::{owner_query, standing_query};
use crate::random::Random;
use crate::records::{longest_field, read_request, share_field, slot_field, Ask, ReadRequest};
use crate::slots::Shortfalls;
use crate::timetable::{Listing, Share, Timetable, IDLE, IDS};
use std::collections::BTreeSet;
use std::ops::Range;

/// The slots that an offset choice is walked through from the base on.
const LOOKED_AT: u64 = 512;

/// One slot of a run: its owner and the listing in force.
#[derive(Clone)]
struct Slot {
    owner: u8,
    listing: Listing,
}

impl Slot {
    /// An id's weight in the slot; none where it is not listed.
    fn weight(&self, id: usize) -> i64 {
        self.listing[id].map_or(0, |share| 256 / i64::from(share.period))
    }
}

/// A run of a controller from the empty timetable, recorded slot by slot up to some slot, and what
/// the request accepted last asked for.
pub(crate) struct Run {
    slots: Vec<Slot>,
    pub(crate) timetable: Timetable,
    asked: Listing,
}

impl Run {
    /// The run of an empty controller before its first slot.
    pub(crate) fn empty() -> Run {
        let timetable = Timetable::empty();
        Run { slots: Vec::new(), timetable, asked: [None; IDS] }
    }

    /// What a request asks for each id: by a short field the R asked for last, unless the id was left
    /// out since or never asked for; then it is 1.
    fn in_full(&self, read: &ReadRequest) -> Request {
        let mut listing = [None; IDS];
        for (id, ask) in read.asks.iter().enumerate() {
            let Some(Ask { period, bound }) = *ask else { continue };
            let last = self.asked[id].map_or(1, |share| share.bound);
            listing[id] = Some(Share { period, bound: bound.unwrap_or(last) });
        }
        Request { slot: read.slot, longest: read.longest, listing }
    }

    /// The slots before the given one are recorded, as the owner query names their owners.
    pub(crate) fn record_to(&mut self, end: usize) {
        for slot in self.slots.len()..end {
            let (number, owner) = owner_query(&self.timetable, slot as u64);
            assert_eq!(number, 0);
            self.slots.push(Slot { owner, listing: self.timetable.listing() });
        }
    }

    /// A request is put to the controller; from an accepted one's slot on the run is another.
    pub(crate) fn put(&mut self, record: &[u8]) -> Outcome {
        let outcome = change(&self.timetable, record, &mut [0; AREA]);
        if outcome.number == 0 {
            let slot = outcome.timetable.request_slot as usize;
            self.record_to(slot);
            self.slots.truncate(slot);
            self.timetable = outcome.timetable;
            self.asked =
                read_request(record).map_or([None; IDS], |read| self.in_full(&read).listing);
            assert_eq!(self.timetable.listing(), self.asked);
        }
        outcome
    }

    /// An id's shortfall at a slot, listed or not: the largest excess of entitlement over supply in all
    /// windows that end there, back to slot 0.
    pub(crate) fn shortfall(&self, id: usize, slot: usize) -> i64 {
        let mut largest = 0;
        let mut excess = 0;
        for passed in self.slots[..slot].iter().rev() {
            excess += passed.weight(id);
            excess -= if usize::from(passed.owner) == id { 256 } else { 0 };
            largest = largest.max(excess);
        }
        largest
    }

    /// The number of slots that are recorded.
    pub(crate) fn end(&self) -> usize {
        self.slots.len()
    }

    /// An id is listed in a slot.
    pub(crate) fn lists(&self, id: usize, slot: usize) -> bool {
        self.slots[slot].listing[id].is_some()
    }

    /// The recorded owner of a slot.
    pub(crate) fn owner(&self, slot: usize) -> u8 {
        self.slots[slot].owner
    }

    /// An id's supply over a window: the number of its own slots.
    pub(crate) fn supply(&self, id: usize, window: Range<usize>) -> u64 {
        let own = |slot: &&Slot| usize::from(slot.owner) == id;
        self.slots[window].iter().filter(own).count() as u64
    }

    /// In every window in whose last slot an id is listed the supply falls short by less than the bound
    /// there. How many windows there are, and how many across an absence.
    fn check_windows(&self) -> [u64; 2] {
        let mut windows = [0; 2];
        for end in 1..=self.slots.len() {
            for (id, share) in listed(&self.slots[end - 1].listing) {
                let [all, absent] = self.check_windows_to(id, share, end);
                windows = [windows[0] + all, windows[1] + absent];
            }
        }
        windows
    }

    /// The same of one id and one last slot.
    fn check_windows_to(&self, id: usize, share: Share, end: usize) -> [u64; 2] {
        let (mut supply, mut entitlement, mut absent, mut across) = (0, 0, false, 0);
        for slot in self.slots[..end].iter().rev() {
            entitlement += slot.weight(id);
            supply += if usize::from(slot.owner) == id { 1 } else { 0 };
            assert!(256 * supply + 256 * i64::from(share.bound) > entitlement);
            across += u64::from(absent && slot.listing[id].is_some());
            absent |= slot.listing[id].is_none();
        }
        [end as u64, across]
    }

    /// The kept shortfalls of every id, at the request slot and at the base, are those of all windows
    /// that end there. How many of them are of ids that are not listed and are owed something.
    fn check_kept(&mut self) -> u32 {
        let Timetable { request_slot, base, entries, starts, .. } = self.timetable;
        self.record_to(base as usize);
        let mut debts = 0;
        for id in 0..IDS {
            let kept = [starts[id], entries[id].shortfall].map(i64::from);
            assert_eq!(kept, [request_slot, base].map(|slot| self.shortfall(id, slot as usize)));
            debts += u32::from(!entries[id].listed() && kept[0] > 0);
        }
        debts
    }
}

/// No cyclic slot serves two, and the owner query names the one that a slot serves.
fn check_cycle(timetable: &Timetable) {
    for slot in 0..LOOKED_AT {
        let owners: Vec<u8> = (0..)
            .zip(&timetable.entries)
            .filter(|(_, entry)| entry.listed())
            .filter(|(_, entry)| owns(u16::from(entry.offset), entry.period, slot))
            .map(|(id, _)| id)
            .collect();
        assert!(owners.len() <= 1);
        let owner = owners.first().copied().unwrap_or(IDLE);
        assert_eq!(owner_query(timetable, timetable.base + slot), (0, owner));
    }
}

/// A slot from the base is owned if steps of one period from the offset reach it.
fn owns(offset: u16, period: u16, slot: u64) -> bool {
    let mut own = u64::from(offset);
    while own < slot {
        own += u64::from(period);
    }
    own == slot
}

/// An offset bears if the shortfall stays below 256 R in every slot that is looked at.
fn bears(shortfall: i64, share: Share, offset: u16) -> bool {
    let (mut shortfall, mut next) = (shortfall, u64::from(offset));
    for slot in 0..LOOKED_AT {
        if shortfall >= 256 * i64::from(share.bound) {
            return false;
        }
        shortfall += 256 / i64::from(share.period);
        if slot == next {
            shortfall -= 256;
            next += u64::from(share.period);
        }
        shortfall = shortfall.max(0);
    }
    shortfall < 256 * i64::from(share.bound)
}

/// The offsets below its period that a share can have on its own.
fn bearable(shortfall: i64, share: Share) -> Vec<u16> {
    (0..share.period).filter(|&offset| bears(shortfall, share, offset)).collect()
}

/// Some choice of one bearable offset for each share has no slot twice; all choices are tried.
fn some_choice(choices: &[(u16, Vec<u16>)], taken: &[bool; 256]) -> bool {
    let Some(((period, offsets), rest)) = choices.split_first() else {
        return true;
    };
    offsets.iter().any(|&offset| {
        let own = (usize::from(offset)..256).step_by(usize::from(*period));
        let free = own.clone().all(|slot| !taken[slot]);
        let mut taken = *taken;
        own.for_each(|slot| taken[slot] = true);
        free && some_choice(rest, &taken)
    })
}

/// A cyclic placement in the sense of docs/RULES.md 5 exists for the shortfalls reached.
fn placement_exists(listing: &Listing, shortfalls: &Shortfalls) -> bool {
    let choices: Vec<(u16, Vec<u16>)> = listed(listing)
        .map(|(id, share)| (share.period, bearable(shortfalls[id], share)))
        .collect();
    some_choice(&choices, &[false; 256])
}

/// The shortfalls after one slot that goes to an owner, or to nobody.
fn after_slot(listing: &Listing, shortfalls: &Shortfalls, owner: Option<usize>) -> Shortfalls {
    let mut after = *shortfalls;
    for (id, share) in listed(listing) {
        let supply = if owner == Some(id) { 256 } else { 0 };
        after[id] = (after[id] + 256 / i64::from(share.period) - supply).max(0);
    }
    after
}

/// Every listed shortfall is below 256 R.
fn all_bounds_kept(listing: &Listing, shortfalls: &Shortfalls) -> bool {
    listed(listing).all(|(id, share)| shortfalls[id] < 256 * i64::from(share.bound))
}

/// Whoever gets the next slot, a listed partition or nobody, some bound is broken.
fn anyone_breaks(listing: &Listing, shortfalls: &Shortfalls) -> bool {
    let mut somebody = listed(listing).map(|(id, _)| Some(id)).chain([None]);
    !somebody.any(|owner| all_bounds_kept(listing, &after_slot(listing, shortfalls, owner)))
}

/// The partition with the least room, ties to the lower id; none if several have room 0.
fn urgent(listing: &Listing, shortfalls: &Shortfalls) -> Option<usize> {
    let room = |id: usize, share: Share| {
        (256 * i64::from(share.bound) - 1 - shortfalls[id]) / (256 / i64::from(share.period))
    };
    let rooms: Vec<(i64, usize)> =
        listed(listing).map(|(id, share)| (room(id, share), id)).collect();
    let missed = rooms.iter().filter(|(room, _)| *room == 0).count() > 1;
    rooms.iter().min().map(|(_, id)| *id).filter(|_| !missed)
}

/// A length that rule 3 reaches: the shortfalls that it leads to, whether there is no cyclic
/// placement at all from there, whether its slot breaks a bound, and whom rule 3 gives that slot.
struct Reached {
    shortfalls: Shortfalls,
    passed_over: bool,
    breaks: bool,
    owner: Option<usize>,
}

/// The lengths up to T that rule 3 reaches, up to the first that has a placement.
fn reached(request: &Request, at_request: Shortfalls) -> Vec<Reached> {
    let mut shortfalls = at_request;
    let mut lengths = Vec::new();
    for _ in 0..=request.longest {
        let passed_over = !placement_exists(&request.listing, &shortfalls);
        let breaks = anyone_breaks(&request.listing, &shortfalls);
        let owner = urgent(&request.listing, &shortfalls);
        lengths.push(Reached { shortfalls, passed_over, breaks, owner });
        if !passed_over || owner.is_none() {
            break;
        }
        shortfalls = after_slot(&request.listing, &shortfalls, owner);
    }
    lengths
}

/// What was seen while requests were checked: 9 at place 0 and above; 11 where slot T would not be
/// missed, and where it would; short fields of ids not listed, listed with R 1, and with R above 1; 8
/// of listed ids, and of ids that return, by a full and by a short field; histories in which an id
/// leaves in debt, and returns with it; ids that return in debt; kept debts of ids that are not listed;
/// windows, and those across an absence.
#[derive(Debug)]
struct Seen {
    lengths: [u32; 65],
    behind: [u32; 3],
    missed: [u32; 2],
    exhausted: [u32; 2],
    short: [u32; 3],
    histories: [u32; 2],
    returned: u32,
    debts: u32,
    windows: [u64; 2],
}

impl Seen {
    /// Nothing was seen so far.
    fn nothing() -> Seen {
        Seen {
            lengths: [0; 65],
            behind: [0; 3],
            missed: [0; 2],
            exhausted: [0; 2],
            short: [0; 3],
            histories: [0; 2],
            returned: 0,
            debts: 0,
            windows: [0; 2],
        }
    }

    /// A request's short fields are counted by what their ids were asked for last.
    fn count_short(&mut self, run: &Run, read: &ReadRequest) {
        for (ask, asked) in read.asks.iter().zip(run.asked) {
            if ask.is_some_and(|ask| ask.bound.is_none()) {
                let class = asked.map_or(0, |share| if share.bound == 1 { 1 } else { 2 });
                self.short[class] += 1;
            }
        }
    }

    /// A refusal 8 is counted by the id that it names.
    fn count_behind(&mut self, run: &Run, read: &ReadRequest, outcome: &Outcome) {
        let id = outcome.place as usize;
        let short = read.asks[id].is_some_and(|ask| ask.bound.is_none());
        let class = if run.asked[id].is_some() { 0 } else { 1 + usize::from(short) };
        self.behind[class] += 1;
    }

    /// All windows of a run.
    fn count_windows(&mut self, run: &Run) {
        let [all, across] = run.check_windows();
        self.windows = [self.windows[0] + all, self.windows[1] + across];
    }
}

/// A well-formed request's outcome from stage 8 on is what the definitions give.
fn check_outcome(run: &Run, request: &Request, outcome: &Outcome, seen: &mut Seen) {
    let shortfalls: Shortfalls = std::array::from_fn(|id| run.shortfall(id, request.slot as usize));
    for (id, owed) in shortfalls.into_iter().enumerate() {
        let standing = standing_query(&run.timetable, id as u8, request.slot);
        let listed = run.asked[id].is_some();
        let told = if listed { (0, owed) } else { (10, 0) };
        assert_eq!((standing.0, i64::from(standing.1)), told);
    }
    let over = listed(&request.listing)
        .find(|(id, share)| shortfalls[*id] >= 256 * i64::from(share.bound));
    if let Some((id, _)) = over {
        assert_eq!((outcome.number, outcome.place, outcome.tries), (8, id as u64, 0));
        return;
    }
    check_lengths(request, shortfalls, outcome, seen);
}

/// The sentences of demand 3 about the length, the number and the place.
fn check_lengths(request: &Request, at_request: Shortfalls, outcome: &Outcome, seen: &mut Seen) {
    let lengths = reached(request, at_request);
    for length in lengths.iter().filter(|length| length.passed_over) {
        assert_eq!(length.breaks, length.owner.is_none(), "a slot is missed if anyone breaks");
    }
    check_wanting(request.longest, &lengths, outcome);
    let last = lengths.len() - 1;
    match outcome.number {
        0 => {
            let owners: Vec<_> = lengths.iter().take(last).map(|length| length.owner).collect();
            let given = outcome.timetable.transition().iter().map(|&id| Some(usize::from(id)));
            assert_eq!(given.collect::<Vec<_>>(), owners);
            check_accepted(request, &lengths[last].shortfalls, last as u8, outcome);
            seen.lengths[last] += 1;
        }
        9 => seen.missed[usize::from(last > 0)] += 1,
        number => {
            assert_eq!(number, 11);
            seen.exhausted[usize::from(lengths[last].breaks)] += 1;
        }
    }
}

/// 11 and its place, 9 and its place, and either of them: each exactly if demand 3 says so.
fn check_wanting(longest: u8, lengths: &[Reached], outcome: &Outcome) {
    let passed_over =
        |length: u8| lengths.get(usize::from(length)).is_some_and(|length| length.passed_over);
    let breaks = |slot: u8| lengths.get(usize::from(slot)).is_some_and(|length| length.breaks);
    let given = (outcome.number, outcome.place, outcome.tries);
    let told = |number: u8, place: u8| (number, u64::from(place), u16::from(place) + 1);
    let exhausted = (0..=longest).all(passed_over);
    assert_eq!(given == told(11, longest), exhausted);
    for slot in 0..=64 {
        let missed = slot < longest && (0..=slot).all(passed_over) && breaks(slot);
        assert_eq!(given == told(9, slot), missed);
    }
    let unreachable = |length: u8| (0..length).any(breaks);
    let in_vain = (0..=longest).all(|length| passed_over(length) || unreachable(length));
    assert_eq!(outcome.number == 9 || outcome.number == 11, in_vain);
}

/// An acceptance has the length, the shortfalls and offsets that bear from the base on.
fn check_accepted(request: &Request, shortfalls: &Shortfalls, length: u8, outcome: &Outcome) {
    let timetable = &outcome.timetable;
    assert_eq!((outcome.number, outcome.place, outcome.tries), (0, 0, u16::from(length) + 1));
    assert_eq!((timetable.request_slot, timetable.length), (request.slot, length));
    assert_eq!(timetable.listing(), request.listing);
    for (id, share) in listed(&request.listing) {
        let entry = timetable.entries[id];
        assert_eq!(i64::from(entry.shortfall), shortfalls[id]);
        assert!(bears(shortfalls[id], share, u16::from(entry.offset)));
    }
    assert_eq!(
        Some(timetable.entries.map(|entry| u16::from(entry.offset))),
        by_rule_4(&request.listing, shortfalls)
    );
    assert!(timetable.sound());
    check_cycle(timetable);
}

/// Rule 4 once more, with the set of free slots and the quotient for room.
fn by_rule_4(listing: &Listing, shortfalls: &Shortfalls) -> Option<[u16; IDS]> {
    let mut free: BTreeSet<u16> = (0..256).collect();
    let mut order = BTreeSet::new();
    for (id, share) in listed(listing) {
        let room =
            (256 * i64::from(share.bound) - 1 - shortfalls[id]) * i64::from(share.period) / 256;
        order.insert((share.period, room.min(i64::from(share.period) - 1), id));
    }
    let mut offsets = [0; IDS];
    for (period, last, id) in order {
        let own = |offset: u16| (0..256 / period).map(move |turn| offset + turn * period);
        let fits = free.iter().copied().filter(|&offset| i64::from(offset) <= last);
        let offset = fits.filter(|&offset| own(offset).all(|slot| free.contains(&slot))).max()?;
        free.retain(|&slot| !own(offset).any(|taken| taken == slot));
        offsets[id] = offset;
    }
    Some(offsets)
}

/// A listing of a few ids with short periods, mostly on a full core.
fn small_listing(random: &mut Random, present: &Listing) -> Listing {
    let mut listing = if random.chance(2, 3) { *present } else { [None; IDS] };
    let longest_period = if random.chance(1, 12) { 6 } else { random.between(1, 4) };
    for _ in 0..random.between(1, 4) {
        let id = random.pick(&[0, 1, 2, 7, 30, 31]).unwrap_or(0);
        let share = Share {
            period: 1 << random.between(0, longest_period),
            bound: if random.chance(1, 2) { 1 } else { random.between(1, 4) as u8 },
        };
        listing[id] = if random.chance(5, 6) { Some(share) } else { None };
    }
    fitting(listing)
}

/// A listing without those for whom the ids below leave no weight.
fn fitting(mut listing: Listing) -> Listing {
    let mut free = 256;
    for place in &mut listing {
        let weight = place.map_or(0, |share| 256 / i64::from(share.period));
        if weight > free {
            *place = None;
        } else {
            free -= weight;
        }
    }
    listing
}

/// A block of ids with one period and R 1, which newcomers then have to break up.
fn small_block(random: &mut Random) -> Listing {
    let mut listing = [None; IDS];
    let k = random.between(2, 4);
    for id in [1, 2, 7, 30, 31].into_iter().take(1 << (k - 1)) {
        listing[id] = Some(Share { period: 1 << k, bound: 1 });
    }
    listing
}

/// The record of a request.
pub(crate) fn record_of(request: &ReadRequest) -> Vec<u8> {
    let mut record = [slot_field(request.slot), longest_field(request.longest)].concat();
    for (id, ask) in request.asks.iter().enumerate() {
        let Some(Ask { period, bound }) = *ask else { continue };
        let k = (0..=8).find(|k| period == 1 << k).unwrap_or(0);
        record.extend(share_field(id as u8, k, bound));
    }
    record
}

/// The present listing with a newcomer that takes the free weight and can bear to wait.
fn small_newcomer(random: &mut Random, present: &Listing) -> Listing {
    let mut listing = *present;
    let used: i64 = listed(present).map(|(_, share)| 256 / i64::from(share.period)).sum();
    let k = (0..=4).find(|k| used + (256 >> k) <= 256);
    let id = random.pick(&[0, 3, 8]).unwrap_or(0);
    if let Some(k) = k.filter(|_| listing[id].is_none()) {
        listing[id] = Some(Share { period: 1 << k, bound: random.between(1, 4) as u8 });
    }
    listing
}

/// The present listing with every bound lowered.
fn small_bounds(present: &Listing) -> Listing {
    present.map(|share| share.map(|share| Share { bound: (share.bound - 1).max(1), ..share }))
}

/// The present listing without some.
fn small_leaving(random: &mut Random, present: &Listing) -> Listing {
    present.map(|share| share.filter(|_| random.chance(1, 2)))
}

/// The present listing with some who left in debt, mostly with the least R that bears it.
fn small_returning(random: &mut Random, timetable: &Timetable) -> Listing {
    let mut listing = timetable.listing();
    for (place, entry) in listing.iter_mut().zip(timetable.entries) {
        if !entry.listed() && entry.shortfall > 0 && random.chance(1, 2) {
            let least = (entry.shortfall / 256) as u8 + 1;
            let bound = random.pick(&[least, least, least + 1, 1]).unwrap_or(1).min(8);
            *place = Some(Share { period: 1 << random.between(2, 5), bound });
        }
    }
    fitting(listing)
}

/// A request for a run, of one of several shapes, some with short fields among the others.
fn small_candidate(random: &mut Random, run: &Run) -> ReadRequest {
    let present = run.timetable.listing();
    let listing = match random.below(14) {
        0 => small_block(random),
        1 => small_bounds(&present),
        2..=5 => small_newcomer(random, &present),
        6 => small_leaving(random, &present),
        7..=9 => small_returning(random, &run.timetable),
        _ => small_listing(random, &present),
    };
    let most = random.pick(&[0, 3, 17]).unwrap_or(0);
    let slot = run.timetable.base + random.between(0, most);
    let longest = random.pick(&[0, 1, 2, 5, 64, 64, 64]).unwrap_or(0);
    let short = random.pick(&[0, 0, 1, 4]).unwrap_or(0);
    let asks = listing.map(|share| {
        let Share { period, bound } = share?;
        Some(Ask { period, bound: Some(bound).filter(|_| !random.chance(short, 4)) })
    });
    ReadRequest { slot, longest, asks }
}

/// How many ids leave in debt, and how many return with it.
fn moves_in_debt(before: &Timetable, after: &Timetable) -> [u32; 2] {
    let moves = |was: bool, is: bool| {
        let moved = |&id: &u8| (before.lists(id), after.lists(id)) == (was, is);
        let owes = |&id: &u8| after.starts[usize::from(id)] > 0;
        (0..IDS as u8).filter(moved).filter(owes).count() as u32
    };
    [moves(true, false), moves(false, true)]
}

/// What is looked for among many requests: most tries, where a refusal 8 is counted as two and a slot
/// missed at once as four; who leaves in debt, who returns with it, or an 8 for that.
fn small_worth(wanted: u64, before: &Timetable, outcome: &Outcome) -> u32 {
    let [left, returned] = moves_in_debt(before, &outcome.timetable);
    match (outcome.number, outcome.place) {
        (0, _) if wanted == 0 && left > 0 => 100,
        (0, _) if wanted == 1 && returned > 0 => 100,
        (8, id) if wanted == 2 && !before.lists(id as u8) => 100,
        (8, _) => 2,
        (9, 0) => 4,
        _ => u32::from(outcome.tries),
    }
}

/// A request for a run: any, or the one of many with most of what is looked for.
fn small_request(random: &mut Random, run: &Run) -> ReadRequest {
    let wanted = random.below(6);
    let mut best = small_candidate(random, run);
    let mut most = 0;
    for _ in 0..random.pick(&[0, 30, 30, 30]).unwrap_or(0) {
        let request = small_candidate(random, run);
        let outcome = change(&run.timetable, &record_of(&request), &mut [0; AREA]);
        let worth = small_worth(wanted, &run.timetable, &outcome);
        if worth > most {
            (best, most) = (request, worth);
        }
    }
    best
}

/// A random history of a small core: each request with the run that it meets, recorded up to its slot.
pub(crate) fn small_history(seed: u64, mut each: impl FnMut(&mut Run, &ReadRequest)) -> Run {
    let mut random = Random::new(seed);
    let mut run = Run::empty();
    for _ in 0..random.between(2, 14) {
        let request = small_request(&mut random, &run);
        run.record_to(request.slot as usize);
        each(&mut run, &request);
    }
    run.record_to(run.timetable.base as usize + 40);
    run
}

/// A request is put to a controller, its outcome is checked, and what is kept then. How many ids left in
/// debt, and how many returned with it.
fn check_request(run: &mut Run, request: &ReadRequest, seen: &mut Seen) -> [u32; 2] {
    let before = run.timetable;
    let outcome = change(&before, &record_of(request), &mut [0; AREA]);
    seen.count_short(run, request);
    check_outcome(run, &run.in_full(request), &outcome, seen);
    if outcome.number == 8 {
        seen.count_behind(run, request, &outcome);
    }
    assert_eq!(run.put(&record_of(request)), outcome);
    if outcome.number != 0 {
        return [0; 2];
    }
    seen.debts += run.check_kept();
    moves_in_debt(&before, &run.timetable)
}

/// A random history is put to a controller, each outcome is checked, then all windows.
fn check_history(seed: u64, seen: &mut Seen) {
    let (mut left, mut returned) = (0, 0);
    let run = small_history(seed, |run, request| {
        let [leave, return_] = check_request(run, request, seen);
        (left, returned) = (left + leave, returned + return_);
    });
    seen.histories[0] += u32::from(left > 0);
    seen.histories[1] += u32::from(returned > 0);
    seen.returned += returned;
    seen.count_windows(&run);
}

/// Many histories on small cores, with enough transitions and refusals among them.
#[test]
fn histories_on_small_cores() {
    let mut seen = Seen::nothing();
    for seed in 0..4000 {
        check_history(seed, &mut seen);
    }
    let longer: u32 = seen.lengths[2..].iter().sum();
    println!("{seen:?}");
    assert!(seen.lengths[0] > 1000 && seen.lengths[1] > 300 && longer > 200, "{seen:?}");
    assert!(seen.behind.iter().all(|&times| times > 100), "{seen:?}");
    assert!(seen.histories[0] > 1500 && seen.histories[1] > 1000, "{seen:?}");
    assert!(seen.returned > 2000 && seen.debts > 10_000, "{seen:?}");
    assert!(seen.windows[1] > 500_000 && seen.missed.iter().all(|&times| times > 50), "{seen:?}");
    assert!(seen.exhausted.iter().all(|&times| times > 50), "{seen:?}");
    assert!(seen.short.iter().all(|&times| times > 1000), "{seen:?}");
}

/// The generator's own streams, with their long transitions, keep all windows of their first slots.
#[test]
fn windows_of_generated_streams() {
    let mut seen = Seen::nothing();
    for seed in 0..25 {
        let mut run = Run::empty();
        for record in Generator::new(seed, 120) {
            let near = read_request(&record).map_or(true, |request| request.slot < 1500);
            if near && run.put(&record).number == 0 {
                seen.lengths[usize::from(run.timetable.length)] += 1;
                check_cycle(&run.timetable);
            }
        }
        run.record_to(run.timetable.base as usize + 300);
        seen.count_windows(&run);
    }
    println!("{seen:?}");
    let longer: u32 = seen.lengths[9..].iter().sum();
    assert!(longer > 10 && seen.windows.iter().all(|&windows| windows > 1_000_000), "{seen:?}");
}
