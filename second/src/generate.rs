//! Random streams of requests that aim: the state is followed by the model, and candidates are
//! tried against it until one brings what is aimed at, such as a long transition or a missed slot.

use crate::change::{bound_before, change, listed, Outcome, Request, AREA};
use crate::damage::damaged;
use crate::debts::{absent_in_debt, bear, fall_short, lower, much_is_owed, slot_after_slices};
use crate::numbers::{ACCEPTED, LENGTHS_EXHAUSTED, SHORTFALL_TOO_LARGE, SLOT_MISSED};
use crate::queries::standing_query;
use crate::random::Random;
use crate::records::{longest_field, read_request, share_field, slot_field, with_longest};
use crate::timetable::{
    Entry, Listing, Share, Timetable, CYCLE, IDS, LARGEST_BOUND, LARGEST_EXPONENT, LAST_SLOT,
    LONGEST_TRANSITION,
};
use crate::working_off::worked_off;

/// The candidates that are tried for one aim before a block is asked for instead.
const CANDIDATES: usize = 40;
/// How often what comes before an aim is made anew if it would be refused.
const PREPARATIONS: usize = 6;
/// The requests in a row in which debts are worked off.
const WORKED_OFF: u64 = 32;
/// The first slot of a stream, behind all slots of the cases.
const FIRST_SLOT: u64 = 21;
/// A huge jump takes at most one in so many of the slots left, less in long streams.
const LEAST_JUMP_PART: u64 = 64;
/// A stream's last part begins at most so many slots for each of its requests before the highest.
const END_STEP: u64 = 64;

/// What a request is meant to bring: anything, an acceptance with a length in a range, a slot in a
/// range that is missed (9), a shortfall too large (8), all lengths up to T in vain (11), or an
/// acceptance where R 1 in place of each R as before would be a shortfall too large, or would bring
/// another schedule or none.
#[derive(Clone, Copy, PartialEq, Eq)]
enum Aim {
    Any,
    Length(u8, u8),
    Missed(u64, u64),
    Behind,
    Exhausted,
    Kept,
    Scheduled,
}

impl Aim {
    /// It is about short fields.
    fn by_short(self) -> bool {
        [Aim::Kept, Aim::Scheduled].contains(&self)
    }
}

/// The ids that left and did not return so far, each with the slot that it left for and the R that it
/// had.
#[derive(Clone, Copy, Debug, Default, PartialEq, Eq)]
pub struct Left {
    ids: [Option<(u64, u8)>; IDS],
}

impl Left {
    /// One timetable follows another: ids leave and return.
    pub fn follow(&mut self, before: &Timetable, after: &Timetable) {
        for id in 0..IDS {
            let (was, is) = (before.entries[id], after.entries[id]);
            if is.listed() {
                self.ids[id] = None;
            } else if was.listed() {
                self.ids[id] = Some((after.request_slot, was.bound));
            }
        }
    }

    /// The slot for which an id left, if it did not return.
    pub fn slot(&self, id: usize) -> Option<u64> {
        self.ids[id].map(|(slot, _)| slot)
    }

    /// The slot for which an id left with R above 1, if it did not return.
    pub fn slot_with_wide(&self, id: usize) -> Option<u64> {
        self.ids[id].filter(|&(_, bound)| bound > 1).map(|(slot, _)| slot)
    }
}

/// A stream of requests, with the timetable that holds after those given so far, the aim that waits
/// for its block, the request that the desk puts again, the id that was left out just now with the
/// period that it had, how many requests are left in which debts are worked off, and whether it begins.
pub struct Generator {
    random: Random,
    timetable: Timetable,
    left: u64,
    last_part: u64,
    jump_part: u64,
    pending: Option<Aim>,
    again: Option<Vec<u8>>,
    out: Option<(usize, u16)>,
    to_work_off: u64,
    begins: bool,
}

impl Generator {
    /// The stream of a seed with so many requests; its last fiftieth runs towards the highest slot. It
    /// may follow the cases: the first request is for a slot behind theirs.
    pub fn new(seed: u64, count: u64) -> Generator {
        Generator { begins: true, ..Generator::after(Timetable::empty(), seed, count) }
    }

    /// The same from a sound timetable on, whatever the slots.
    pub fn after(timetable: Timetable, seed: u64, count: u64) -> Generator {
        Generator {
            random: Random::new(seed),
            timetable,
            left: count,
            last_part: count / 50,
            jump_part: (count / 64).max(LEAST_JUMP_PART),
            pending: None,
            again: None,
            out: None,
            to_work_off: 0,
            begins: false,
        }
    }

    /// The timetable that holds after the requests given so far.
    pub fn timetable(&self) -> Timetable {
        self.timetable
    }

    /// One request, damaged or with some aim; the larger T that a desk asks comes first, then an id
    /// that was left out returns, now and then debts are worked off, and then mostly comes an aim that
    /// waits for its block.
    fn make(&mut self) -> Vec<u8> {
        if self.begins {
            self.begins = false;
            return self.first();
        }
        if let Some(raised) = self.raised() {
            return raised;
        }
        if let Some((id, period)) = self.out.take() {
            return self.back(id, period);
        }
        if self.to_work_off > 0 {
            self.to_work_off -= 1;
            let request = worked_off(&mut self.random, &self.timetable);
            return self.record(&request);
        }
        let much = much_is_owed(&self.timetable) && self.left > self.last_part;
        if much && self.random.chance(1, 64) {
            self.to_work_off = WORKED_OFF;
        }
        if let Some(aim) = self.pending.filter(|_| self.random.chance(3, 4)) {
            return self.aimed(aim);
        }
        self.any()
    }

    /// A request of any kind.
    fn any(&mut self) -> Vec<u8> {
        match self.random.below(150) {
            0..=33 => {
                let request = self.any_change();
                let fields = self.fields(&request);
                damaged(&mut self.random, fields)
            }
            34..=40 => self.too_early(),
            41..=47 => self.overfull(),
            48..=52 => self.rebuilt(),
            53..=57 => self.aimed(Aim::Any),
            58..=67 => self.aimed(Aim::Length(1, 1)),
            68..=78 => self.aimed(Aim::Length(2, 8)),
            79..=90 => self.aimed(Aim::Length(9, LONGEST_TRANSITION as u8)),
            91..=96 => self.aimed(Aim::Behind),
            97..=100 => self.aimed(Aim::Exhausted),
            101..=102 => self.aimed(Aim::Missed(0, 0)),
            103..=106 => self.aimed(Aim::Missed(1, LONGEST_TRANSITION as u64 - 1)),
            107..=112 => self.as_there(),
            113..=115 => self.aimed(Aim::Kept),
            116..=125 => self.aimed(Aim::Scheduled),
            126..=133 => self.left_out(),
            _ => self.returned(),
        }
    }

    /// A block at a slot behind those of the cases.
    fn first(&mut self) -> Vec<u8> {
        let listing = self.block(3);
        let slot = FIRST_SLOT + self.random.below(CYCLE as u64);
        self.record(&Request { slot, longest: 0, listing })
    }

    /// Exactly what is listed, by short fields.
    fn as_there(&mut self) -> Vec<u8> {
        let listing = self.timetable.listing();
        let request = self.request(listing);
        self.short(&request)
    }

    /// What is listed without one, mostly with R above 1, which is to return at once.
    fn left_out(&mut self) -> Vec<u8> {
        let mut listing = self.timetable.listing();
        let all: Vec<(usize, Share)> = listed(&listing).collect();
        let wide: Vec<(usize, Share)> =
            listed(&listing).filter(|(_, share)| share.bound > 1).collect();
        let some = self.random.pick(&wide).filter(|_| self.random.chance(3, 4));
        self.out = some.or(self.random.pick(&all)).map(|(id, share)| (id, share.period));
        if let Some((id, _)) = self.out {
            listing[id] = None;
        }
        let mut request = self.request(listing);
        if self.random.chance(1, 2) {
            request.slot = self.slot_before_slices();
        }
        self.short(&request)
    }

    /// An id that was left out is asked for again, mostly for the same slot.
    fn back(&mut self, id: usize, period: u16) -> Vec<u8> {
        let mut listing = self.timetable.listing();
        listing[id].get_or_insert(Share { period, bound: 1 });
        let mut request = self.request(listing);
        if self.random.chance(3, 4) {
            request.slot = self.timetable.base.min(LAST_SLOT);
        }
        self.asked_again(request)
    }

    /// Some that left in debt are asked for again, beside what is listed.
    fn returned(&mut self) -> Vec<u8> {
        let mut listing = self.timetable.listing();
        let in_debt = absent_in_debt(&self.timetable);
        for _ in 0..self.random.between(1, 4) {
            let k = self.random.between(3, u64::from(LARGEST_EXPONENT));
            if let Some(id) = self.random.pick(&in_debt) {
                listing[id] = Some(Share { period: 1 << k, bound: 1 });
            }
        }
        self.fit(&mut listing);
        let request = self.request(listing);
        self.asked_again(request)
    }

    /// Who returns is asked for by a short field, with the least R that bears what it is owed, or with one
    /// less.
    fn asked_again(&mut self, mut request: Request) -> Vec<u8> {
        let choice = self.random.below(10);
        if choice > 2 {
            bear(&self.timetable, &mut request);
        }
        if (3..=5).contains(&choice) {
            fall_short(&self.timetable, &mut request.listing);
        }
        self.short(&request)
    }

    /// What is listed with the least R that bears what is owed, mostly behind slices: so debts are
    /// worked off, by a transition where several are urgent.
    fn eased(&mut self) -> Request {
        let mut request = self.request(self.timetable.listing());
        request.slot = if self.random.chance(1, 2) {
            slot_after_slices(&self.timetable)
        } else {
            self.slot_before_slices().saturating_add(self.random.between(1, 6)).min(LAST_SLOT)
        };
        request.longest = LONGEST_TRANSITION as u8;
        lower(&mut request.listing);
        bear(&self.timetable, &mut request);
        request
    }

    /// What the desk asks after a refusal for want of a schedule: the same with a larger T.
    fn raised(&mut self) -> Option<Vec<u8>> {
        let record = self.again.take()?;
        let most = LONGEST_TRANSITION as u64;
        let before = u64::from(read_request(&record).ok()?.longest);
        if before == most {
            return None;
        }
        let longest = match self.random.below(4) {
            0 => before + 1,
            1 => self.random.between(before + 1, most),
            2 => (2 * before + 1).min(most),
            _ => most,
        };
        Some(with_longest(&record, longest as u8))
    }

    /// The first of some candidates that meets the aim; if none does, a block comes before it.
    fn aimed(&mut self, aim: Aim) -> Vec<u8> {
        for _ in 0..CANDIDATES {
            let mut request = self.candidate(aim);
            if self.meets(aim, &request) {
                self.tighten(&mut request);
                self.pending = None;
                return match aim.by_short() {
                    true => self.short(&request),
                    false => self.record(&request),
                };
            }
        }
        self.unmet(aim)
    }

    /// An aim that is not met waits for the block that is asked for now, unless it has waited
    /// already; 11 waits for its pair, and shares with R above 1 come before what they are kept for.
    fn unmet(&mut self, aim: Aim) -> Vec<u8> {
        let waited = self.pending.take().is_some();
        self.pending = Some(aim).filter(|_| !waited);
        let mut request = self.before(aim, waited);
        for _ in 0..PREPARATIONS {
            if self.outcome(&request).number != ACCEPTED {
                request = self.before(aim, waited);
            }
        }
        self.record(&request)
    }

    /// What is asked before an aim can be met: R above 1 stays where it is to be kept.
    fn before(&mut self, aim: Aim, waited: bool) -> Request {
        let listing = match aim {
            _ if waited => self.full_core(),
            Aim::Exhausted => self.pair(),
            Aim::Kept => self.wide_core(),
            Aim::Scheduled => self.few_wide(),
            Aim::Length(9.., _) => self.block(5),
            _ => self.block(3),
        };
        if waited || !aim.by_short() {
            return self.borne(listing);
        }
        let mut request = self.request(listing);
        bear(&self.timetable, &mut request);
        request
    }

    /// Now and then T is set to the least from which on a larger one changes nothing, to one less,
    /// or to any less, if that least is not 0.
    fn tighten(&mut self, request: &mut Request) {
        let least = self.settled(request);
        if least > 0 {
            request.longest = match self.random.below(12) {
                0..=2 => least,
                3..=4 => least - 1,
                5..=6 => self.random.below(u64::from(least)) as u8,
                _ => request.longest,
            };
        }
    }

    /// The least T from which on a larger one changes nothing, whatever T the request has.
    fn settled(&self, request: &Request) -> u8 {
        let outcome = self.outcome(&Request { longest: LONGEST_TRANSITION as u8, ..*request });
        match outcome.number {
            ACCEPTED => outcome.timetable.length,
            SLOT_MISSED => outcome.place as u8 + 1,
            LENGTHS_EXHAUSTED => LONGEST_TRANSITION as u8,
            _ => 0,
        }
    }

    /// What the model answers to a request from the present timetable.
    fn outcome(&self, request: &Request) -> Outcome {
        let mut record = slot_field(request.slot);
        record.extend(longest_field(request.longest));
        for (id, share) in listed(&request.listing) {
            record.extend(share_field(id as u8, exponent(share), Some(share.bound)));
        }
        change(&self.timetable, &record, &mut [0; AREA])
    }

    /// A candidate suited to an aim: 8 needs lowered bounds, 11 a full core, transitions newcomers;
    /// for a missed slot several are pressed, half the time; a bound that is kept needs what is there.
    fn candidate(&mut self, aim: Aim) -> Request {
        match aim {
            Aim::Any => self.any_change(),
            Aim::Behind => self.lowered_bounds(),
            Aim::Exhausted => self.filled(),
            Aim::Kept | Aim::Scheduled => self.kept_bounds(),
            Aim::Missed(..) if self.random.chance(1, 2) => self.pressed(),
            _ => match self.random.below(6) {
                0 => self.any_change(),
                1 => self.eased(),
                _ => self.newcomers(),
            },
        }
    }

    /// What is listed with every bound as it is, as it stands or with a newcomer, mostly where some
    /// shortfall is high.
    fn kept_bounds(&mut self) -> Request {
        let mut listing = self.timetable.listing();
        if self.random.chance(2, 3) {
            let bound = self.bound();
            self.add(&mut listing, bound);
            self.fit(&mut listing);
        }
        let mut request = self.request(listing);
        if self.random.chance(3, 4) {
            request.slot = self.slot_before_slices();
        }
        bear(&self.timetable, &mut request);
        request
    }

    /// A change near the present listing, one to three alterations away.
    fn any_change(&mut self) -> Request {
        let mut listing = self.timetable.listing();
        for _ in 0..self.random.between(1, 3) {
            self.alter(&mut listing);
        }
        if self.random.chance(9, 10) {
            self.fit(&mut listing);
        }
        self.borne(listing)
    }

    /// One alteration: an id comes or leaves, a period or a bound goes up or down by one step.
    fn alter(&mut self, listing: &mut Listing) {
        let ids: Vec<usize> = listed(listing).map(|(id, _)| id).collect();
        let choice = if ids.is_empty() { 0 } else { self.random.below(6) };
        let Some(id) = self.random.pick(&ids).filter(|_| choice > 0) else {
            let bound = self.bound();
            self.add(listing, bound);
            return;
        };
        let Some(share) = listing[id].as_mut() else { return };
        match choice {
            1 => share.period = (share.period / 2).max(1),
            2 => share.period = (share.period * 2).min(CYCLE as u16),
            3 => share.bound = (share.bound - 1).max(1),
            4 => share.bound = (share.bound + 1).min(LARGEST_BOUND),
            _ => listing[id] = None,
        }
    }

    /// One or two newcomers with short periods and large bounds beside the present listing.
    fn newcomers(&mut self) -> Request {
        let mut listing = self.timetable.listing();
        if much_is_owed(&self.timetable) || self.random.chance(1, 2) {
            lower(&mut listing);
        }
        if self.random.chance(1, 3) {
            self.remove_widest(&mut listing);
        }
        for _ in 0..self.random.between(1, 2) {
            self.add_patient(&mut listing);
        }
        if self.random.chance(1, 4) {
            self.fill(&mut listing);
        }
        self.fit(&mut listing);
        let mut request = self.request(listing);
        if self.random.chance(3, 4) {
            request.longest = LONGEST_TRANSITION as u8;
        }
        if self.random.chance(2, 3) {
            request.slot = self.slot_before_slices();
        }
        bear(&self.timetable, &mut request);
        request
    }

    /// The present listing on a full core, about half a cycle after the base, with the largest T.
    fn filled(&mut self) -> Request {
        let mut listing = self.timetable.listing();
        self.fill(&mut listing);
        let later = self.random.between(CYCLE as u64 / 2, CYCLE as u64 - LONGEST_TRANSITION as u64);
        let slot = self.timetable.base.saturating_add(later).min(LAST_SLOT);
        let mut request = Request { slot, longest: LONGEST_TRANSITION as u8, listing };
        bear(&self.timetable, &mut request);
        request
    }

    /// A slot at most a few slots before some listed partition's own, where its shortfall is high.
    fn slot_before_slices(&mut self) -> u64 {
        let listed: Vec<Entry> = self.timetable.entries.into_iter().filter(Entry::listed).collect();
        let Some(entry) = self.random.pick(&listed) else { return self.slot() };
        let later = u64::from(entry.period) * self.random.below(3);
        let before = self.random.below(4);
        let own = self.timetable.base.saturating_add(u64::from(entry.offset) + later);
        own.saturating_sub(before).clamp(self.timetable.base.min(LAST_SLOT), LAST_SLOT)
    }

    /// Bounds lowered where the shortfall kept at the base may exceed them.
    fn lowered_bounds(&mut self) -> Request {
        let mut listing = self.timetable.listing();
        for share in listing.iter_mut().flatten() {
            if share.bound > 1 && self.random.chance(2, 3) {
                share.bound = self.random.between(1, u64::from(share.bound) - 1) as u8;
            }
        }
        self.request(listing)
    }

    /// The least bounds that the shortfalls allow, and shorter periods, so that several are urgent.
    fn pressed(&mut self) -> Request {
        let listing = self.timetable.listing();
        let mut request = self.request(listing);
        for (id, share) in (0..).zip(&mut request.listing) {
            let Some(share) = share else { continue };
            let (_, shortfall, _) = standing_query(&self.timetable, id, request.slot);
            share.bound = ((shortfall / CYCLE as u16) as u8 + 1).min(LARGEST_BOUND);
            share.period = (share.period >> self.random.below(4)).max(2);
        }
        self.fit(&mut request.listing);
        request
    }

    /// A listing made anew: a block, all 32 ids, nothing, or any shares up to a full core.
    fn rebuilt(&mut self) -> Vec<u8> {
        let listing = match self.random.below(8) {
            0..=4 => self.block(3),
            5 => self.all_ids(),
            6 => [None; IDS],
            _ => self.full_core(),
        };
        let request = self.borne(listing);
        self.record(&request)
    }

    /// A block of ids with one long period and the least bounds, which the placement sets side by side;
    /// now and then rather of those that are owed more, so that they work it off.
    fn block(&mut self, least: u64) -> Listing {
        let mut listing = [None; IDS];
        let k = self.random.between(least, 7);
        let most = (IDS as u64 - 2).min(1 << (k - 1));
        let wanted = self.random.between(most / 2, most);
        let kept = self.random.chance(1, 4);
        for _ in 0..wanted {
            let some = [(); 2].map(|()| self.random.below(IDS as u64) as usize);
            let further = |id: &usize| self.timetable.entries[*id].shortfall % CYCLE as u16;
            let id = some.into_iter().min_by_key(further).unwrap_or(0);
            if !kept || !self.timetable.entries[id].listed() {
                listing[id] = Some(Share { period: 1 << k, bound: 1 });
            }
        }
        listing
    }

    /// Two ids with the longest period and bound 1, which on a full core want one slot.
    fn pair(&mut self) -> Listing {
        let mut listing = [None; IDS];
        let first = self.random.below(IDS as u64) as usize;
        let other = (first + self.random.between(1, IDS as u64 - 1) as usize) % IDS;
        for id in [first, other] {
            listing[id] = Some(Share { period: CYCLE as u16, bound: 1 });
        }
        listing
    }

    /// All 32 ids on a full or nearly full core.
    fn all_ids(&mut self) -> Listing {
        let k = self.random.between(5, u64::from(LARGEST_EXPONENT));
        let mut listing = [Some(Share { period: 1 << k, bound: 1 }); IDS];
        for share in listing.iter_mut().flatten() {
            share.bound = self.bound();
        }
        if k > 5 {
            let id = self.random.below(IDS as u64) as usize;
            listing[id] = Some(Share { period: 2, bound: self.bound() });
        }
        listing
    }

    /// Any shares, added until the core is full or nearly so.
    fn full_core(&mut self) -> Listing {
        let mut listing = [None; IDS];
        for _ in 0..self.random.between(2, 12) {
            let bound = self.bound();
            self.add(&mut listing, bound);
        }
        self.fit(&mut listing);
        if self.random.chance(3, 4) {
            self.fill(&mut listing);
        }
        listing
    }

    /// The same with R above 1 for each, mostly 2, so that shortfalls may grow.
    fn wide_core(&mut self) -> Listing {
        let mut listing = self.full_core();
        for share in listing.iter_mut().flatten() {
            let wide = !self.random.chance(7, 8);
            share.bound =
                if wide { self.random.between(2, u64::from(LARGEST_BOUND)) as u8 } else { 2 };
        }
        listing
    }

    /// A few that are owed little, with R 2.
    fn few_wide(&mut self) -> Listing {
        let mut listing = [None; IDS];
        for _ in 0..self.random.between(1, 4) {
            self.add_patient(&mut listing);
        }
        listing.map(|share| share.map(|share| Share { bound: 2, ..share }))
    }

    /// Weights that sum to a little above 256, mostly from a full core.
    fn overfull(&mut self) -> Vec<u8> {
        let mut listing = self.timetable.listing();
        self.fill(&mut listing);
        for _ in 0..self.random.between(1, 3) {
            let id = self.random.below(IDS as u64) as usize;
            let k = self.random.between(0, u64::from(LARGEST_EXPONENT));
            let bound = self.bound();
            listing[id].get_or_insert(Share { period: 1 << k, bound });
        }
        let halved = self.random.chance(1, 2);
        if let Some(share) = listing.iter_mut().flatten().next().filter(|_| halved) {
            share.period = (share.period / 2).max(1);
        }
        let request = self.request(listing);
        self.record(&request)
    }

    /// A slot before the base, mostly the one just before it.
    fn too_early(&mut self) -> Vec<u8> {
        let mut request = self.any_change();
        let base = self.timetable.base;
        request.slot = match self.random.below(4) {
            0..=1 => base.saturating_sub(1),
            2 => base.saturating_sub(self.random.between(1, 70)),
            _ => self.random.below(base),
        };
        request.slot = request.slot.min(LAST_SLOT);
        self.record(&request)
    }

    /// One more share for an id that is not listed, as heavy as the free weight allows or lighter.
    fn add(&mut self, listing: &mut Listing, bound: u8) {
        let further = if self.random.chance(1, 2) { 0 } else { self.random.between(0, 3) };
        if let Some(id) = self.random.pick(&not_in(listing)) {
            listing[id] = Some(Share { period: lighter(listing, further), bound });
        }
    }

    /// One more share with any bound for an id that is not listed, that of some which is owed least, and
    /// lighter, so that it can wait.
    fn add_patient(&mut self, listing: &mut Listing) {
        let (bound, further) =
            (self.random.between(1, 8) as u8, self.random.below(2) * self.random.between(0, 3));
        let some = [(); 4].map(|()| self.random.pick(&not_in(listing)));
        let owed = |id: &usize| self.timetable.entries[*id].shortfall;
        if let Some(id) = some.into_iter().flatten().min_by_key(owed) {
            listing[id] = Some(Share { period: lighter(listing, further), bound });
        }
    }

    /// Shares are added until the weights sum to 256 or all ids are listed.
    fn fill(&mut self, listing: &mut Listing) {
        for _ in 0..IDS {
            if weights(listing) < CYCLE as i64 {
                let bound = self.bound();
                self.add(listing, bound);
            }
        }
    }

    /// Shares are removed until the weights sum to at most 256.
    fn fit(&mut self, listing: &mut Listing) {
        while weights(listing) > CYCLE as i64 {
            let ids: Vec<usize> = listed(listing).map(|(id, _)| id).collect();
            match self.random.pick(&ids) {
                Some(id) => listing[id] = None,
                None => return,
            }
        }
    }

    /// The share with the shortest period leaves, so that a newcomer finds weight.
    fn remove_widest(&mut self, listing: &mut Listing) {
        if let Some((id, _)) = listed(listing).min_by_key(|(_, share)| share.period) {
            listing[id] = None;
        }
    }

    /// A bound, half the time 1.
    fn bound(&mut self) -> u8 {
        if self.random.chance(1, 2) {
            1
        } else {
            self.random.between(1, u64::from(LARGEST_BOUND)) as u8
        }
    }

    /// A request for a listing in which each R bears what its id is owed, mostly as the least one; now and
    /// then some do not.
    fn borne(&mut self, listing: Listing) -> Request {
        let mut request = self.request(listing);
        if self.random.chance(1, 2) {
            request.slot = slot_after_slices(&self.timetable);
        }
        if much_is_owed(&self.timetable) || self.random.chance(1, 2) {
            lower(&mut request.listing);
        }
        if self.random.chance(31, 32) {
            bear(&self.timetable, &mut request);
        }
        request
    }

    /// A request for a listing at some slot from the base on, with some T.
    fn request(&mut self, listing: Listing) -> Request {
        let longest = match self.random.below(8) {
            0 => 0,
            1..=4 => LONGEST_TRANSITION as u64,
            5..=6 => self.random.between(1, 12),
            _ => self.random.between(0, LONGEST_TRANSITION as u64),
        };
        Request { slot: self.slot(), longest: longest as u8, listing }
    }

    /// A slot from the base on: the base, a phase of the first cycles, or rarely a huge jump.
    fn slot(&mut self) -> u64 {
        let base = self.timetable.base;
        let room = LAST_SLOT.saturating_sub(base);
        let end_room = END_STEP.saturating_mul(self.last_part);
        if self.left <= self.last_part && room > end_room {
            return LAST_SLOT - self.random.between(end_room / 2, end_room);
        }
        let step = match self.random.below(100) {
            0..=9 => 0,
            10..=29 => self.random.below(8),
            30..=59 => self.random.below(64),
            60..=89 => self.random.below(CYCLE as u64),
            90..=98 => self.random.below(4 * CYCLE as u64),
            _ if self.random.chance(1, 2) => self.random.below(room / self.jump_part),
            _ => self.random.below(1 << 20),
        };
        base.saturating_add(step).min(LAST_SLOT)
    }

    /// An aim is met by its number, and by a length or a missed slot in its range; or by what R 1
    /// would bring.
    fn meets(&self, aim: Aim, request: &Request) -> bool {
        let outcome = self.outcome(request);
        match aim {
            Aim::Any => true,
            Aim::Behind => outcome.number == SHORTFALL_TOO_LARGE,
            Aim::Exhausted => outcome.number == LENGTHS_EXHAUSTED,
            Aim::Missed(first, last) => {
                outcome.number == SLOT_MISSED && (first..=last).contains(&outcome.place)
            }
            Aim::Length(first, last) => {
                outcome.number == ACCEPTED && (first..=last).contains(&outcome.timetable.length)
            }
            Aim::Kept => {
                let with_one = self.outcome(&self.with_one(request));
                (outcome.number, with_one.number) == (ACCEPTED, SHORTFALL_TOO_LARGE)
            }
            Aim::Scheduled => {
                let with_one = self.outcome(&self.with_one(request));
                let offsets =
                    |outcome: &Outcome| outcome.timetable.entries.map(|entry| entry.offset);
                let other = with_one.number != ACCEPTED || offsets(&with_one) != offsets(&outcome);
                outcome.number == ACCEPTED && with_one.number != SHORTFALL_TOO_LARGE && other
            }
        }
    }

    /// A request with R 1 in place of each R that is as before.
    fn with_one(&self, request: &Request) -> Request {
        let mut request = *request;
        for (id, share) in request.listing.iter_mut().enumerate() {
            let as_before = |share: &&mut Share| share.bound == bound_before(&self.timetable, id);
            if let Some(share) = share.as_mut().filter(as_before) {
                share.bound = 1;
            }
        }
        request
    }

    /// The record of a request, with some short fields where R is as before.
    fn record(&mut self, request: &Request) -> Vec<u8> {
        self.fields(request).concat()
    }

    /// The fields of a request one by one, some short where R is as before.
    fn fields(&mut self, request: &Request) -> Vec<Vec<u8>> {
        let part = if self.random.chance(1, 2) { 3 } else { 1 };
        self.fields_short(request, part)
    }

    /// The record of a request, with a short field wherever R is as before.
    fn short(&mut self, request: &Request) -> Vec<u8> {
        self.fields_short(request, 3).concat()
    }

    /// The fields of a request one by one, so many of three short where R is as before.
    fn fields_short(&mut self, request: &Request, part: u64) -> Vec<Vec<u8>> {
        let mut fields = vec![slot_field(request.slot), longest_field(request.longest)];
        for (id, share) in listed(&request.listing) {
            let as_before = share.bound == bound_before(&self.timetable, id);
            let short = self.random.chance(part, 3) && as_before;
            fields.push(share_field(
                id as u8,
                exponent(share),
                Some(share.bound).filter(|_| !short),
            ));
        }
        fields
    }
}

impl Iterator for Generator {
    type Item = Vec<u8>;

    /// The next request of the stream; the model's answer to it becomes the state.
    fn next(&mut self) -> Option<Vec<u8>> {
        if self.left == 0 {
            return None;
        }
        let request = self.make();
        self.left -= 1;
        let outcome = change(&self.timetable, &request, &mut [0; AREA]);
        self.timetable = outcome.timetable;
        let asked_again = match outcome.number {
            LENGTHS_EXHAUSTED => self.random.chance(3, 4),
            SLOT_MISSED => self.random.chance(1, 3),
            _ => false,
        };
        self.again = asked_again.then(|| request.clone());
        Some(request)
    }
}

/// The exponent k of a share's period 2^k.
fn exponent(share: Share) -> u8 {
    (0..=LARGEST_EXPONENT).find(|&k| share.period == 1 << k).unwrap_or(0)
}

/// The ids that a listing leaves out.
fn not_in(listing: &Listing) -> Vec<usize> {
    (0..IDS).filter(|&id| listing[id].is_none()).collect()
}

/// The shortest period for which a listing leaves weight, or so many times twice as long.
fn lighter(listing: &Listing, further: u64) -> u16 {
    let lightest = u64::from(LARGEST_EXPONENT);
    let free = CYCLE as i64 - weights(listing);
    let heaviest = (0..=lightest).find(|k| CYCLE as i64 >> k <= free).unwrap_or(lightest);
    1 << (heaviest + further).min(lightest)
}

/// The sum of a listing's weights.
fn weights(listing: &Listing) -> i64 {
    listed(listing).map(|(_, share)| share.weight()).sum()
}
