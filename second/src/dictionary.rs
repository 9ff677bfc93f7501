//! The figures of docs/DICTIONARY.md, section by section.

use crate::absences;
use crate::archived;
use crate::built::led_to;
use crate::cases::{
    all_listed, record, request_a, request_b, request_d, request_j_overfull, request_short,
};
use crate::change::{bound_before, Outcome, AREA};
use crate::desk;
use crate::figures::{aligned, code, in_turn, list, list_and, thousands, Figures};
use crate::frames::{frame, LONGEST_FRAME, TAG_FRAME};
use crate::numbers;
use crate::pictures::begun_anew;
use crate::probe::{image_of, IMAGE};
use crate::queries::{owner_query, standing_query};
use crate::records::{
    longest_field, share_field, slot_field, write_answer, HEAD, TAG_LENGTH, TAG_LONGEST,
    TAG_OFFSET, TAG_OWNERS, TAG_SHARE, TAG_SLOT,
};
use crate::run::Run;
use crate::screen;
use crate::slots::{last_offset, room};
use crate::timetable::{
    Entry, Share, Timetable, CYCLE, DEBT_LIMIT, IDLE, IDS, LARGEST_BOUND, LARGEST_EXPONENT,
    LAST_SLOT, LONGEST_TRANSITION,
};
use crate::untouched;
use crate::worked::{
    anew, answer_b, answer_c, answer_e, answered, around_e, asked, asked_a, asked_b, asked_e,
    bound, by_t_e, bytes_b, bytes_c, bytes_e, ids, least_room, left_and_returned, left_at,
    limit_of, lines_of, mark, offsets, outcome, run_a, run_b, searched_more, share, waiting_e,
    DETECTOR, LAST_SHOWN, PUMP_LOOP, SLOT_BACK, SLOT_D, SLOT_MS, VALVE, VERSION_DEBTS,
};
use std::mem::size_of_val;
use std::ops::Range;

/// The figures of each section.
pub fn add_to(figures: &mut Figures) {
    add_head(figures);
    add_windows(figures);
    add_promised(figures);
    add_readings(figures);
    add_after(figures);
    add_words(figures);
    add_listing(figures);
    add_search(figures);
    add_shares(figures);
    add_window_figures(figures);
    add_places(figures);
    add_timetable(figures);
    add_image(figures);
    add_frame(figures);
    add_request(figures);
    add_answer(figures);
    add_record(figures);
    add_numbers(figures);
    add_fields_refused(figures);
    add_early(figures);
    add_stages_refused(figures);
    desk::add_to(figures);
    add_queries(figures);
    archived::add_to(figures);
    untouched::add_to(figures);
    screen::add_to(figures);
    absences::add_to(figures);
    add_line(figures);
}

/// The title, and the first entry.
fn add_head(figures: &mut Figures) {
    let title = "Dictionary of figures";
    let first = Timetable::empty().request_slot;
    let counts = format!("the controller counts them from {first} at its start");
    figures.phrase(title, format!("Slots last {SLOT_MS} ms; {counts}"));
    let names = format!("{PUMP_LOOP} the pump loop, {DETECTOR} the detector, {VALVE} the valve");
    figures.phrase(title, format!("ids in A to F are {names}"));
    let section = "Shortfall, called \"deficit\" in the lab's column";
    figures.phrase(section, format!("back to slot {first}, the empty controller's first slot"));
    figures.phrase(section, format!("less {CYCLE} x its supply"));
    figures.phrase(
        section,
        format!("Unit.** {CYCLE}ths of a slot: entitlement is counted in {CYCLE}ths"),
    );
    figures.phrase(section, format!("slots of {CYCLE} each. Below {CYCLE} R the bound R is kept"));
    let nothing = Run::empty().shortfall(PUMP_LOOP, first);
    figures.phrase(section, format!("Slots.antt`: {nothing} at slot {first}"));
    figures.phrase(section, format!("the larger of 0 and (shortfall + weight - {CYCLE} if"));
    let weight = left_at(SLOT_D).weight(VALVE, SLOT_D);
    figures.phrase(section, format!("is not listed its weight is {weight} and no slot"));
    add_column(figures, section);
}

/// The first entry: where the column comes from, and what is proved of it.
fn add_column(figures: &mut Figures, section: &str) {
    let (a, b, left) = (run_a().present(), run_b().present(), left_at(SLOT_D));
    figures.phrase(section, format!("transition (B: slot {})", list(b.request_slot..b.base)));
    let refused = standing_query(&b, PUMP_LOOP, b.request_slot - 1).0;
    figures.phrase(section, format!("Before the request slot it is refused {refused};"));
    let told = |id: u8| [a, b].map(|timetable| standing_query(&timetable, id, b.request_slot).1);
    let both = [PUMP_LOOP, DETECTOR].map(|id| list(in_turn(told(id).into_iter())));
    figures.phrase(section, format!("of an id that both list (B: {})", list_and(both)));
    let refused = standing_query(&left.present(), VALVE, SLOT_BACK).0;
    figures.phrase(section, format!("Of an id that is not listed the query says {refused}"));
    let back = left.after(&request_b(SLOT_BACK, 0));
    let owed = standing_query(&back.present(), VALVE, SLOT_BACK).1;
    figures.phrase(section, format!("worked through\": {owed} at slot {SLOT_BACK})"));
    figures.phrase(section, format!("by at most {CYCLE} for each"));
    figures.phrase(section, format!("below {CYCLE} R at the end of each slot"));
    figures.phrase(section, format!("What it meant up to version {} stands", VERSION_DEBTS - 1));
}

/// The windows of an id that end at a slot, from a first one to the empty one.
fn windows_block(run: &Run, id: u8, first: u64, end: u64) -> String {
    let name = |from: u64| match end - from {
        0 => String::from("empty"),
        _ => slots(&(from..end)),
    };
    let width = (first..=end).map(|from| name(from).len()).max().unwrap_or(0);
    let row = |from: u64| {
        let entitlement = run.entitlement(id, from..end);
        let (supply, excess) = (run.supply(id, from..end), run.excess(id, from..end));
        format!("{:width$}  {entitlement:>11}  {supply:>6}  {excess:>6}", name(from))
    };
    let head = format!("{:width$}  entitlement  supply  excess", "window");
    let rows: Vec<String> = [head].into_iter().chain((first..=end).map(row)).collect();
    rows.join("\n")
}

/// The windows of the pump loop that end at case B's slot, from the longest to the empty one.
fn add_windows(figures: &mut Figures) {
    let section = "The same figure by its windows";
    let (run, end) = (run_a(), asked_b().slot);
    let block = windows_block(&run, PUMP_LOOP, 0, end);
    figures.block(&format!("windows that end at slot {end}"), block);
    let largest = (0..=end).map(|from| run.excess(PUMP_LOOP, from..end)).max().unwrap_or(0);
    figures.phrase(section, format!("The pump loop (id {PUMP_LOOP})"));
    figures.phrase(section, format!("at the start of slot {end}"));
    figures.phrase(section, format!("Its largest excess is {largest}"));
    let steps = run.shortfall(PUMP_LOOP, end);
    figures.phrase(section, format!("the steps over {} give {steps} too", slots(&(0..end))));
    add_windows_through(figures, section);
}

/// The windows of the valve that end behind its first slot after an absence.
fn add_windows_through(figures: &mut Figures, section: &str) {
    let (back, first) = (SLOT_D + 3, asked_b().slot);
    let request = request_b(back, 0);
    let run = left_at(SLOT_D).after(&request);
    let end = run.own_slots(VALVE, back..back + CYCLE as u64)[0] + 1;
    let bound = share(&asked(&request).listing, VALVE).bound;
    let out = format!("After B the valve (id {VALVE}) is left out at slot {SLOT_D}");
    figures.phrase(section, format!("{out}, and asked for again at slot {back} with R {bound}"));
    let absent = slots(&(SLOT_D..back)).replacen('s', "S", 1);
    figures.phrase(section, format!("{absent} are its absence"));
    figures.phrase(section, format!("The windows that end at slot {end}"));
    figures.phrase(section, format!("one that begins in {}", slots(&(0..first))));
    let block = windows_block(&run, VALVE, first, end);
    figures.block("windows through an absence", block);
    let excess = |from: u64| run.excess(VALVE, from..end);
    let largest = (0..=end).map(excess).max().unwrap_or(0);
    let longest = slots(&(first..end));
    figures.phrase(section, format!("The largest excess is {largest}, that of {longest}"));
    let steps = run.shortfall(VALVE, end);
    figures.phrase(section, format!("the steps over {} give {steps} too", slots(&(0..end))));
    let since = (back..=end).map(excess).max().unwrap_or(0);
    figures.phrase(section, format!("from the return on it would be {since}"));
}

/// A window's slots, the first and the last.
pub fn slots(window: &Range<u64>) -> String {
    format!("slots {} to {}", window.start, window.end - 1)
}

/// The section on last spring.
const SPRING: &str = "Last spring's disagreement, worked through";

/// An id's row of shortfalls in a block.
pub fn shortfall_row<'a>(
    name: &'a str,
    run: &Run,
    id: u8,
    slots: Range<u64>,
) -> (&'a str, Vec<String>) {
    (name, slots.map(|slot| run.shortfall(id, slot).to_string()).collect())
}

/// What is promised, and the shortfalls up to the change.
fn add_promised(figures: &mut Figures) {
    let (asked, joins) = (asked_a(), asked_b());
    let (quarter, half) = (share(&asked.listing, PUMP_LOOP), share(&joins.listing, VALVE));
    let both = format!("The pump loop (id {PUMP_LOOP}) and the detector (id {DETECTOR})");
    figures.phrase(SPRING, both);
    let (period, bound, weight) = (quarter.period, quarter.bound, quarter.weight());
    figures.phrase(SPRING, format!("one slot in {period} with bound {bound}: weight {weight}"));
    figures.phrase(SPRING, format!("At slot {} the method changes", joins.slot));
    let (period, bound) = (half.period, half.bound);
    let joining =
        format!("the valve (id {VALVE}) joins with one slot in {period} and bound {bound}");
    figures.phrase(SPRING, joining);
    let run = run_a();
    let numbers = (0..=joins.slot).map(|slot| slot.to_string()).collect();
    let owners = (0..joins.slot).map(|slot| mark(&run, slot)).collect();
    let shown = 0..joins.slot + 1;
    let rows = [
        ("slot", numbers),
        ("owner", owners),
        shortfall_row("pump loop, shortfall", &run, PUMP_LOOP, shown.clone()),
        shortfall_row("detector, shortfall", &run, DETECTOR, shown),
    ];
    figures.block("before the change", aligned(&rows, 0));
}

/// The two readings of the pump loop's column.
fn add_readings(figures: &mut Figures) {
    let (slot, anew) = (asked_b().slot, anew());
    let both = run_a().with(anew);
    let next = slot + u64::from(anew.entries[usize::from(PUMP_LOOP)].offset);
    let since = |slot: u64| standing_query(&both.in_force(slot), PUMP_LOOP, slot).1;
    let mut stand = vec![since(slot), standing_query(&anew, DETECTOR, slot).1];
    stand.dedup();
    figures.phrase(SPRING, format!("at slot {slot} both stand at {}", list(stand)));
    figures.phrase(SPRING, format!("Then offsets {} from slot {slot}", list_and(offsets(&anew))));
    let waited = format!("at slot {next} it has waited {} slots: {}", next - slot, since(next));
    figures.phrase(SPRING, format!("next slot is slot {next}, and {waited}"));
    let last = both.own_slots(PUMP_LOOP, 0..slot).pop().unwrap_or(0);
    let window = last + 1..next;
    let (count, weight) = (next - window.start, both.weight(PUMP_LOOP, slot));
    let of = format!("Slots {} to {} are a window of {count} slots", window.start, next - 1);
    figures.phrase(SPRING, format!("had its last slot at {last}. {of}"));
    let entitled = both.entitlement(PUMP_LOOP, window.clone());
    let had = both.supply(PUMP_LOOP, window.clone());
    let entitled =
        format!("entitled to {count} x {weight} = {entitled}, one whole slot, and had {had}");
    figures.phrase(SPRING, entitled);
    let (reached, bound) = (both.shortfall(PUMP_LOOP, next), bound(PUMP_LOOP));
    let below = if breaks(PUMP_LOOP, reached) { "not below" } else { "below" };
    let broken = format!("At slot {next} the shortfall is {reached}, {below} {CYCLE} x {bound}");
    figures.phrase(SPRING, broken);
    let shown = window.start..next + 1;
    let one = shown.clone().map(|slot| since(slot).to_string()).collect();
    let two = shortfall_row("reading two, pump loop", &both, PUMP_LOOP, shown.clone());
    let numbers = shown.map(|slot| slot.to_string()).collect();
    let rows = aligned(&[("slot", numbers), ("reading one, pump loop", one), two], 0);
    let kept = format!("{below} {}: broken", limit(PUMP_LOOP));
    let ends = [String::new(), format!("   starts anew at {slot}"), format!("   {kept}")];
    figures.block("two readings", with_ends(&rows, &ends));
}

/// What an id's shortfall stays below in case B: 256 R.
fn limit(id: u8) -> usize {
    limit_of(share(&asked_b().listing, id))
}

/// Whether a shortfall breaks an id's bound in case B.
fn breaks(id: u8, shortfall: i64) -> bool {
    !share(&asked_b().listing, id).keeps_bound(shortfall)
}

/// The lines of a block, each with what stands behind it.
pub fn with_ends(block: &str, ends: &[String]) -> String {
    let lines: Vec<String> =
        block.lines().zip(ends).map(|(line, end)| format!("{line}{end}")).collect();
    lines.join("\n")
}

/// What the controller does instead, and the shortfalls from the change on.
fn add_after(figures: &mut Figures) {
    let (run, slot) = (run_b(), asked_b().slot);
    let timetable = run.present();
    let owed = run.shortfall(DETECTOR, slot);
    let left = room(owed, share(&asked_b().listing, DETECTOR));
    let passed = list(0..timetable.length);
    let passes = format!("passes length {passed} over at slot {slot}");
    figures.phrase(
        SPRING,
        format!("{passes}, gives slot {slot} to the detector ({owed}, room {left})"),
    );
    figures.phrase(SPRING, format!("starts the cycle at slot {}", timetable.base));
    figures.phrase(SPRING, format!("stays below {CYCLE} R of its own"));
    let (pump, valve) = (limit(PUMP_LOOP).max(limit(DETECTOR)), limit(VALVE));
    let below =
        format!("the pump loop's and the detector's below {pump}, the valve's below {valve}");
    figures.phrase(SPRING, below);
    let shown = slot..LAST_SHOWN + 1;
    let most = shown.clone().map(|slot| run.shortfall(VALVE, slot)).max().unwrap_or(0);
    let at = list(shown.clone().filter(|&slot| run.shortfall(VALVE, slot) == most));
    let keeps = if breaks(VALVE, most) { "breaks" } else { "keeps" };
    let stands = format!("The valve stands at {most} at slots {at} and {keeps} its bound");
    figures.phrase(SPRING, stands);
    let numbers = shown.clone().map(|slot| slot.to_string()).collect();
    let owners = shown.clone().map(|slot| mark(&run, slot)).collect();
    let rows = [
        ("slot", numbers),
        ("owner", owners),
        shortfall_row("pump loop, shortfall", &run, PUMP_LOOP, shown.clone()),
        shortfall_row("detector, shortfall", &run, DETECTOR, shown.clone()),
        shortfall_row("valve, shortfall", &run, VALVE, shown),
    ];
    let below = [PUMP_LOOP, DETECTOR, VALVE].map(|id| format!("   below {}", limit(id)));
    let ends = [&[String::new(), String::new()][..], &below[..]].concat();
    figures.block("after the change", with_ends(&aligned(&rows, 0), &ends));
}

/// "Words": windows, idle slots, the empty timetable, and what is in force.
fn add_words(figures: &mut Figures) {
    let section = "Words";
    let (run, slot) = (run_a(), asked_b().slot);
    let last = run.own_slots(PUMP_LOOP, 0..slot).pop().unwrap_or(0);
    figures.phrase(
        section,
        format!("any slots in a row, from slot {} on", Run::empty().present().base),
    );
    let window = format!("A: {}, id {PUMP_LOOP}", slots(&(last + 1..slot)));
    let through = slots(&(SLOT_D - 1..SLOT_BACK + 1));
    let through = format!("out at slot {SLOT_D} and back at slot {SLOT_BACK}: {through}");
    figures.cell(section, "window", format!("{window}; B, then id {VALVE} {through}"));
    let (of_a, of_b) = (list(ids(&asked_a().listing)), list(ids(&asked_b().listing)));
    figures.cell(section, "listed", format!("A: ids {of_a}; B: ids {of_b}"));
    figures.phrase(section, format!("idle, owner {IDLE} "));
    figures.phrase(section, format!("told as {IDLE}, which is no id"));
    let idle = format!("A: slot {}: {}", last + 1, run.owner(last + 1));
    figures.cell(section, format!("idle, owner {IDLE}"), idle);
    let Timetable { request_slot, length, entries, starts, .. } = Timetable::empty();
    let owed = list(in_turn(entries.map(|entry| entry.shortfall).into_iter().chain(starts)));
    let listed = format!("nothing listed, every shortfall {owed}");
    figures.phrase(section, format!("request slot {request_slot}, length {length}, {listed}"));
    let first = format!("slot {request_slot}: {}", Run::empty().owner(request_slot));
    figures.cell(section, "the empty timetable", first);
    let both = run_b();
    let name = |slot: u64| if both.in_force(slot) == both.present() { "B's" } else { "A's" };
    let (before, after) = (name(slot - 1), name(slot));
    let force = format!("slot {}: {before}; slot {slot}: {after}", slot - 1);
    figures.cell(section, "in force", force);
    let around = slot - 1..slot + 2;
    let owners = list(around.clone().map(|slot| both.owner(slot)));
    let run = format!("A, then B: slots {} have owners {owners}", list(around));
    figures.cell(section, "run", run);
}

/// "Words": an id that leaves and returns, its absence, and what it is owed.
fn add_listing(figures: &mut Figures) {
    let section = "Words";
    let (run, base) = (run_b(), run_b().present().base);
    let (back, owed) = (left_and_returned(), run.shortfall(PUMP_LOOP, base));
    let asked = format!("left out at slot {base} and asked for again at slot {base}");
    let has = back.shortfall(PUMP_LOOP, base);
    let has = if has == owed { format!("{owed} before and after") } else { has.to_string() };
    let text = format!("B, then id {PUMP_LOOP} {asked}: shortfall {has}");
    figures.cell(section, "leaves and returns", text);
    let back = left_at(SLOT_D).after(&request_b(SLOT_BACK, 0));
    let away = SLOT_D..SLOT_BACK;
    let weights = list(in_turn(away.clone().map(|slot| back.weight(VALVE, slot))));
    figures.phrase(section, format!("Its weight there is {weights}, and it has no slot"));
    let out = format!("B, then id {VALVE} left out at slot {SLOT_D}");
    let owed = list(in_turn(away.clone().map(|slot| back.shortfall(VALVE, slot))));
    let absent = slots(&away);
    let again = format!("{out} and asked for again at slot {SLOT_BACK}");
    figures.cell(section, "absence", format!("{again}: {absent}"));
    figures.phrase(section, format!("a shortfall above {weights}"));
    figures.phrase(section, format!("by at most {CYCLE} for each"));
    figures.cell(section, "debt", format!("{out}: {owed} at {absent}"));
    let b = run_b().present();
    let begun = (b.request_slot..=b.base).map(|slot| {
        let anew = begun_anew(&run_b(), PUMP_LOOP, slot);
        let owed = run_b().shortfall(PUMP_LOOP, slot);
        format!("at slot {slot}: {anew}, where the shortfall is {owed}")
    });
    let begun: Vec<String> = begun.collect();
    figures.phrase(section, "begun at 0 at the request slot");
    figures.cell(section, "counted anew", format!("B, id {PUMP_LOOP}: {}", begun.join("; ")));
}

/// "Words": placements, lengths, the answer area and soundness.
fn add_search(figures: &mut Figures) {
    let section = "Words";
    let (a, b) = (run_a().present(), run_b().present());
    figures.phrase(section, format!("stays below {CYCLE} R of its own"));
    figures.cell(section, "cyclic placement", format!("A: offsets {}", list(offsets(&a))));
    let own = list(run_b().own_slots(DETECTOR, b.base..LAST_SHOWN));
    figures.cell(section, "cyclic slot", format!("B, id {DETECTOR}: slots {own}"));
    figures.cell(section, "passed over", format!("B: length {}", list(0..b.length)));
    add_missed(figures, section);
    let tries = answer_e(LONGEST_TRANSITION as u8).tries;
    let reached = format!("E with T {LONGEST_TRANSITION}: length {tries}, after {tries} tries");
    figures.cell(section, "can't be reached", reached);
    figures.phrase(section, format!("at least {AREA}, as many as the longest record has"));
    let (longest, (outcome, _)) = (all_listed(), answer_b());
    let (owners, listed) = (longest.transition().len(), ids(&longest.listing()).len());
    let size = write_answer(&longest).len();
    let sizes =
        format!("{owners} owners and {listed} ids: {size} bytes; B: {} bytes", outcome.written);
    figures.cell(section, "answer area", sizes);
    add_sound(figures, section);
}

/// "Words": case B's timetable with another base, and with another start.
fn add_sound(figures: &mut Figures, section: &str) {
    let (b, pump) = (run_b().present(), usize::from(PUMP_LOOP));
    let below = thousands(usize::from(DEBT_LIMIT));
    let absent =
        format!("of an id that is not listed it is below {below} and the same at the base");
    figures.phrase(section, format!("at the request slot is below {CYCLE} R, {absent}"));
    let refused = |timetable: Timetable| {
        let request = record(timetable.base, 0, &[]);
        match answered(&Run::empty().with(timetable), &request).0.number {
            numbers::ACCEPTED => String::from("sound"),
            number => format!("refused {number}"),
        }
    };
    let base = b.base + 1;
    let other_base = format!("B with base {base}: {}", refused(Timetable { base, ..b }));
    let mut starts = b.starts;
    starts[pump] += 1;
    let leads = led_to(&b, pump, starts[pump]);
    let not = format!("leads to {leads} and not to {}", b.entries[pump].shortfall);
    let start = format!("with {} for id {PUMP_LOOP} at the request slot", starts[pump]);
    let other_start = format!("{start}, which {not}: {}", refused(Timetable { starts, ..b }));
    let most = DEBT_LIMIT - 1;
    let empty = format!("nothing listed, and for id {VALVE} {}", owing([most, most], &refused));
    let more = owing([most + 1, most + 1], &refused);
    let unlike = owing([most, most - 1], &refused);
    figures.cell(
        section,
        "sound",
        format!("{other_base}; {other_start}; {empty}; {more}; {unlike}"),
    );
}

/// What comes of the empty timetable with two kept shortfalls of the valve.
fn owing([start, shortfall]: [u16; 2], refused: &dyn Fn(Timetable) -> String) -> String {
    let mut timetable = Timetable::empty();
    timetable.starts[usize::from(VALVE)] = start;
    timetable.entries[usize::from(VALVE)].shortfall = shortfall;
    let both = [start, shortfall].map(|owed| thousands(usize::from(owed)));
    format!("{}: {}", list_and(both), refused(timetable))
}

/// "Words": transition slots, and the one that case E misses.
fn add_missed(figures: &mut Figures, section: &str) {
    let (asked, waiting) = (asked_e(), waiting_e());
    let missed = &waiting[waiting.len() - 1];
    let number = missed.slot - asked.slot;
    figures.phrase(section, format!("They are counted from {}:", waiting[0].slot - asked.slot));
    figures.phrase(section, "leads from length n to length n + 1");
    let is = format!("transition slot {number} is slot {}", missed.slot);
    figures.cell(section, "transition slot", format!("E, at slot {}: {is}", asked.slot));
    let (least, urgent) = least_room(&asked.listing, missed);
    figures.phrase(section, format!("more than one listed partition has room {least} there"));
    let have = format!("where ids {} have room {least}", list_and(urgent));
    figures.cell(section, "missed", format!("E: transition slot {number}, {have}"));
}

/// The section on the figures of a partition.
const PARTITION: &str = "Figures of a partition";

/// "Figures of a partition": id, period, weight and bound.
fn add_shares(figures: &mut Figures) {
    let Share { period, bound, .. } = share(&asked_a().listing, PUMP_LOOP);
    let (k, weight) = (period.trailing_zeros(), share(&asked_a().listing, PUMP_LOOP).weight());
    figures.phrase(PARTITION, format!("which partition | 0 to {}", IDS - 1));
    figures.cell(PARTITION, "id", format!("{DETECTOR}, the detector"));
    let periods = format!("slots, 1 to {}", 1 << LARGEST_EXPONENT);
    let ranges = format!("k: 0 to {LARGEST_EXPONENT}; period: {periods}");
    figures.phrase(PARTITION, format!("one slot in every 2^k | {ranges}"));
    figures.cell(PARTITION, "k, period", format!("k {k}: period {period}"));
    figures.phrase(
        PARTITION,
        format!("weight | {CYCLE} / period: the entitlement per slot | {CYCLE}ths"),
    );
    figures.cell(PARTITION, "weight", format!("period {period}: {weight}"));
    figures.phrase(PARTITION, format!("shortfall below {CYCLE} R"));
    figures.phrase(PARTITION, format!("slots, 1 to {LARGEST_BOUND}"));
    let larger = share(&asked_b().listing, VALVE).bound;
    let below = |bound: u8| format!("R {bound}: below {}", CYCLE * usize::from(bound));
    figures.cell(PARTITION, "bound R", format!("{}; {}", below(bound), below(larger)));
}

/// "Figures of a partition": entitlement, supply and excess of one window.
fn add_window_figures(figures: &mut Figures) {
    let run = run_a();
    let mut own = run.own_slots(PUMP_LOOP, 0..8).into_iter();
    let window = own.next().unwrap_or(0) + 1..own.next().unwrap_or(0) + 1;
    let name = format!("A, id {PUMP_LOOP}, {}", slots(&window));
    let entitlement = run.entitlement(PUMP_LOOP, window.clone());
    let own = run.own_slots(PUMP_LOOP, window.clone());
    let (supply, excess) = (own.len(), run.excess(PUMP_LOOP, window));
    figures.phrase(PARTITION, format!("slots of a window | {CYCLE}ths of a slot"));
    figures.cell(PARTITION, "entitlement", format!("{name}: {entitlement}"));
    figures.cell(PARTITION, "supply", format!("{name}: {supply} (slot {})", list(own)));
    figures.phrase(PARTITION, format!("less {CYCLE} x its supply | {CYCLE}ths of a slot"));
    figures.phrase(PARTITION, format!("where it is below {CYCLE} R"));
    let sum = format!("{entitlement} - {CYCLE} x {supply} = {excess}");
    figures.cell(PARTITION, "excess", format!("{name}: {sum}"));
}

/// "Figures of a partition": room, offsets and slices.
fn add_places(figures: &mut Figures) {
    let (run, asked) = (run_b(), asked_b());
    let told = |share: Share, owed: i64| {
        format!("period {}, R {}, shortfall {owed}", share.period, share.bound)
    };
    let (pump, owed) = (share(&asked.listing, PUMP_LOOP), run.shortfall(PUMP_LOOP, asked.slot));
    figures.phrase(PARTITION, format!("room | ({CYCLE} R - 1 - shortfall) / weight"));
    figures.cell(PARTITION, "room", format!("{}: {}", told(pump, owed), room(owed, pump)));
    figures.cell(PARTITION, "offset", format!("B: offsets {}", list(offsets(&run.present()))));
    let (valve, owed) = (share(&asked.listing, VALVE), run.shortfall(VALVE, asked.slot));
    figures.phrase(PARTITION, "room and period - 1");
    let last = format!("{}: {}", told(valve, owed), last_offset(owed, valve));
    figures.cell(PARTITION, "last offset", last);
    add_slices(figures);
}

/// "Figures of a partition": the slices of the detector in case B, up to its first cyclic slot.
fn add_slices(figures: &mut Figures) {
    let (run, Timetable { request_slot, base, .. }) = (run_b(), run_b().present());
    let own = run.own_slots(DETECTOR, base..LAST_SHOWN).first().copied().unwrap_or(0);
    let at = |slot: u64, which: &str| {
        let had = standing_query(&run.present(), DETECTOR, slot).2;
        format!("at slot {slot}{which}: {had}")
    };
    let of = |slot: u64| list(run.own_slots(DETECTOR, request_slot..slot));
    let first = format!("{}; {} (slot {})", at(request_slot, ""), at(base, ", the base"), of(base));
    let then = format!("{}; {} (slots {})", at(own, ""), at(own + 1, ""), of(own + 1));
    figures.cell(PARTITION, "slices had", format!("B, id {DETECTOR}: {first}; {then}"));
}

/// The highest slot as a power of two.
fn highest_slot() -> String {
    format!("2^{} - 1", (LAST_SLOT + 1).trailing_zeros())
}

/// "Figures of a timetable", of case B.
fn add_timetable(figures: &mut Figures) {
    let section = "Figures of a timetable";
    let b = run_b().present();
    figures.phrase(section, format!("at most {}", highest_slot()));
    figures.cell(section, "request slot", b.request_slot);
    figures.phrase(section, format!("slots, 0 to {LONGEST_TRANSITION}"));
    figures.cell(section, "transition length", b.length);
    figures.cell(section, "owners", list(b.transition()));
    figures.phrase(section, "the cycle's slot 0");
    figures.cell(section, "base", b.base);
    screen::add_kept(figures, section);
}

/// "The image in C", of case B: the fields one behind the other.
fn add_image(figures: &mut Figures) {
    let section = "The image in C";
    let b = run_b().present();
    let (image, entry) = (image_of(&b), b.entries[0]);
    let slot = size_of_val(&b.request_slot);
    let base = slot + 1 + b.owners.len();
    let entries = base + slot;
    let own = [size_of_val(&entry.period), 1, 1, size_of_val(&entry.shortfall)];
    let size: usize = own.iter().sum();
    let start = size_of_val(&b.starts[0]);
    figures.phrase(section, format!("an image of {IMAGE} bytes"));
    let mut empty = image_of(&Timetable::empty());
    let size_of_empty = empty.len();
    empty.dedup();
    figures.phrase(section, format!("makes any {size_of_empty} bytes the image"));
    figures.phrase(section, format!("timetable, which is {} throughout", list(empty)));
    figures.phrase(section, format!("are refused {} by every function", numbers::NOT_SOUND));
    figures.phrase(section, format!("| request slot | {slot} |"));
    let bytes = |from: usize, size: usize| {
        format!("bytes {from} to {}: {}", from + size - 1, code(&image[from..from + size]))
    };
    figures.cell(section, "request slot", bytes(0, slot));
    figures.phrase(section, "| transition length | 1 |");
    figures.cell(
        section,
        "transition length",
        format!("byte {slot}: {}", code(&image[slot..=slot])),
    );
    figures.phrase(section, format!("| owners | {}, the unused ones 0 |", b.owners.len()));
    let first = code(&image[slot + 1..slot + 2]);
    let owners = format!("bytes {} to {}, the first: {first}", slot + 1, base - 1);
    figures.cell(section, "owners", owners);
    figures.phrase(section, format!("| base | {slot} |"));
    figures.cell(section, "base", bytes(base, slot));
    figures.phrase(section, format!("| {}; the first three 0 where", list_and(own)));
    let of = |id: u8| format!("id {id}, {}", bytes(entries + size * usize::from(id), size));
    let row = "each id's period, offset, R and kept shortfall at the base";
    figures.cell(section, row, format!("{}; {}", of(PUMP_LOOP), of(VALVE)));
    figures.phrase(section, format!("| {start}; the same as at the base where"));
    let starts = entries + size * IDS;
    let of = |id: u8| format!("id {id}, {}", bytes(starts + start * usize::from(id), start));
    let row = "each id's kept shortfall at the request slot";
    figures.cell(section, row, [PUMP_LOOP, DETECTOR, VALVE].map(of).join("; "));
    add_image_left(figures, section, [entries, size], [starts, start]);
}

/// "The image in C": the bytes of an id that left, which begin so many bytes behind the first id's.
fn add_image_left(figures: &mut Figures, section: &str, entries: [usize; 2], starts: [usize; 2]) {
    let (run, valve) = (left_at(SLOT_D), usize::from(VALVE));
    let image = image_of(&run.present());
    let bytes = |[first, size]: [usize; 2]| {
        let from = first + size * valve;
        format!("bytes {from} to {} are {}", from + size - 1, code(&image[from..from + size]))
    };
    let Entry { period, offset, bound, .. } = run.present().entries[valve];
    let none = list(in_turn([period, u16::from(offset), u16::from(bound)].into_iter()));
    figures.phrase(section, format!("period, offset and R are {none}"));
    let out = format!("After B, with id {VALVE} left out at slot {SLOT_D}");
    figures.phrase(section, format!("{out}, {}, and {}", bytes(entries), bytes(starts)));
    let refused = standing_query(&run.present(), VALVE, SLOT_D).0;
    figures.phrase(section, format!("The standing query says {refused} of such an id"));
}

/// "A frame, as bytes", of case B.
fn add_frame(figures: &mut Figures) {
    let section = "A frame, as bytes";
    let frame = frame(&bytes_b());
    let (head, content) = frame.split_at(HEAD);
    figures.phrase(section, format!("not cut off | {} bytes and the content", head.len()));
    figures.cell(section, "frame", format!("{}, then {} bytes", code(head), content.len()));
    figures.phrase(section, format!("the tag of a frame | {TAG_FRAME:x} hex"));
    figures.cell(section, "first byte", code(&head[..1]));
    let range = format!("0 to {} bytes", thousands(LONGEST_FRAME));
    figures.phrase(section, format!("the length of the content, high byte first | {range}"));
    let length = format!("{}: {} bytes", code(&head[1..]), content.len());
    figures.cell(section, "two bytes", length);
    figures.cell(section, "content", code(content));
}

/// "A request, as bytes": case B's fields, and a short one.
fn add_request(figures: &mut Figures) {
    let section = "A request, as bytes";
    let (asked, ids) = (asked_b(), format!("0 to {}", IDS - 1));
    let exponents = format!("0 to {LARGEST_EXPONENT}");
    let exponent = |id: u8| share(&asked.listing, id).period.trailing_zeros() as u8;
    let full = share_field(VALVE, exponent(VALVE), Some(bound(VALVE)));
    let short = share_field(PUMP_LOOP, exponent(PUMP_LOOP), None);
    let ranges = format!("{ids}, {exponents}, 1 to {LARGEST_BOUND}");
    let required = format!("one field {TAG_SLOT:02x}, then one field {TAG_LONGEST:02x}");
    let listed = format!("0 to {IDS} fields {TAG_SHARE:02x}");
    figures.phrase(section, format!("A request is {required}, then {listed}, and nothing"));
    let fields = [
        (slot_field(asked.slot), format!("request slot | 0 to {}", highest_slot())),
        (
            longest_field(asked.longest),
            format!("T, the longest transition allowed | 0 to {LONGEST_TRANSITION}"),
        ),
        (full, format!("id, k, R; ids rise | {ranges}")),
        (short, format!("id, k; R as before (below) | {ids}, {exponents}")),
    ];
    for (field, content) in fields {
        let row = format!("{:02x}, length {}", field[0], field[2]);
        figures.phrase(section, format!("| {row} | {content} |"));
        figures.cell(section, row, code(&field));
    }
}

/// "An answer": number, place, tries and bytes written of case B.
fn add_answer(figures: &mut Figures) {
    let section = "An answer";
    let (outcome, last) = (answer_b().0, numbers::SHORTFALL_TOO_LARGE);
    let first = format!("one field {TAG_LENGTH:x}, then one field {TAG_OWNERS:x}");
    figures.phrase(section, format!("The record is {first}, then a field {TAG_OFFSET:x}"));
    let (_, nothing) = answered(&Run::empty(), &record(0, 0, &[]));
    let owners = nothing.get(HEAD + 3).copied().unwrap_or(u8::MAX);
    figures.phrase(section, format!("{TAG_OWNERS:x} is there with length {owners} too"));
    figures.phrase(section, format!("one that lists nothing (I) is {}", code(&nothing)));
    figures.phrase(section, format!("number | {} accepted", numbers::ACCEPTED));
    figures.cell(section, "number", outcome.number);
    figures.phrase(section, "byte, id, transition slot or T, or 0");
    figures.cell(section, "place", outcome.place);
    let more = outcome.tries - u16::from(run_b().present().length);
    figures.phrase(section, format!("the transition length + {more} if accepted"));
    let wanting = list_and([numbers::SLOT_MISSED, numbers::LENGTHS_EXHAUSTED]);
    let more = list(in_turn(by_t_e().iter().map(|(_, _, answer)| searched_more(answer))));
    figures.phrase(section, format!("the place + {more} with {wanting}"));
    let none = format!("0 with {} to {last}", numbers::NOT_SOUND);
    figures.phrase(section, format!("{none} | lengths, at most T + 1"));
    let lengths = list_and(0..outcome.tries);
    figures.cell(section, "tries", format!("{} (lengths {lengths})", outcome.tries));
    figures.phrase(section, format!("answer record; 0 with a refusal | bytes, at most {AREA}"));
    figures.cell(section, "bytes written", outcome.written);
}

/// "An answer": the fields of case B's record.
fn add_record(figures: &mut Figures) {
    let section = "An answer";
    let record = answer_b().1;
    let length = HEAD + 1;
    let owners = length + HEAD + run_b().present().transition().len();
    let fields = [
        (TAG_LENGTH, record.get(..length)),
        (TAG_OWNERS, record.get(length..owners)),
        (TAG_OFFSET, record.get(owners..)),
    ];
    for (tag, field) in fields {
        let row = format!("record, tag {tag:x} hex");
        figures.phrase(section, &row);
        figures.cell(section, row, code(field.unwrap_or_default()));
    }
}

/// "What each number says": the numbers with their meanings and places, and their order.
fn add_numbers(figures: &mut Figures) {
    use numbers::*;
    let section = "What each number says";
    figures.phrase(section, format!("| {ACCEPTED} | accepted | 0 |"));
    figures.phrase(section, format!("| {NOT_SOUND} | timetable not sound | 0 |"));
    figures.phrase(section, format!("| {AREA_TOO_SMALL} | answer area under {AREA} bytes | 0 |"));
    figures.phrase(section, format!("| {WRONG_FIELD} | field cut off"));
    figures.phrase(section, format!("| {OUT_OF_RANGE} | value out of range"));
    figures.phrase(section, "tag byte; 0 in a query |");
    figures.phrase(section, format!("| {ID_NOT_RISING} | id not above the one before"));
    figures.phrase(section, format!("| {TOO_EARLY} | slot too early | 0 |"));
    figures.phrase(section, format!("| {OVERFULL} | weights sum above {CYCLE}"));
    figures.phrase(section, format!("first passes {CYCLE} |"));
    let behind = format!("shortfall at the request slot not below {CYCLE} x new R");
    figures.phrase(section, format!("| {SHORTFALL_TOO_LARGE} | {behind}"));
    let missed = "a transition slot below T is missed, no length up to it gives a schedule";
    figures.phrase(section, format!("| {SLOT_MISSED} | {missed} |"));
    let first = waiting_e()[0].slot - asked_e().slot;
    figures.phrase(section, format!("that slot, counted from {first} |"));
    figures.phrase(section, format!("| {NOT_LISTED} | id not listed (queries) | 0 |"));
    figures.phrase(section, format!("| {LENGTHS_EXHAUSTED} | no length up to T gives a schedule"));
    let first = list([NOT_SOUND, AREA_TOO_SMALL]);
    figures.phrase(section, format!("The lowest stage wins: {first}, then the fields"));
    let within = format!("{WRONG_FIELD}, then {OUT_OF_RANGE}, then {ID_NOT_RISING}");
    let then = list([TOO_EARLY, OVERFULL, SHORTFALL_TOO_LARGE]);
    let last = format!("last {SLOT_MISSED} or {LENGTHS_EXHAUSTED}");
    figures.phrase(section, format!("(within a field {within}), then {then}, {last}."));
    figures.phrase(section, format!("of {SLOT_MISSED} and {LENGTHS_EXHAUSTED} it is"));
}

/// The number and the place of a request's outcome.
fn number_at(run: &Run, request: &[u8]) -> String {
    let Outcome { number, place, .. } = outcome(run, request);
    format!("{number} at {place}")
}

/// "What each number says": where bytes are counted from, and the refusals of fields.
fn add_fields_refused(figures: &mut Figures) {
    use numbers::*;
    let section = "What each number says";
    let empty = Run::empty();
    let first = outcome(&empty, &[]).place;
    figures.phrase(section, format!("counts from {first} at the start of the request"));
    let head = frame(&bytes_b()).len() - bytes_b().len();
    let fields = format!("place {first} with {WRONG_FIELD} or {OUT_OF_RANGE} is the first field");
    figures.phrase(section, format!("whose head has {head} bytes more: {fields}"));
    figures.phrase(section, format!("with {SHORTFALL_TOO_LARGE} it is id {first}"));
    figures.phrase(section, format!("with {SLOT_MISSED} it is the request slot itself"));
    figures.phrase(section, format!("with {LENGTHS_EXHAUSTED} it is T {}", answer_c().place));
    figures.phrase(section, format!("The base and the request slot of {TOO_EARLY} are those"));
    figures.phrase(section, format!("| {WRONG_FIELD} | the field that begins at the place"));
    let (none, one) = (number_at(&empty, &[]), number_at(&empty, &slot_field(0)));
    let ends = format!("a record that ends after its first field: {one}");
    figures.cell(section, WRONG_FIELD, format!("an empty record: {none}; {ends}"));
    figures.phrase(section, format!("| {OUT_OF_RANGE} | a value in the field that begins"));
    let (slot, longest) = (LAST_SLOT + 1, LONGEST_TRANSITION as u8 + 1);
    let late = number_at(&empty, &record(slot, 0, &[]));
    let long = number_at(&empty, &record(0, longest, &[]));
    let ranges = format!("slot 2^{}: {late}; T {longest}: {long}", slot.trailing_zeros());
    figures.cell(section, OUT_OF_RANGE, ranges);
    figures.phrase(section, format!("| {ID_NOT_RISING} | the field that begins at the place"));
    let twice = number_at(&empty, &record(0, 0, &[(PUMP_LOOP, 2, 1), (PUMP_LOOP, 2, 1)]));
    figures.cell(section, ID_NOT_RISING, format!("id {PUMP_LOOP} twice: {twice}"));
}

/// What comes of a slot: refused by its number, or not.
fn comes_of(slot: u64, number: u8, otherwise: &str) -> String {
    match number {
        numbers::ACCEPTED => format!("slot {slot} {otherwise}"),
        _ => format!("slot {slot} refused {number}"),
    }
}

/// "What each number says": what is too early after case B, by one slot and not.
fn add_early(figures: &mut Figures) {
    let section = "What each number says";
    let (run, early) = (run_b(), numbers::TOO_EARLY);
    let Timetable { request_slot, base, .. } = run.present();
    let around = |first: u64, otherwise: &str, number: &dyn Fn(u64) -> u8| {
        [first - 1, first].map(|slot| comes_of(slot, number(slot), otherwise)).join("; ")
    };
    let longest = LONGEST_TRANSITION as u8;
    let request = |slot: u64| outcome(&run, &request_b(slot, longest)).number;
    let owner = |slot: u64| owner_query(&run.present(), slot).0;
    let standing = |slot: u64| standing_query(&run.present(), VALVE, slot).0;
    let mut row = |asked: &str, after: String, slots: String| {
        figures.phrase(section, format!("| {early}, {asked} | its slot is before"));
        figures.cell(section, format!("{early}, {asked}"), format!("{after}: {slots}"));
    };
    let slots = around(base, "accepted", &request);
    row("a request", format!("F, after B (base {base})"), slots);
    let slots = around(request_slot, "answered", &owner);
    row("an owner query", format!("after B (request slot {request_slot})"), slots);
    let slots = around(request_slot, "answered", &standing);
    row("a standing query", format!("after B (request slot {request_slot}), id {VALVE}"), slots);
}

/// "What each number says": the refusals of the later stages, and an id that is not listed.
fn add_stages_refused(figures: &mut Figures) {
    use numbers::*;
    let section = "What each number says";
    figures.phrase(section, format!("| {OVERFULL} | the weights that the request asks"));
    figures.phrase(section, format!("are above {CYCLE} |"));
    let (request, listing) = (request_j_overfull(), asked(&request_j_overfull()).listing);
    let weights = list_and(ids(&listing).iter().map(|&id| share(&listing, id).weight()));
    let sum = format!("ids {}, weights {weights}", list_and(ids(&listing)));
    figures.cell(section, OVERFULL, format!("J: {sum}: {}", number_at(&Run::empty(), &request)));
    figures.phrase(section, format!("| {SHORTFALL_TOO_LARGE} | the shortfall of the id"));
    let (run, request) = (run_b(), request_d(SLOT_D, LONGEST_TRANSITION as u8));
    let (left, valve) = (left_at(SLOT_D).present(), usize::from(VALVE));
    let (slot, bound) = (asked(&request).slot, share(&asked(&request).listing, VALVE).bound);
    let has = format!("id {VALVE} has {} and asks R {bound}", run.shortfall(VALVE, slot));
    let behind = format!("D, after B at slot {slot}: {has}: {}", number_at(&run, &request));
    let short = number_at(&run, &request_short(slot, LONGEST_TRANSITION as u8));
    figures.phrase(section, format!("a short field asks R {} of it", bound_before(&left, valve)));
    let [full, by_short] =
        [request, request_short(slot, 0)].map(|it| number_at(&left_at(slot), &it));
    let out = format!("id {VALVE} out and back at slot {slot}, with R {bound}: {full}");
    let out = format!("{out}; by a short field: {by_short}");
    figures.cell(
        section,
        SHORTFALL_TOO_LARGE,
        format!("{behind}; by a short field: {short}; {out}"),
    );
}

/// "The queries", after case B.
fn add_queries(figures: &mut Figures) {
    let section = "The queries";
    let run = run_b();
    let slots = run.present().request_slot..run.present().base + 2;
    let owners: Vec<String> =
        slots.clone().map(|slot| format!("slot {slot}: {}", run.owner(slot))).collect();
    figures.phrase(section, format!("place 0, the owner or {IDLE} for idle"));
    let row = "owner (slot), from the request slot on";
    figures.cell(section, row, owners.join("; "));
    figures.phrase(section, "place 0, shortfall at the slot's start");
    let stands: Vec<String> =
        slots.map(|slot| screen::standing(&run.present(), DETECTOR, slot)).collect();
    let standing = format!("id {DETECTOR}, {}", stands.join("; "));
    figures.cell(section, "standing (id, slot), from the request slot on", standing);
    use numbers::{NOT_LISTED, NOT_SOUND, OUT_OF_RANGE, TOO_EARLY};
    let range = format!("a slot above {} or an id above {}", highest_slot(), IDS - 1);
    let stages = format!("They refuse {NOT_SOUND}; then {OUT_OF_RANGE}, {range}");
    figures.phrase(section, format!("{stages}; then {TOO_EARLY}; the standing"));
    figures.phrase(section, format!("query then {NOT_LISTED}, of an id that is not listed"));
}

/// "A line of the program".
fn add_line(figures: &mut Figures) {
    let section = "A line of the program";
    figures.phrase(section, "the ordinal counts requests from 1");
    figures.phrase(section, "length, 0 if refused");
    use numbers::*;
    let never = format!("{NOT_SOUND}, {AREA_TOO_SMALL} and {NOT_LISTED} never appear");
    figures.phrase(section, never);
    let last = format!("{ACCEPTED}, {WRONG_FIELD} to {SLOT_MISSED} and {LENGTHS_EXHAUSTED} do");
    let area = format!("its area has {AREA} bytes, and {NOT_LISTED} is a query's; {last}");
    figures.phrase(section, area);
    let ids = list_and([OVERFULL, SHORTFALL_TOO_LARGE]);
    figures.phrase(section, format!("(with {ids} an id, with {LENGTHS_EXHAUSTED} T)"));
    let (exhausted, missed) = around_e();
    let with = format!("E with T {exhausted} and with T {missed}");
    figures.phrase(section, format!("With C between them, and after them {with}"));
    let requests = [request_a(), bytes_c(), bytes_b(), bytes_e(exhausted), bytes_e(missed)];
    figures.block("lines of A, C, B and E", lines_of(&requests).join("\n"));
    figures.phrase(section, format!("a length above {}", thousands(LONGEST_FRAME)));
}
