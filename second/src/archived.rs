//! The figures of docs/DICTIONARY.md that are the lab network's: reading an archived answer, what a 3
//! tells, an answer a field at a time, and writing a request.

use crate::archive::{read_answer, tell_answer, tell_field, AnswerReader, FieldTold, SCHEDULE};
use crate::asking::{Asking, ENTRY, LONGEST_PLACE, SLOT_PLACE};
use crate::change::AREA;
use crate::figures::{code, hexadecimal, in_turn, list, list_and, list_with, thousands, Figures};
use crate::frames::frame;
use crate::numbers::{self, ACCEPTED, AREA_TOO_SMALL, ID_NOT_RISING, OUT_OF_RANGE, WRONG_FIELD};
use crate::records::{
    longest_field, share_field, slot_field, HEAD, TAG_LENGTH, TAG_OFFSET, TAG_OWNERS,
};
use crate::timetable::{
    IDS, LARGEST_BOUND, LARGEST_EXPONENT, LAST_SLOT, LONGEST_TRANSITION as LONGEST,
};
use crate::worked::{
    answer_b, asked_b, asking_b, bytes_b, bytes_with, ids, share, slots_from_records, DETECTOR,
    PUMP_LOOP, VALVE,
};

/// The figures of each part.
pub fn add_to(figures: &mut Figures) {
    add_every_fault(figures);
    add_schedule(figures);
    add_with_request(figures);
    add_bytes_told(figures);
    add_changed(figures);
    add_lost(figures);
    add_places(figures);
    add_read_all_the_same(figures);
    add_fields(figures);
    add_stays(figures);
    add_asked(figures);
    add_handed_in(figures);
    add_returned(figures);
    add_request_bytes(figures);
    add_refused(figures);
    add_out_of_range(figures);
    add_not_rising(figures);
    add_small_area(figures);
    add_indexes(figures);
    add_short(figures);
    add_since(figures);
}

/// The sections of the reader and of the writer.
const READING: &str = "Reading an archived answer";
const FIELDS: &str = "An answer a field at a time";
const WRITING: &str = "Writing a request";

/// The section on refused records.
fn told_by_3() -> String {
    format!("What a {WRONG_FIELD} tells the archive")
}

/// Case B's answer.
fn record_b() -> Vec<u8> {
    answer_b().1
}

/// The first byte of the owners' field, and of the first field of an id, in case B's answer.
fn owners_at() -> usize {
    longest_field(0).len()
}

/// The same of the field of the listed id number n.
fn id_at(n: usize) -> usize {
    owners_at() + HEAD + usize::from(record_b()[HEAD]) + n * (HEAD + 2)
}

/// The number and the place that reading a record gives, with an area of this many bytes.
fn read_into(record: &[u8], area: usize) -> (u8, u64) {
    tell_answer(record, &mut vec![0; area])
}

/// The same in words, with the area of a schedule.
fn number_at(record: &[u8]) -> String {
    let (number, place) = read_into(record, SCHEDULE);
    format!("{number} at {place}")
}

/// "What each number says": the one number of every fault of an answer.
fn add_every_fault(figures: &mut Figures) {
    let (section, b) = ("What each number says", record_b());
    let (owner, last) = (owners_at() + HEAD, id_at(2) + HEAD);
    let high = bytes_with(&b, owner, IDS as u8);
    let same = bytes_with(&b, last, DETECTOR);
    let row = format!("{}, an archived answer", read_into(&high, SCHEDULE).0);
    let others = list_and([OUT_OF_RANGE, ID_NOT_RISING]);
    let values = "every fault: also a value out of range and an id that does not rise";
    figures.phrase(section, format!("| {row} | {values}, which are {others} in a request"));
    let high = format!("B's answer with owner {IDS}: {}", number_at(&high));
    let same = format!("with its last id at {DETECTOR}: {}", number_at(&same));
    figures.cell(section, row, format!("{high}; {same}"));
}

/// "Reading an archived answer": the figures that case B's answer tells.
fn add_schedule(figures: &mut Figures) {
    let b = record_b();
    let schedule = read_answer(&b).unwrap_or_default();
    let (none, refused) = (read_into(&[], 0), read_into(&b, SCHEDULE - 1));
    figures.phrase(READING, format!("every other one is refused {} at its one place", none.0));
    let (number, place) = read_into(&b, SCHEDULE);
    let other = format!("in C {} too, an area under {SCHEDULE} bytes", refused.0);
    let read =
        format!("| number | {number} read; {} not in the controller's form; {other}", none.0);
    figures.phrase(READING, read);
    figures.cell(READING, "number", number);
    let shows = format!("| place | with {} where the fault shows (below)", none.0);
    let first = none.1;
    figures.phrase(
        READING,
        format!("{shows}; else {place} | byte of the record, counted from {first}"),
    );
    figures.cell(READING, "place", place);
    figures.phrase(READING, format!("| slots, 0 to {LONGEST} |"));
    figures.cell(READING, "length", schedule.owners.len());
    let (left, unused) = (LONGEST - schedule.owners.len(), unused_owner());
    let unused = list(unused);
    let places = format!("There are {LONGEST} places, and those that the transition does not have");
    figures.phrase(READING, format!("{places} are {unused}, which is an id too"));
    let owners = format!("{}, then {left} times {unused}", list(&schedule.owners));
    figures.cell(READING, "owners", owners);
    let listed = format!("the record has a field {TAG_OFFSET:x} for it");
    figures.phrase(READING, format!("{listed} | yes or no; in C 1 or 0 |"));
    let placed = || (0..).zip(&schedule.offsets).filter_map(|(id, at)| Some((id, (*at)?)));
    figures.cell(READING, "listed", format!("ids {}", list(placed().map(|(id, _): (u8, u8)| id))));
    figures.phrase(READING, "0 for an id that is not listed");
    figures.cell(READING, "offset", list(placed().map(|(_, offset)| offset)));
}

/// What is told of the transition slots that case B's transition does not have.
fn unused_owner() -> Vec<u8> {
    let told = read_answer(&record_b()).unwrap_or_default().told();
    in_turn(told[1 + usize::from(told[0])..1 + LONGEST].iter().copied())
}

/// "Reading an archived answer": the slots that case B's request and answer give together.
fn add_with_request(figures: &mut Figures) {
    let (asked, schedule) = (asked_b(), read_answer(&record_b()).unwrap_or_default());
    let periods = list(ids(&asked.listing).into_iter().map(|id| share(&asked.listing, id).period));
    let slot = asked.slot;
    figures.phrase(READING, format!("B's says slot {slot}, and the periods {periods}"));
    let had = (0..).zip(&schedule.owners).map(|(n, owner): (u64, _)| {
        format!("transition slot {n} is slot {}, and id {owner} had it", slot + n)
    });
    figures.phrase(READING, format!("So {}", list(had)));
    let (base, first) = slots_from_records(&bytes_b(), &record_b());
    let length = schedule.owners.len();
    figures.phrase(READING, format!("the base is {slot} + {length} = {base}"));
    let first =
        first.into_iter().map(|(id, own)| format!("{base} + {} = {own} for id {id}", own - base));
    figures.phrase(READING, format!("the first cyclic slots are {}", list(first)));
}

/// "Reading an archived answer": the bytes that are told in C.
fn add_bytes_told(figures: &mut Figures) {
    let told = read_answer(&record_b()).unwrap_or_default().told();
    figures.phrase(READING, format!("the schedule is {} bytes at the start", told.len()));
    figures.phrase(READING, format!("with {AREA_TOO_SMALL} or {WRONG_FIELD} all do"));
    let mut from = 0;
    let mut row = |size: usize, what: &str, text: &dyn Fn(&[u8]) -> String| {
        let bytes = match size {
            1 => from.to_string(),
            _ => format!("{from} to {}", from + size - 1),
        };
        figures.phrase(READING, format!("| {bytes} | {what} |"));
        figures.cell(READING, bytes, text(&told[from..from + size]));
        from += size;
    };
    row(1, "length", &code);
    row(LONGEST, "owners", &|bytes| with_zeros(bytes, usize::from(told[0])));
    let listed = ids(&asked_b().listing).len();
    row(IDS, "for each id 1 if it is listed, else 0", &|bytes| with_zeros(bytes, listed));
    row(IDS, "for each id its offset", &|bytes| with_zeros(bytes, listed));
}

/// The first bytes, and how many more there are, which are alike.
fn with_zeros(bytes: &[u8], shown: usize) -> String {
    let (first, rest) = bytes.split_at(shown);
    let alike: Vec<String> = in_turn(rest.iter()).iter().map(|&&byte| code(&[byte])).collect();
    format!("{}, then {} times {}", code(first), rest.len(), list(alike))
}

/// Case B's answer with one byte changed: the byte, what it is then, and what shows.
fn changes() -> Vec<(usize, u8, String)> {
    let b = record_b();
    let (owners, first, second) = (owners_at(), id_at(0), id_at(1));
    let not_above = || String::from("an id that is not above the one before");
    vec![
        (0, TAG_LENGTH + 1, String::from("another tag")),
        (2, b[2] + 1, String::from("another length of the field")),
        (HEAD, LONGEST as u8 + 1, format!("a transition length above {LONGEST}")),
        (HEAD, b[HEAD] + 1, String::from("fewer owners than the length says")),
        (owners + 2, b[owners + 2] + 1, String::from("more owners than the length says")),
        (owners + HEAD, IDS as u8, format!("an owner above {}", IDS - 1)),
        (first, TAG_OFFSET + 1, String::from("another tag")),
        (first + HEAD, IDS as u8, format!("an id above {}", IDS - 1)),
        (first + HEAD, b[second + HEAD], not_above()),
        (second + HEAD, b[first + HEAD], not_above()),
        (second + HEAD + 1, u8::MAX, String::from("nothing: any byte is an offset")),
    ]
}

/// "What a 3 tells the archive": case B's answer with one byte changed.
fn add_changed(figures: &mut Figures) {
    let (section, b) = (told_by_3(), record_b());
    figures.phrase(&section, &section);
    figures.phrase(&section, format!("So after a {WRONG_FIELD} the bytes"));
    let row = |(byte, is, shows): (usize, u8, String)| {
        let (number, place) = read_into(&bytes_with(&b, byte, is), SCHEDULE);
        format!("{byte:>4}   {:02x}  {is:02x}  {number:>6}  {place:>5}  {shows}", b[byte])
    };
    let head = String::from("byte  was  is  number  place  what shows");
    let rows: Vec<String> = [head].into_iter().chain(changes().into_iter().map(row)).collect();
    figures.block("B's answer with one byte changed", rows.join("\n"));
}

/// "What a 3 tells the archive": case B's answer with bytes lost or added.
fn add_lost(figures: &mut Figures) {
    let b = record_b();
    let first = |count: usize| (format!("its first {count} bytes"), b[..count].to_vec());
    let refused = [HEAD, owners_at(), owners_at() + HEAD, b.len() - 1].map(first);
    let more = [
        (String::from("with one byte more"), [&b[..], &[TAG_OFFSET]].concat()),
        (String::from("twice, one behind the other"), [&b[..], &b[..]].concat()),
        (format!("its whole area of {AREA} bytes"), [&b[..], &vec![0; AREA - b.len()]].concat()),
    ];
    let read = shorter_read().into_iter().map(first);
    let records = [(String::from("nothing"), Vec::new())].into_iter();
    let records = records.chain(refused).chain(more).chain(read);
    let row = |(name, record): (String, Vec<u8>)| {
        let (number, place) = read_into(&record, SCHEDULE);
        format!("{name:28}  {number:>6}  {place:>5}")
    };
    let head = format!("{:28}  number  place", "record");
    let rows: Vec<String> = [head].into_iter().chain(records.map(row)).collect();
    figures.block("B's answer with bytes lost or added", rows.join("\n"));
}

/// The lengths of the shorter records that begin like case B's answer and are read.
fn shorter_read() -> Vec<usize> {
    let b = record_b();
    (0..b.len()).filter(|&length| read_answer(&b[..length]).is_ok()).collect()
}

/// "What a 3 tells the archive": what stands at each place.
fn add_places(figures: &mut Figures) {
    let (section, b) = (told_by_3(), record_b());
    let (owners, last) = (owners_at(), IDS - 1);
    figures.phrase(&section, format!("| {WRONG_FIELD} at | What shows"));
    let length =
        format!("there is no whole field {TAG_LENGTH:x}, or its length is above {LONGEST}");
    figures.phrase(&section, format!("| 0 | {length} |"));
    figures.phrase(&section, format!("a request is {}, and so are", number_at(&bytes_b())));
    let (request, framed) = (number_at(&bytes_b()), number_at(&frame(&bytes_b())));
    let none = number_at(&[]);
    let others = format!("B's request: {request}; its frame: {framed}; an empty record: {none}");
    figures.cell(&section, 0, others);
    let as_many = format!("there is no whole field {TAG_OWNERS:x} with as many owners");
    figures
        .phrase(&section, format!("| {owners} | {as_many} as the length says, each 0 to {last}"));
    let count = list_and(owners + 1..owners + HEAD);
    let bytes = format!("the length (byte {HEAD}), the number of owners (bytes {count})");
    figures.phrase(&section, format!("{bytes}, the owners (from byte {} on)", owners + HEAD));
    let none = number_at(&bytes_with(&b, HEAD, 0));
    figures.cell(&section, owners, format!("byte {HEAD} is {}: {none}", hexadecimal(&[0])));
    let (behind, size) = (owners + HEAD, id_at(1) - id_at(0));
    let place = format!("{behind} + length + {size} n, n from 0 on");
    figures.phrase(&section, format!("| {place} | the field of the listed id number n"));
    figures.phrase(&section, format!("no field {TAG_OFFSET:x}; or its id is above {last}"));
    figures.phrase(&section, format!("all {AREA} bytes of the area were archived"));
    let (n, owner_count) = (1, b[HEAD]);
    let refused = number_at(&bytes_with(&b, id_at(n), 0));
    let at = format!("n {n}, {behind} + {owner_count} + {size} x {n}: {refused}");
    figures.cell(&section, place, at);
}

/// "What a 3 tells the archive": how many records with a damage are read.
fn add_read_all_the_same(figures: &mut Figures) {
    let (section, b) = (told_by_3(), record_b());
    let others = |byte: usize| (0..=u8::MAX).filter(move |&is| is != record_b()[byte]);
    let changed = || (0..b.len()).flat_map(|byte| others(byte).map(move |is| (byte, is)));
    let read = changed().filter(|&(byte, is)| read_answer(&bytes_with(&b, byte, is)).is_ok());
    let (all, read) = (thousands(changed().count()), thousands(read.count()));
    let of = format!("Of the {all} records that differ from B's answer in one byte");
    figures.phrase(&section, format!("{of} {read} are read"));
    figures.phrase(&section, format!("and id {VALVE} any id above {DETECTOR}"));
    let (shorter, read) = (b.len(), shorter_read());
    let of = format!("Of the {shorter} shorter ones that begin like it {} are read", read.len());
    figures.phrase(&section, format!("{of}, those of {} bytes", list_and(read)));
}

/// What a field tells, in words.
fn told(field: &FieldTold) -> String {
    let FieldTold { tag, first, second, .. } = field;
    match *tag {
        TAG_LENGTH => format!("the length is {first}"),
        TAG_OWNERS => format!("the number of owners is {first}"),
        TAG_OFFSET => format!("id {first} has offset {second}"),
        _ => String::from("nothing is left"),
    }
}

/// The places of a record with what is told there, from 0 on until the reader stays.
fn walk(record: &[u8]) -> Vec<(u64, FieldTold)> {
    let mut walk = Vec::new();
    let mut place = 0;
    loop {
        let field = tell_field(record, place);
        walk.push((place, field));
        if field.next == place {
            return walk;
        }
        place = field.next;
    }
}

/// "An answer a field at a time": case B's answer, place by place.
fn add_fields(figures: &mut Figures) {
    let walk = walk(&record_b());
    figures.phrase(FIELDS, format!("the record and a place, at first {}", walk[0].0));
    let row = |(place, field): &(u64, FieldTold)| {
        let FieldTold { number, tag, first, second, next, .. } = field;
        let bytes = format!("{tag:02x}  {first:>5}  {second:>6}");
        format!("{place:>5}  {number:>6}   {bytes}  {next:>4}  {}", told(field))
    };
    let head = String::from("place  number  tag  first  second  next  what it tells");
    let rows: Vec<String> = [head].into_iter().chain(walk.iter().map(row)).collect();
    figures.block("B's answer a field at a time", rows.join("\n"));
    let (_, end) = walk[walk.len() - 1];
    let left = format!("number {}, and in C tag {}, which no field has", end.number, end.tag);
    figures.phrase(FIELDS, left);
    figures.phrase(FIELDS, format!("a program begins at {} and", walk[0].0));
}

/// "An answer a field at a time": a field that is refused.
fn add_stays(figures: &mut Figures) {
    let b = record_b();
    let (byte, is) = (id_at(1) + HEAD, b[id_at(0) + HEAD]);
    let walk = walk(&bytes_with(&b, byte, is));
    let (_, FieldTold { number, place, tag, .. }) = walk[walk.len() - 1];
    figures.phrase(
        FIELDS,
        format!("After a {number}* the place stays as well, and in C the tag is {tag} too"),
    );
    let changed = format!("With byte {byte} of B's answer changed to {}", hexadecimal(&[is]));
    let which = ["first", "second", "third", "fourth", "fifth"][walk.len() - 1];
    figures.phrase(FIELDS, format!("{changed} the {which} call gives {number} at {place}"));
}

/// "An answer a field at a time": the owners, each by its transition slot.
fn add_asked(figures: &mut Figures) {
    let b = record_b();
    let reader = AnswerReader { record: &b, place: 0 };
    let count = usize::from(b[HEAD]);
    figures.phrase(FIELDS, format!("is byte {} + n of the record", owners_at() + HEAD));
    let had = (0..count).map(|slot| {
        let owner = list(reader.owner(slot));
        format!("transition slot {slot} is that of id {owner}")
    });
    let lacks = format!("transition slot {count}, which the transition does not have");
    let none = reader.owner(count).unwrap_or(unused_owner()[0]);
    figures.phrase(FIELDS, format!("B: {}, and {lacks}, is told as {none}", list(had)));
}

/// A listing of all ids, and how many more entries behind it, each of the last id.
fn all_ids(more: usize) -> Asking {
    let all = (0..IDS as u8).chain(vec![IDS as u8 - 1; more]);
    let listing = all.flat_map(|id| [id, LARGEST_EXPONENT, LARGEST_BOUND]).collect();
    Asking { slot: 0, longest: 0, listing }
}

/// What writing returns, with an area of this many bytes, and the record.
fn written(asking: &Asking, area: usize) -> (u8, u64, Vec<u8>) {
    let mut area = vec![0; area];
    let (number, place, written) = asking.write(&mut area);
    area.truncate(written);
    (number, place, area)
}

/// The number and the place in words, with an area of this many bytes.
fn written_at(asking: &Asking, area: usize) -> String {
    let (number, place, _) = written(asking, area);
    format!("{number} at {place}")
}

/// The most bytes that a request has.
fn longest_request() -> usize {
    written(&all_ids(0), 16 * IDS).2.len()
}

/// The bytes of a request that lists nothing, and the bytes of one entry more.
fn request_bytes() -> (usize, usize) {
    let of = |entries: usize| {
        let listing = asking_b().listing[..entries * ENTRY].to_vec();
        written(&Asking { listing, ..asking_b() }, longest_request()).2.len()
    };
    (of(0), of(1) - of(0))
}

/// The highest slot as a power of two.
fn highest_slot() -> String {
    format!("2^{} - 1", (LAST_SLOT + 1).trailing_zeros())
}

/// "Writing a request": what is handed in, for case B.
fn add_handed_in(figures: &mut Figures) {
    let (b, last) = (asking_b(), IDS - 1);
    let never = list_with([WRONG_FIELD, OUT_OF_RANGE, ID_NOT_RISING], "or");
    figures.phrase(WRITING, format!("never refused {never};"));
    use numbers::{LENGTHS_EXHAUSTED, NOT_SOUND, OVERFULL, SLOT_MISSED, TOO_EARLY};
    let later = format!("{TOO_EARLY} to {SLOT_MISSED} and {LENGTHS_EXHAUSTED}");
    let given = format!("{NOT_SOUND}, {AREA_TOO_SMALL}, {later} are the controller's to give");
    figures.phrase(WRITING, format!("another matter: {given}, {OVERFULL} among them"));
    figures.phrase(WRITING, format!("| slot | the request slot | 0 to {} |", highest_slot()));
    figures.cell(WRITING, "slot", b.slot);
    figures.phrase(WRITING, format!("| T | the longest transition allowed | 0 to {LONGEST} |"));
    figures.cell(WRITING, "T", b.longest);
    figures.phrase(WRITING, format!("an empty one is allowed | 0 to {IDS} entries |"));
    figures.cell(WRITING, "listing", code(&b.listing));
    let of = |which: usize| list(b.listing.iter().skip(which).step_by(ENTRY));
    figures.phrase(WRITING, format!("above that of the entry before | 0 to {last} |"));
    figures.cell(WRITING, "entry, first byte", format!("ids {}", of(0)));
    figures.phrase(WRITING, format!("one slot in every 2^k | 0 to {LARGEST_EXPONENT} |"));
    figures.cell(WRITING, "entry, second byte", format!("k {}", of(1)));
    figures.phrase(WRITING, format!("R, always given | 1 to {LARGEST_BOUND} |"));
    figures.cell(WRITING, "entry, third byte", format!("R {}", of(2)));
}

/// "Writing a request": what is returned for case B.
fn add_returned(figures: &mut Figures) {
    let b = asking_b();
    let (number, place, record) = written(&b, longest_request());
    let refusals = list_with([AREA_TOO_SMALL, OUT_OF_RANGE, ID_NOT_RISING], "or");
    figures.phrase(WRITING, format!("| number | {number} written, or {refusals}: the table"));
    figures.cell(WRITING, "number", number);
    let placed = format!("with {OUT_OF_RANGE} and {ID_NOT_RISING} what is refused");
    let ranges = format!("0 to {}, {SLOT_PLACE} or {LONGEST_PLACE}", last_index());
    figures.phrase(WRITING, format!("| {placed}: the table below; else {place} | {ranges} |"));
    figures.cell(WRITING, "place", place);
    let ((head, entry), entries) = (request_bytes(), b.listing.len() / ENTRY);
    let refused = written(&b, 0).2.len();
    let length = format!("the record's length: {head} + {entry} n for n entries");
    figures.phrase(WRITING, format!("{length}; {refused} with a refusal"));
    figures.phrase(WRITING, format!("| {head} to {} bytes |", longest_request()));
    let sum = format!("{head} + {entry} x {entries} = {}", record.len());
    figures.cell(WRITING, "bytes written", sum);
}

/// The largest index of an entry that is refused: that of the first entry too many.
fn last_index() -> u64 {
    written(&all_ids(8), longest_request()).1
}

/// "Writing a request": case B's record, field by field, and what its frame has in front.
fn add_request_bytes(figures: &mut Figures) {
    let b = asking_b();
    let record = written(&b, longest_request()).2;
    let mut fields = vec![
        (slot_field(b.slot).len(), format!("slot {}", b.slot)),
        (longest_field(b.longest).len(), format!("T {}", b.longest)),
    ];
    let entry = |(index, entry): (usize, &[u8])| {
        let [id, k, bound] = [0, 1, 2].map(|byte| entry[byte]);
        let asks = format!("id {id}, k {k}, R {bound}");
        let from = format!("entry {index}, {}: {asks}", hexadecimal(entry));
        (share_field(id, k, Some(bound)).len(), from)
    };
    fields.extend(b.listing.chunks(ENTRY).enumerate().map(entry));
    let mut rows = vec![format!("{:8}  {:32}  from", "bytes", "written")];
    let mut at = 0;
    for (size, from) in fields {
        let bytes = format!("{at} to {}", at + size - 1);
        rows.push(format!("{bytes:8}  {:32}  {from}", hexadecimal(&record[at..at + size])));
        at += size;
    }
    figures.block("B's request written", rows.join("\n"));
    let framed = frame(&record);
    let head = &framed[..framed.len() - record.len()];
    let front = format!("{} bytes in front, {}", head.len(), code(head));
    figures.phrase(WRITING, format!("still gets {front} for these {}", record.len()));
}

/// "Writing a request": a slot and a T that are refused.
fn add_refused(figures: &mut Figures) {
    let (b, enough) = (asking_b(), longest_request());
    figures.phrase(WRITING, format!("an entry {OUT_OF_RANGE} comes before {ID_NOT_RISING}"));
    let late = Asking { slot: LAST_SLOT + 1, ..b.clone() };
    let row = written_at(&late, enough);
    figures.phrase(WRITING, format!("| {row} | the slot is above {}", highest_slot()));
    figures.phrase(WRITING, "a number below 0 that");
    let power = late.slot.trailing_zeros();
    figures.cell(WRITING, &row, format!("B at slot 2^{power}: {row}"));
    let long = Asking { longest: LONGEST as u8 + 1, ..b };
    let row = written_at(&long, enough);
    let most = format!("T is above {LONGEST}: no transition is longer. Ask with {LONGEST} at most");
    figures.phrase(WRITING, format!("| {row} | {most}. In C T is one byte"));
    let (largest, wide) = (u8::MAX, u32::from(u8::MAX) + 1);
    let test = format!("test a number above {largest} before it is handed in");
    figures.phrase(WRITING, format!("{test}, since {wide} arrives there as T {}", wide as u8));
    figures.cell(WRITING, &row, format!("B with T {}: {row}", long.longest));
}

/// Case B's listing with one byte of an entry changed.
fn with_entry(index: usize, byte: usize, is: u8) -> Asking {
    let b = asking_b();
    Asking { listing: bytes_with(&b.listing, index * ENTRY + byte, is), ..b }
}

/// "Writing a request": entries out of range or cut short.
fn add_out_of_range(figures: &mut Figures) {
    let (b, enough) = (asking_b(), longest_request());
    let row = format!("{OUT_OF_RANGE} at 0 to {}", last_index());
    let bytes = format!("bytes {ENTRY} x place to {ENTRY} x place + {}", ENTRY - 1);
    let (id, k) = (IDS - 1, LARGEST_EXPONENT);
    let above = format!("its id is above {id}, its k above {k}, its R 0 or above {LARGEST_BOUND}");
    let of = format!("the entry with this index, {bytes} of the listing: {above}");
    figures.phrase(WRITING, format!("| {row} | {of}, or the listing"));
    figures.phrase(WRITING, format!("is {ENTRY} bytes for each entry |"));
    let large = LARGEST_EXPONENT + 1;
    let long = written_at(&with_entry(usize::from(DETECTOR), 1, large), enough);
    let none = written_at(&with_entry(usize::from(VALVE), 2, 0), enough);
    let short = b.listing.len() - 1;
    let cut = Asking { listing: b.listing[..short].to_vec(), ..b };
    let cut = format!("the first {short} bytes of B's listing: {}", written_at(&cut, enough));
    let long = format!("B with k {large} for id {DETECTOR}: {long}");
    figures.cell(WRITING, row, format!("{long}; with R 0 for id {VALVE}: {none}; {cut}"));
}

/// "Writing a request": entries whose ids do not rise.
fn add_not_rising(figures: &mut Figures) {
    let (b, enough) = (asking_b(), longest_request());
    let row = format!("{ID_NOT_RISING} at 1 to {}", last_index());
    figures.phrase(WRITING, format!("| {row} | the entry with this index"));
    let mut entries: Vec<&[u8]> = b.listing.chunks(ENTRY).collect();
    let twice = Asking { listing: [entries[0], entries[0]].concat(), ..b.clone() };
    let last = entries.len() - 1;
    entries.swap(last - 1, last);
    let exchanged = Asking { listing: entries.concat(), ..b.clone() };
    let exchanged = written_at(&exchanged, enough);
    let twice = format!("id {PUMP_LOOP} twice: {}", written_at(&twice, enough));
    let text = format!("B with its last two entries exchanged: {exchanged}; {twice}");
    figures.cell(WRITING, row, text);
}

/// "Writing a request": an area that is too short.
fn add_small_area(figures: &mut Figures) {
    let (b, enough) = (asking_b(), longest_request());
    let size = written(&b, enough).2.len();
    let (row, fits) = (written_at(&b, size - 1), written_at(&b, size));
    let (head, entry) = request_bytes();
    figures.phrase(WRITING, format!("| {row} | slot, T and listing are good"));
    figures.phrase(WRITING, format!("lend {head} + {entry} n bytes, or {enough}, which"));
    let into = format!("B into {} bytes: {row}; into {size}: {fits}", size - 1);
    figures.cell(WRITING, row, into);
}

/// "Writing a request": what a place counts, and the entry that is always too many.
fn add_indexes(figures: &mut Figures) {
    let (head, entry) = request_bytes();
    let fields = list_and([WRONG_FIELD, OUT_OF_RANGE, ID_NOT_RISING]);
    figures.phrase(WRITING, format!("the controller's {fields} count bytes"));
    figures.phrase(WRITING, format!("begins at byte {head} + {entry} n. There are {IDS} ids"));
    let index = last_index();
    figures.phrase(WRITING, format!("so a {}rd entry, index {index}, is always", index + 1));
}

/// "Writing a request": the short field, which is never written.
fn add_short(figures: &mut Figures) {
    let [id, k, bound] = [0, 1, 2].map(|byte| asking_b().listing[byte]);
    let head = hexadecimal(&share_field(id, k, None)[..HEAD]);
    figures.phrase(WRITING, format!("The short field `{head} id k` does not"));
    let none = written(&with_entry(usize::from(id), 2, 0), longest_request()).0;
    let refused = if none == ACCEPTED { "written" } else { "refused" };
    let third = format!("gives {bound} as the third byte, not 0, which is {refused}");
    figures.phrase(WRITING, format!("One that wants R {bound} {third}"));
}

/// "Earlier meanings": the numbers that come from reading and writing too.
fn add_since(figures: &mut Figures) {
    let numbers = list_and([AREA_TOO_SMALL, WRONG_FIELD, OUT_OF_RANGE, ID_NOT_RISING]);
    figures.phrase("Earlier meanings", format!("since then {numbers} come from reading"));
}
