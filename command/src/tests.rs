//! Tests of what the command reads, says and draws. Those of the whole command are in `command/test`.

use crate::controller::Controller;
use crate::decode::decode;
use crate::explain;
use crate::frames::{put_frame, Frames, Next};
use crate::image::Image;
use crate::picture::{Around, History, Names, Picture};
use crate::requests::Where;
use crate::stop::Verdict;
use crate::svg::Svg;
use crate::terminal::Terminal;
use crate::text::{encode, spot, Encoded, Spot};
use crate::words::{column, hex, number, shown};
use std::io::{self, Read};

/// A source of random numbers, splitmix64.
struct Random(u64);

impl Random {
    /// The next number.
    fn next(&mut self) -> u64 {
        self.0 = self.0.wrapping_add(0x9e37_79b9_7f4a_7c15);
        let mut mixed = self.0;
        mixed = (mixed ^ mixed >> 30).wrapping_mul(0xbf58_476d_1ce4_e5b9);
        mixed = (mixed ^ mixed >> 27).wrapping_mul(0x94d0_49bb_1331_11eb);
        mixed ^ mixed >> 31
    }

    /// A number below a limit.
    fn below(&mut self, limit: u64) -> u64 {
        self.next() % limit
    }

    /// A number of any size up to 64 bits.
    fn any(&mut self) -> u64 {
        let shift = self.below(64);
        self.next() >> shift
    }

    /// The text of a request, in the form that decoding gives.
    fn request(&mut self) -> String {
        let mut text = format!("request slot {} T {}\n", self.any(), self.below(256));
        for _ in 0..self.below(34) {
            text.push_str(&format!("list {} k {}", self.below(256), self.below(256)));
            if self.below(2) == 0 {
                text.push_str(&format!(" R {}", self.below(256)));
            }
            text.push('\n');
        }
        text
    }

    /// Some bytes.
    fn bytes(&mut self, most: u64) -> Vec<u8> {
        (0..self.below(most + 1)).map(|_| self.next() as u8).collect()
    }
}

/// The frames of a text that is understood.
fn frames_of(text: &str) -> Vec<u8> {
    encode(text.as_bytes()).expect(text).frames
}

/// What is said of a text that is not understood.
fn said(text: &[u8]) -> String {
    encode(text).expect_err("a fault").told("f")
}

/// Texts of random requests, with slots of up to 64 bits and values of any byte, come back.
#[test]
fn texts_of_requests_come_back() {
    let mut random = Random(1);
    for _ in 0..3000 {
        let text: String = (0..random.below(4)).map(|_| random.request()).collect();
        assert_eq!(decode(&frames_of(&text)), text);
    }
    for slot in [0, 1 << 53, (1 << 53) + 1, u64::MAX - 1, u64::MAX] {
        let text = format!("request slot {slot} T 255\n");
        assert_eq!(decode(&frames_of(&text)), text);
        assert_eq!(frames_of(&text)[6..14], slot.to_be_bytes());
    }
}

/// Bytes come back, be they frames of requests, of other records, damaged or no frames at all.
#[test]
fn bytes_come_back() {
    let mut random = Random(2);
    for round in 0..3000 {
        let mut bytes = Vec::new();
        for _ in 0..random.below(4) {
            match random.below(3) {
                0 => bytes.extend(frames_of(&random.request())),
                1 => put_frame(&mut bytes, &random.bytes(40)),
                _ if round % 3 == 0 => bytes.extend(random.bytes(9)),
                _ => {}
            }
        }
        if let (true, Some(last)) = (round % 2 == 0, bytes.len().checked_sub(1)) {
            let at = random.below(last as u64 + 1) as usize;
            bytes[at] = random.next() as u8;
            bytes.truncate(last);
        }
        assert_eq!(frames_of(&decode(&bytes)), bytes);
    }
    let mut long = Vec::new();
    put_frame(&mut long, &[7; 4097]);
    assert!(decode(&long)
        .starts_with("# longer than 4,096 bytes: a bad frame for the program\nbytes 07 07"));
    assert_eq!(frames_of(&decode(&long)), long);
    assert_eq!(
        decode(b"\x40\x00\x00\x41\x00"),
        "bytes\n# no whole frame from byte 3 on\nrest 41 00\n"
    );
}

/// A request whose values are in range is written by the library, and so are its fields as they are said.
#[test]
fn fields_are_the_writers() {
    let mut random = Random(3);
    for _ in 0..3000 {
        let ids: Vec<u8> = (0..32).filter(|_| random.below(3) == 0).collect();
        let listing: Vec<[u8; 3]> =
            ids.iter().map(|&id| [id, random.below(9) as u8, 1 + random.below(8) as u8]).collect();
        let (slot, limit) = (random.below(1 << 48), random.below(65) as u8);
        let mut area = [0; tarnflaw::REQUEST];
        let told = tarnflaw::write_request(slot, limit, &listing.concat(), &mut area);
        assert_eq!(told.number, 0);
        let asked: Vec<_> = listing.iter().map(|&[id, k, bound]| (id, k, Some(bound))).collect();
        assert_eq!(crate::text::fields_of(slot, limit, &asked), area[..told.written]);
    }
}

/// What a person may write beside the form that decoding gives.
#[test]
fn comments_blanks_and_zeros() {
    let text =
        "# all\n\n  request\tslot 007 T 255   # refused\nlist 255 k 255 R 255#\nlist 040 k 9";
    assert_eq!(
        decode(&frames_of(text)),
        "request slot 7 T 255\nlist 255 k 255 R 255\nlist 40 k 9\n"
    );
    assert_eq!(frames_of("bytes 0A fF\nrest 40"), [0x40, 0, 2, 0x0a, 0xff, 0x40]);
    assert_eq!(frames_of(""), []);
    assert_eq!(frames_of(&format!("bytes{}\n", " 00".repeat(65535))).len(), 65538);
}

/// Each message of a wrong line: where, what, and what was expected.
#[test]
fn messages_of_wrong_lines() {
    let slot = "the slot, a number from 0 to 18446744073709551615, was expected";
    let byte = |name: &str| format!("{name}, a number from 0 to 255, was expected");
    let hex = "a byte, two hex digits, was expected";
    let ends = "the end of the line was expected";
    let wrong: Vec<(&str, usize, String)> = vec![
        (
            "Request slot 6 T 1",
            1,
            "'Request', and request, list, bytes or rest was expected".into(),
        ),
        ("frame 01", 1, "'frame', and request, list, bytes or rest was expected".into()),
        ("  6", 3, "'6', and request, list, bytes or rest was expected".into()),
        ("request", 8, "the line ends here, and slot was expected".into()),
        ("request # slot 6", 8, "the line ends here, and slot was expected".into()),
        ("request at 6 T 1", 9, "'at', and slot was expected".into()),
        ("request T 1 slot 6", 9, "'T', and slot was expected".into()),
        ("request slot", 13, format!("the line ends here, and {slot}")),
        ("request slot six T 1", 14, format!("'six', and {slot}")),
        ("request slot -6 T 1", 14, format!("'-6', and {slot}")),
        ("request slot 6.0 T 1", 14, format!("'6.0', and {slot}")),
        ("request slot 0x6 T 1", 14, format!("'0x6', and {slot}")),
        (
            "request slot 18446744073709551616 T 1",
            14,
            format!("'18446744073709551616', and {slot}"),
        ),
        ("request slot 6", 15, "the line ends here, and T was expected".into()),
        ("request slot 6 S 1", 16, "'S', and T was expected".into()),
        ("request slot 6 T", 17, format!("the line ends here, and {}", byte("T"))),
        ("request slot 6 T 256", 18, format!("'256', and {}", byte("T"))),
        ("request slot 6 T 1 1", 20, format!("'1', and {ends}")),
        ("list", 5, format!("the line ends here, and {}", byte("the id"))),
        ("list one k 2 R 1", 6, format!("'one', and {}", byte("the id"))),
        ("list 256 k 2 R 1", 6, format!("'256', and {}", byte("the id"))),
        ("list 1", 7, "the line ends here, and k was expected".into()),
        ("list 1 R 2 k 1", 8, "'R', and k was expected".into()),
        ("list 1 k", 9, format!("the line ends here, and {}", byte("k"))),
        ("list 1 k two", 10, format!("'two', and {}", byte("k"))),
        ("list 1 k 2 S 1", 12, "'S', and R, or the end of the line, was expected".into()),
        ("list 1 k 2 R", 13, format!("the line ends here, and {}", byte("R"))),
        ("list 1 k 2 R 999", 14, format!("'999', and {}", byte("R"))),
        ("list 1 k 2 R 1 1", 16, format!("'1', and {ends}")),
        ("bytes 1", 7, format!("'1', and {hex}")),
        ("bytes 01 0x", 10, format!("'0x', and {hex}")),
        ("bytes 001", 7, format!("'001', and {hex}")),
        ("rest", 5, format!("the line ends here, and {hex}")),
        ("rest 4", 6, format!("'4', and {hex}")),
        ("list 1 k 2 R 1\r", 15, "a carriage return, and line feeds alone were expected".into()),
        ("# ü, and then\r", 14, "a carriage return, and line feeds alone were expected".into()),
        ("ü\tbytes", 1, "'ü', and request, list, bytes or rest was expected".into()),
    ];
    for (line, column, expected) in wrong {
        let text =
            format!("request slot 6 T 1 # good\nlist 0 k 2 R 1\n{line}\nrequest slot 7 T 1\n");
        assert_eq!(said(text.as_bytes()), format!("f:3:{column}: {expected}"));
    }
}

/// The messages that depend on the lines before, and on the first bytes.
#[test]
fn messages_of_wrong_texts() {
    let list = "list, and a request before it was expected";
    assert_eq!(said(b"list 0 k 2 R 1\n"), format!("f:1:1: {list}"));
    assert_eq!(said(b"# none\n\nbytes 01\n list 0 k 2\n"), format!("f:4:2: {list}"));
    assert_eq!(
        said(b"rest 41\n# fine\nbytes\n"),
        "f:3:1: a line behind the rest, and nothing more was expected"
    );
    let mark = "f:1:1: a byte order mark, and a text without one was expected";
    for start in [&b"\xef\xbb\xbfrequest slot 6 T 1\n"[..], b"\xff\xfe#\0\n\0", b"\xfe\xff\0#"] {
        assert_eq!(said(start), mark);
    }
    let long = "a record of over 65535 bytes, and no more was expected";
    assert_eq!(
        said(format!("\nbytes{}\n", " 00".repeat(65536)).as_bytes()),
        format!("f:2:1: {long}")
    );
    let listed = format!("request slot 0 T 0\n{}", "list 1 k 2 R 3\n".repeat(10921));
    assert_eq!(said(listed.as_bytes()), format!("f:10922:1: {long}"));
}

/// Nothing of a word that is shown is taken for a command by a terminal, and a long one is cut.
#[test]
fn words_are_shown_plainly() {
    assert_eq!(shown(b"\x1b[2J"), "\\u{1b}[2J");
    assert_eq!(shown(&[b'x'; 41]), format!("{}..", "x".repeat(40)));
    assert_eq!(column("ü x".as_bytes(), 3), 3);
    assert_eq!(
        (number(b"18446744073709551615"), number(b"+1"), number(b"")),
        (Some(u64::MAX), None, None)
    );
    assert_eq!((hex(b"fF"), hex(b"f"), hex(b"+f")), (Some(255), None, None));
}

/// The word of a text that says a byte of a record.
#[test]
fn spots_of_bytes() {
    let text =
        b"# one\nrequest slot 6 T 1\n\n  list 0 k 2 R 1 # pump\nlist 1 k 3\nbytes 01 00\nrest 40 00\n";
    let Encoded { origins, rest, .. } = encode(text).expect("a text");
    let at = |request: usize, byte| spot(text, origins[request], byte);
    let word = |line, column, word| Some(Spot { line, column, word });
    assert_eq!((at(0, 0), at(0, 10), at(0, 14)), (word(2, 14, 3), word(2, 14, 3), word(2, 18, 5)));
    assert_eq!((at(0, 15), at(0, 18)), (word(4, 3, 1), word(4, 8, 2)));
    assert_eq!((at(0, 19), at(0, 20)), (word(4, 12, 4), word(4, 16, 6)));
    assert_eq!((at(0, 21), at(0, 25), at(0, 26)), (word(5, 1, 1), word(5, 10, 4), word(5, 11, 5)));
    assert_eq!((at(1, 1), at(1, 2)), (word(6, 10, 3), word(6, 12, 4)));
    let (origin, from) = rest.expect("a rest");
    assert_eq!(
        (from, spot(text, origin, 0), spot(text, origin, 1)),
        (34, word(7, 6, 2), word(7, 9, 3))
    );
}

/// An input that gives a few bytes at a time.
struct Drops<'a>(&'a [u8], usize);

impl Read for Drops<'_> {
    fn read(&mut self, into: &mut [u8]) -> io::Result<usize> {
        let count = self.1.min(self.0.len()).min(into.len());
        into[..count].copy_from_slice(&self.0[..count]);
        self.0 = &self.0[count..];
        Ok(count)
    }
}

/// The frames of an input, however it comes, and how it ends.
fn told_by_frames(bytes: &[u8], at_a_time: usize) -> (Vec<Vec<u8>>, String) {
    let mut frames = Frames::of(Drops(bytes, at_a_time));
    let mut contents = Vec::new();
    loop {
        match frames.next().expect("a read") {
            Next::Frame(content, at) => {
                assert_eq!(bytes[at as usize..at as usize + content.len()], *content);
                contents.push(content.to_vec());
            }
            Next::End => return (contents, String::new()),
            Next::Bad(byte, said) => return (contents, format!("{byte}: {said}")),
        }
    }
}

/// Frames are told whole, however they come in; where none is, it is said at which byte and why.
#[test]
fn frames_one_by_one() {
    let mut random = Random(4);
    let records: Vec<Vec<u8>> = (0..300).map(|_| random.bytes(4096)).collect();
    let mut bytes = Vec::new();
    records.iter().for_each(|record| put_frame(&mut bytes, record));
    for at_a_time in [1, 7, 4096, 1 << 20] {
        assert_eq!(told_by_frames(&bytes, at_a_time), (records.clone(), String::new()));
    }
    let bad = |bytes: &[u8]| told_by_frames(bytes, 2).1;
    assert_eq!(bad(b"\x40\0\0\x41\0"), "3: byte 41, and the tag of a frame, 40, was expected");
    assert_eq!(bad(b"\x40\x10\x01"), "0: a frame of 4097 bytes, and at most 4096 were expected");
    assert_eq!(bad(b"\x40\0"), "0: the input ends after 2 bytes of a frame, and 3 were expected");
    assert_eq!(
        bad(b"\x40\0\x02\x01"),
        "0: the input ends after 4 bytes of a frame, and 5 were expected"
    );
}

/// The requests of cases A and B, and some that are refused, with the sentence for each. The figures are those of `docs/DICTIONARY.md`.
#[test]
fn sentences() {
    let a = "request slot 0 T 0\nlist 0 k 2 R 1\nlist 1 k 2 R 1\n";
    let b = "request slot 6 T 1\nlist 0 k 2 R 1\nlist 1 k 2 R 1\nlist 2 k 1 R 2\n";
    let d = |slot, limit, field| {
        format!("request slot {slot} T {limit}\nlist 0 k 2 R 1\nlist 1 k 2 R 1\n{field}\n")
    };
    let left = "request slot 8 T 0\nlist 0 k 2 R 1\nlist 1 k 2 R 1\n";
    let no_length = "Ask at a later slot, with a larger R, or with a smaller share (a larger k).";
    let eight =
        "refused 8, shortfall at the request slot not below 256 x new R: id 2 stands at 256";
    let returns = "Ask with a larger R in full: a short field asks R 1 of an id that returns.";
    let four = "refused 4, value out of range:";
    let told: Vec<(Vec<&str>, String, String)> = vec![
        (vec![], a.into(), "accepted at slot 0 with length 0: no transition; the base is slot 0; offsets id 0: 3, id 1: 2.".into()),
        (vec![a], b.into(), "accepted at slot 6 with length 1: the transition gives slot 6 to id 1; the base is slot 7; offsets id 0: 0, id 1: 2, id 2: 1.".into()),
        (vec![], "request slot 3 T 0".into(), "accepted at slot 3 with length 0: no transition; the base is slot 3; nothing is listed.".into()),
        (vec![], "bytes".into(), "refused 3, field cut off, missing, unknown, out of order or of wrong length: the record ends, and field 01, the slot, is due: 01 00 08 and 8 bytes (line 1, word 2; byte 0 of the record). Mend that field: a request is field 01, field 02, and a field 03 for each id.".into()),
        (vec![], "bytes 01 00 08 00 00 00 00 00 00 00 00 03".into(), "refused 3, field cut off, missing, unknown, out of order or of wrong length: no whole field 02, T, stands here: 02 00 01 and 1 byte (line 1, word 13; byte 11 of the record). Mend that field: a request is field 01, field 02, and a field 03 for each id.".into()),
        (vec![], "request slot 281474976710656 T 0".into(), format!("{four} slot 281474976710656 is above 281474976710655 (line 1, word 3; byte 0 of the record). Slots are the controller's count, at most 2^48 - 1.")),
        (vec![], "request slot 0 T 65".into(), format!("{four} T 65 is above 64 (line 1, word 5; byte 11 of the record). Ask with T 64 at most.")),
        (vec![], "request slot 0 T 0\nlist 32 k 9 R 0".into(), format!("{four} id 32 is not 0 to 31 (line 2, word 2; byte 15 of the record). Ask for an id from 0 to 31.")),
        (vec![], "request slot 0 T 0\nlist 3 k 9 R 0".into(), format!("{four} k 9 of id 3 is not 0 to 8 (line 2, word 4; byte 15 of the record). Ask with a k from 0 to 8.")),
        (vec![], "request slot 0 T 0\nlist 3 k 8\nlist 4 k 8 R 9".into(), format!("{four} R 9 of id 4 is not 1 to 8 (line 3, word 6; byte 20 of the record). Ask with an R from 1 to 8, or by a short field.")),
        (vec![], "request slot 0 T 0\nlist 3 k 8\nlist 3 k 8".into(), "refused 5, id not above the one before: id 3 stands behind one that is not below it (line 3, word 2; byte 20 of the record). Put the ids in rising order, each id once.".into()),
        (vec![a, b], b.into(), "refused 6, slot too early: slot 6 lies before slot 7, the base of the timetable that was accepted last (line 1, word 3; byte 0 of the record). Ask for slot 7 or a later one.".into()),
        (vec![], "request slot 0 T 0\nlist 4 k 0 R 1\nlist 9 k 8 R 1".into(), "refused 7, weights sum above 256: the weights up to id 9 sum above 256 (line 3, word 2; byte 21 of the record). Ask for a smaller share (a larger k), or leave an id out.".into()),
        (vec![a, b], d(8, 0, "list 2 k 1 R 1"), format!("{eight} at slot 8, and R 1 is asked (line 4, word 6; byte 27 of the record). Ask with a larger R, or by a short field, which leaves R as before.")),
        (vec![a, b, left], d(20, 0, "list 2 k 1 R 1"), format!("{eight}, with which it left, at slot 20, and R 1 is asked (line 4, word 6; byte 27 of the record). {returns}")),
        (vec![a, b, left], d(8, 0, "list 2 k 1"), format!("{eight}, with which it left, at slot 8, and R 1 is asked (line 4, word 1; byte 27 of the record). {returns}")),
        (vec![a, b], d(9, 64, "list 2 k 1 R 1"), format!("refused 9, a transition slot below T is missed, no length up to it gives a schedule: transition slot 2, slot 11, is missed: more than one partition needs it; lengths 0 to 2 were searched, and a larger T gives the same answer (line 1, word 3; byte 0 of the record). {no_length}")),
        (vec![a, b], d(9, 2, "list 2 k 1 R 1"), "refused 11, no length up to T gives a schedule, all were searched: lengths 0 to 2 were searched in vain, and T is 2 (line 1, word 5; byte 11 of the record). Raise T, to 64 at most; the shortest transition is given, whatever T is.".into()),
    ];
    for (before, request, expected) in told {
        assert_eq!(sentence(&before, &request), expected);
    }
}

/// The sentence for a request put behind others, as a text that has it alone is told of it.
fn sentence(before: &[&str], request: &str) -> String {
    let mut controller = Controller::empty();
    for earlier in before {
        assert_eq!(controller.put(&frames_of(earlier)[3..]).number, 0, "{earlier}");
    }
    let encoded = encode(request.as_bytes()).expect(request);
    let record = &encoded.frames[3..];
    let told = controller.put(record);
    if told.number == 0 {
        return explain::accepted(&controller.image);
    }
    let place =
        |byte, _| Where::Text(spot(request.as_bytes(), encoded.origins[0], byte).expect("a spot"));
    explain::refused(&controller.image, record, told, place)
}

/// T 64 is the largest there is, and a base above the last slot the last one.
#[test]
fn sentences_at_the_limits() {
    let exhausted = tarnflaw::Change { number: 11, place: 64, tries: 65, written: 0 };
    let record = &frames_of("request slot 9 T 64\n")[3..];
    let told = explain::refused(&Image::empty(), record, exhausted, |_, field| {
        Where::Byte(3 + field as u64)
    });
    assert!(told.ends_with("T is 64 (byte 14 of the frames; byte 11 of the record). Ask at a later slot, with a larger R, or with a smaller share (a larger k)."), "{told}");
    let mut image = Image::empty();
    image.0[73..81].copy_from_slice(&(tarnflaw::LAST_SLOT + 1).to_be_bytes());
    let early = tarnflaw::Change { number: 6, place: 0, tries: 0, written: 0 };
    let told = explain::refused(&image, record, early, |_, _| Where::Byte(3));
    assert!(told.ends_with("No slot that can be asked for is late enough."), "{told}");
}

/// The pictures of the requests of texts, each of which is accepted.
fn pictures(texts: &[String], around: Around) -> Vec<Picture> {
    let mut controller = Controller::empty();
    let mut history = History::empty(around);
    let mut accept = |text: &String| {
        assert_eq!(
            Verdict::of(controller.put(&frames_of(text)[3..]).number),
            Verdict::Done,
            "{text}"
        );
        history.accept(&controller.image);
        history.picture(controller.ordinal)
    };
    texts.iter().map(&mut accept).collect()
}

/// A text that lists the first ids with one k and R, in full.
fn listing(slot: u64, count: u8, k: u8, bound: u8) -> String {
    let listed = (0..count).map(|id| format!("list {id} k {k} R {bound}\n"));
    format!("request slot {slot} T 64\n{}", listed.collect::<String>())
}

/// Case B's shortfalls across its change, counted on and begun anew, by "Last spring's disagreement" in `docs/DICTIONARY.md`.
#[test]
fn the_count_goes_on_in_case_b() {
    let b = "request slot 6 T 1\nlist 0 k 2 R 1\nlist 1 k 2 R 1\nlist 2 k 1 R 2\n".to_string();
    let drawn = pictures(&[listing(0, 2, 2, 1), b], Around { before: 2, after: 2 });
    let picture = &drawn[1];
    assert_eq!((picture.request_slot, picture.base, picture.length()), (6, 7, 1));
    let slots: Vec<(u64, Option<u8>)> =
        picture.slots.iter().map(|slot| (slot.number, slot.owner)).collect();
    assert_eq!(slots, [(4, None), (5, None), (6, Some(1)), (7, Some(0)), (8, Some(2))]);
    let cells = |id: usize| {
        picture.lanes[id].cells.iter().map(|cell| cell.map(|cell| (cell.shortfall, cell.anew)))
    };
    let pump = [(0, None), (64, None), (128, Some(0)), (192, Some(64)), (0, None)].map(Some);
    assert!(cells(0).eq(pump));
    let detector = [(64, None), (128, None), (192, Some(0)), (0, None), (64, None)].map(Some);
    assert!(cells(1).eq(detector));
    assert!(cells(2).eq([None, None, Some((0, None)), Some((128, None)), Some((256, None))]));
    assert_eq!(picture.brought, [(0, 128), (1, 192)]);
}

/// No line of a picture is longer than the terminal, from 1 to 32 partitions and far from slot 0.
#[test]
fn pictures_fit_the_terminal() {
    for count in 1..=32 {
        for (slot, columns) in [7, tarnflaw::LAST_SLOT - 300]
            .into_iter()
            .flat_map(|slot| [60, 80, 200].map(|columns| (slot, columns)))
        {
            let texts = [listing(0, count, 8, 2), listing(slot, count, 7, 8)];
            let terminal =
                Terminal { names: Names::from([(0, "ü".repeat(40))]), columns, bold: false };
            for picture in pictures(&texts, Around { before: 6, after: 8 }) {
                let text = terminal.draw(&picture);
                let longest = text.lines().map(|line| line.chars().count()).max();
                assert!(longest <= Some(columns), "{count} partitions, {columns} columns:\n{text}");
                assert_eq!(text.matches('*').count() - 1, own_slots(&picture), "{text}");
            }
        }
    }
}

/// The slots of a picture that belong to a partition.
fn own_slots(picture: &Picture) -> usize {
    picture.slots.iter().filter(|slot| slot.owner.is_some()).count()
}

/// The rows of a picture, with the heads of its partitions: what stands behind the first empty line.
fn rows(text: &str) -> Vec<&str> {
    text.lines().skip_while(|line| !line.is_empty()).skip(1).collect()
}

/// The rows of two partitions, drawn by hand: 12 columns up to the bound, and a count begun anew at slot 2.
#[test]
fn rows_drawn_by_hand() {
    let drawn =
        pictures(&[listing(0, 2, 2, 1), listing(2, 2, 2, 1)], Around { before: 1, after: 3 });
    let terminal =
        Terminal { names: Names::from([(1, "detector".to_string())]), columns: 50, bold: false };
    let text = terminal.draw(&drawn[1]);
    assert_eq!(
        rows(&text),
        [
            "          id 0                id 1 detector",
            "slot has  R 1: below 256      R 1: below 256",
            "   1   .    64 ===         |    64 ===         |",
            "-- request slot 2, base 2: the cycle -------------",
            "   2   1   128 o=====      |   128 o=====      |*",
            "   3   0   192 ===o=====   |*    0             |",
            "   4   .     0             |    64 ===         |",
            "",
        ]
    );
    let bold = Terminal { bold: true, ..terminal }.draw(&drawn[1]);
    assert_eq!((bold.matches("\x1b[1m").count(), text.matches('\x1b').count()), (2, 0));
}

/// Case B's pump loop in the drawing: at slot 7 a bar of 192 in 256 of the lane's 64, a box, and both figures; the bound at the lane's top.
#[test]
fn bars_drawn_by_hand() {
    let b = "request slot 6 T 1\nlist 0 k 2 R 1\nlist 1 k 2 R 1\nlist 2 k 1 R 2\n".to_string();
    let drawn = pictures(&[listing(0, 2, 2, 1), b], Around { before: 1, after: 1 });
    let mut svg = Svg::new(Names::from([(0, "a & <b>".to_string())]));
    svg.draw(&drawn[1]);
    svg.say("request 3: refused");
    let text = svg.finish();
    let cell = "<g data-request='2' data-slot='7' data-id='0' data-shortfall='192' data-slices='0' data-bound='1' data-own='1' data-anew='64'>\n\
                <rect x='250' y='134.0' width='40' height='48.0' fill='#bbb' stroke='#000' stroke-width='0.6'/>\n\
                <rect x='247' y='184.0' width='46' height='8.0' fill='#000'/>\n\
                <text x='270' y='114' font-size='11' text-anchor='middle'>192 (64)</text>\n</g>\n";
    let bound = "<path d='M150 118.0H198V118.0H246V118.0H294' fill='none'";
    let anew = "<path d='M198 182.0H246V166.0H294' fill='none'";
    for expected in
        [cell, bound, anew, ">id 0 a &amp; &lt;b&gt;</text>", ">request 3: refused</text>"]
    {
        assert!(text.contains(expected), "{expected}\n{text}");
    }
    assert_eq!((text.matches("<g data-").count(), text.matches("<g ").count()), (8, 9));
    assert_eq!(text.matches("</g>").count(), 9);
}

/// With less room, drawn by hand: the figures of six partitions, whose R a change raises; and of sixteen, in eighths of the larger R.
#[test]
fn less_room_drawn_by_hand() {
    let drawn = |count| {
        let texts = [listing(0, count, 4, 1), listing(2, count, 4, 2)];
        let drawn = pictures(&texts, Around { before: 1, after: 2 });
        Terminal { names: Names::new(), columns: 60, bold: false }.draw(&drawn[1])
    };
    let six = [
        "           id0   id1   id2   id3   id4   id5",
        "slot has  R1-2  R1-2  R1-2  R1-2  R1-2  R1-2",
        "   1   .    16    16    16    16    16    16",
        "-- request slot 2, base 2: the cycle ---------",
        "   2   .    32    32    32    32    32    32",
        "   3   .    48    48    48    48    48    48",
        "",
    ];
    assert_eq!(rows(&drawn(6)), six);
    let sixteen = [
        "                                        1  1  1  1  1  1",
        "          0  1  2  3  4  5  6  7  8  9  0  1  2  3  4  5",
        "slot has  2  2  2  2  2  2  2  2  2  2  2  2  2  2  2  2",
        "   1  14  0  0  0  0  0  0  0  0  0  0  0  0  0  0  0* 0",
    ];
    assert_eq!(rows(&drawn(16))[..4], sixteen);
}

/// A bound that has no room in full is told by R, and none is cut.
#[test]
fn bounds_are_not_cut() {
    let drawn = pictures(&[listing(0, 5, 4, 2)], Around { before: 0, after: 1 });
    let text = Terminal { names: Names::new(), columns: 80, bold: false }.draw(&drawn[0]);
    assert!(text.contains("slot has  R 2           R 2 ") && !text.contains("below 51"), "{text}");
}

/// What a change brings along is told also of ids that the picture does not draw at the request slot.
#[test]
fn what_is_brought_along() {
    let drawn =
        pictures(&[listing(0, 2, 2, 1), listing(7, 2, 2, 1)], Around { before: 3, after: 1 });
    assert_eq!(
        drawn[0].brought_along(&Names::new()),
        "No partition brings a shortfall into slot 0."
    );
    let names = Names::from([(0, "pump".to_string())]);
    assert_eq!(
        drawn[1].brought_along(&names),
        "The count goes on at slot 7: pump at 192. Begun anew there, each would be at 0."
    );
}
