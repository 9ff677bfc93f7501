//! The probes that read answers and write requests: their lines, contents cut off, and what their
//! streams reach.

use crate::archive_counts::ArchiveCounts;
use crate::archives::{Archives, Spoilt};
use crate::frames::LONGEST_FRAME;
use crate::probe::{answer_content, field_content, probe_line, request_content, ANSWER, REQUEST};
use crate::reading_tests::B;
use crate::writing_tests::asking;

/// The lines of the probe, with what stands in its contents.
#[test]
fn the_lines_of_reading_and_writing() {
    let empty = [0x10, 0, 1, 0, 0x11, 0, 0];
    assert_eq!(probe_line(&answer_content(&empty, 129, &[])), "answer 0 0 +129");
    let told = format!("answer 0 0 {}+2", "00".repeat(129));
    assert_eq!(probe_line(&answer_content(&empty, 131, &[7])), told);
    assert_eq!(probe_line(&answer_content(&empty, 128, &[7])), "answer 2 0 +128");
    assert_eq!(probe_line(&answer_content(&empty[..4], 9, &[7])), "answer 3 4 +9");
    let order = asking(258, 3, &[]);
    let line = "request 0 0 15 010008000000000000010202000103+1";
    assert_eq!(probe_line(&request_content(&order, 16, &[7])), line);
    assert_eq!(probe_line(&request_content(&order, 14, &[7])), "request 2 0 0 +14");
    assert_eq!(probe_line(&request_content(&asking(0, 0, &[1]), 16, &[])), "request 4 0 0 +16");
    assert_eq!(probe_line(&field_content(&B, 18)), "field 0 0 18 2 1 23");
    assert_eq!(probe_line(&field_content(&B, 23)), "field 0 0 0 0 0 23");
    assert_eq!(probe_line(&field_content(&B, u64::MAX)), format!("field 0 0 0 0 0 {}", u64::MAX));
}

/// A content that ends early is read as if zeros followed; a record or a listing as far as it goes.
#[test]
fn contents_of_reading_and_writing_cut_off() {
    assert_eq!(probe_line(&[ANSWER]), "answer 3 0 +0");
    assert_eq!(probe_line(&[ANSWER, 255, 255, 0x10, 0, 1, 0]), "answer 3 4 +0");
    assert_eq!(probe_line(&[REQUEST]), "request 2 0 0 +0");
    assert_eq!(
        probe_line(&[REQUEST, 0, 0, 0, 0, 0, 0, 0, 0, 0, 0, 9, 1, 2, 3, 4]),
        "request 4 1 0 +0"
    );
    let whole = field_content(&B, 0x1200);
    assert_eq!(probe_line(&whole[..3 + B.len()]), "field 0 0 16 1 0 4");
    assert_eq!(probe_line(&whole[..whole.len() - 1]), "field 0 0 0 0 0 4608");
    assert_eq!(probe_line(&[&whole[..], &[1, 2]].concat()), "field 0 0 0 0 0 4608");
}

/// A seed and a count give one stream, whose contents fit into frames.
#[test]
fn a_seed_always_gives_the_same_archives() {
    let stream = |seed| Archives::new(seed, 300).map(|made| made.content).collect::<Vec<_>>();
    assert_eq!(stream(3), stream(3));
    assert_ne!(stream(3), stream(4));
    assert_eq!(stream(3).len(), 300 + crate::cases::archives().len());
    assert!(stream(3).iter().all(|content| content.len() <= LONGEST_FRAME));
}

/// The stored stream has 20,000 answers and listings, most of them spoiled in one place.
#[test]
fn the_stored_stream_is_long_enough() {
    let (all, once, refused) = ArchiveCounts::of(Archives::new(1, 25_000)).spoilt_once();
    assert!(all >= 20_000 && 2 * refused > all && once >= refused, "{all} {once} {refused}");
}

/// Every number, place, area and size comes, and each way of spoiling is mostly refused.
#[test]
fn the_archives_reach_every_outcome() {
    let counts = ArchiveCounts::of(Archives::new(5, 10_000));
    let numbers = counts.kinds.numbers;
    assert!([0, 2, 3].iter().all(|&number| numbers[4][number] > 100), "{:?}", numbers[4]);
    assert!([0, 2, 4, 5].iter().all(|&number| numbers[5][number] > 100), "{:?}", numbers[5]);
    assert!([0, 3].iter().all(|&number| numbers[6][number] > 300), "{:?}", numbers[6]);
    let sizes = [counts.owners, counts.listed].concat();
    let classes = [&counts.answer_places[..], &counts.answer_areas, &sizes];
    assert!(classes.concat().iter().all(|&count| count >= 10), "{classes:?}");
    let classes = [&counts.request_places[..], &counts.request_areas, &counts.entries];
    assert!(classes.concat().iter().all(|&count| count >= 20), "{classes:?}");
    assert!(counts.fields.iter().all(|&count| count > 50), "{:?}", counts.fields);
    for count in counts.answers.iter().chain(&counts.requests) {
        let once = matches!(count.spoilt, Spoilt::Once(_));
        assert!(
            !once || count.probes > 50 && 3 * count.refused > count.probes,
            "{:?}",
            count.spoilt
        );
    }
}
