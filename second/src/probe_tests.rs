//! The probe by itself: images, packing, areas and contents cut off; that each clause of soundness
//! is broken on its own; and what the streams of probes reach.

use crate::breaks::{broken, CLAUSES};
use crate::built::built;
use crate::change::{change, AREA};
use crate::clauses::{broken_alone, broken_clauses};
use crate::counts::ProbeCounts;
use crate::frames::{frame, print_probes, LONGEST_FRAME};
use crate::generate::Generator;
use crate::probe::{
    change_content, empty_content, image_field, image_of, owner_content, pack, packed_field,
    probe_line, read_probe, standing_content, timetable_of, Probe, IMAGE,
};
use crate::probes::{Made, Origin, Probes};
use crate::random::Random;
use crate::tests::sound_in_numbers;
use crate::timetable::{Entry, Timetable, LAST_SLOT};

/// The image that a content's packed bytes give.
fn unpacked(length: u16, packed: &[u8]) -> Vec<u8> {
    match read_probe(&empty_content(&packed_field(length, packed))) {
        Probe::Empty { image } => image,
        _ => Vec::new(),
    }
}

/// Each field stands at its bytes, high byte first.
#[test]
fn fields_of_an_image() {
    let mut image = vec![0; IMAGE];
    for (at, byte) in [(0, 1), (7, 2), (8, 3), (9, 4), (72, 5), (73, 6), (80, 7), (81, 8), (82, 9)]
    {
        image[at] = byte;
    }
    image[83..87].copy_from_slice(&[10, 11, 12, 13]);
    image[267..277].copy_from_slice(&[14, 15, 16, 17, 18, 19, 20, 21, 22, 23]);
    image[335..].copy_from_slice(&[24, 25]);
    let timetable = timetable_of(&image).unwrap_or(Timetable::empty());
    assert_eq!(timetable.request_slot, (1 << 56) + 2);
    assert_eq!((timetable.length, timetable.owners[0], timetable.owners[63]), (3, 4, 5));
    assert_eq!(timetable.base, (6 << 56) + 7);
    let first = Entry { period: 0x0809, offset: 10, bound: 11, shortfall: 0x0c0d };
    let last = Entry { period: 0x0e0f, offset: 16, bound: 17, shortfall: 0x1213 };
    assert_eq!((timetable.entries[0], timetable.entries[31]), (first, last));
    assert_eq!([0, 1, 31].map(|id| timetable.starts[id]), [0x1415, 0x1617, 0x1819]);
    assert_eq!(image_of(&timetable), image);
}

/// An image holds all of a timetable and nothing else, whatever its bytes.
#[test]
fn images_and_timetables() {
    let mut random = Random::new(3);
    for _ in 0..2000 {
        let image: Vec<u8> = (0..IMAGE).map(|_| random.byte()).collect();
        assert_eq!(timetable_of(&image).map(|timetable| image_of(&timetable)), Some(image));
    }
    for length in [0, 1, IMAGE - 1, IMAGE + 1, 65535] {
        assert_eq!(timetable_of(&vec![0; length]), None);
    }
}

/// Zeros are packed in runs of at most 255, and what is packed is read back.
#[test]
fn packing() {
    assert_eq!(pack(&[]), []);
    assert_eq!(pack(&[7, 0, 0, 8, 0]), [7, 0, 2, 8, 0, 1]);
    assert_eq!(pack(&[0; 255]), [0, 255]);
    assert_eq!(pack(&[0; 256]), [0, 255, 0, 1]);
    let mut random = Random::new(4);
    for _ in 0..2000 {
        let zeros = random.below(9);
        let bytes: Vec<u8> = (0..random.below(700))
            .map(|_| if random.below(8) < zeros { 0 } else { random.byte() })
            .collect();
        assert_eq!(unpacked(bytes.len() as u16, &pack(&bytes)), bytes);
    }
}

/// A count of 0 is 256 zeros, a run beyond the image ends with it, and zeros follow a short content.
#[test]
fn packed_otherwise() {
    assert_eq!(unpacked(258, &[9, 0, 0, 8]), [&[9][..], &[0; 256], &[8]].concat());
    assert_eq!(unpacked(3, &[9, 0, 0, 8]), [9, 0, 0]);
    assert_eq!(unpacked(3, &[9, 0, 255, 8]), [9, 0, 0]);
    assert_eq!(unpacked(4, &[9, 0, 1, 0, 1, 8]), [9, 0, 0, 8]);
    assert_eq!(unpacked(600, &[9]), [&[9][..], &[0; 599]].concat());
    assert_eq!(unpacked(600, &[9, 0]), [&[9][..], &[0; 599]].concat());
    assert_eq!(unpacked(0, &[9]), []);
}

/// The packed bytes end once the image is full, also in the middle of a run.
#[test]
fn what_follows_an_image() {
    let field = packed_field(IMAGE as u16, &[0, 255, 0, 255]);
    assert_eq!(probe_line(&owner_content(&field, 0)), "owner 0 0 255");
    assert_eq!(probe_line(&owner_content(&field, LAST_SLOT + 1)), "owner 4 0 0");
    let left_over = [owner_content(&field, LAST_SLOT), vec![1, 2, 3]].concat();
    assert_eq!(probe_line(&left_over), "owner 0 0 255");
}

/// An area is printed up to the last byte that differs from the one handed in.
#[test]
fn areas_in_lines() {
    let empty = image_field(&image_of(&Timetable::empty()));
    let request = crate::cases::record(0, 0, &[]);
    let area = |length: u16, pattern: &[u8]| {
        let line = probe_line(&change_content(&empty, &request, length, pattern));
        line.rsplit(' ').next().unwrap_or("").to_string()
    };
    assert_eq!(area(231, &[1]), "10000100110000+224");
    assert_eq!(area(231, &[]), "1000010011+226");
    assert_eq!(area(231, &[0]), "1000010011+226");
    assert_eq!(area(232, &[0x10, 0, 1, 0, 0x11, 0, 0]), "+232");
    assert_eq!(area(300, &[0x10, 0, 1, 0]), "10000100110000+293");
    assert_eq!(area(230, &[1]), "+230");
    assert_eq!(area(0, &[1]), "+0");
}

/// An image of another length than 337 bytes is refused 1; image and area stay as they are.
#[test]
fn images_of_another_length() {
    let change = |image: &[u8]| {
        let request = crate::cases::request_a();
        probe_line(&change_content(&image_field(image), &request, 300, &[5]))
    };
    assert_eq!(change(&[9, 0, 7]), "change 1 0 0 0 09000107 +300");
    assert_eq!(change(&[0; 336]), "change 1 0 0 0 00ff0051 +300");
    assert!(change(&[0; 337]).starts_with("change 0 0 1 17 "));
    assert_eq!(change(&[0; 338]), "change 1 0 0 0 00ff0053 +300");
    for length in [273, 336, 338] {
        let image = image_field(&vec![0; length]);
        assert_eq!(probe_line(&owner_content(&image, 0)), "owner 1 0 0");
        assert_eq!(probe_line(&standing_content(&image, 0, 0)), "standing 1 0 0 0");
        assert!(probe_line(&empty_content(&image)).starts_with("empty 1 00ff"));
    }
}

/// A content that ends early is read as if zeros followed; a request goes as far as the content.
#[test]
fn contents_cut_off() {
    let whole = change_content(&image_field(&[0; IMAGE]), &crate::cases::request_a(), 300, &[7]);
    assert_eq!(probe_line(&[]), "bad probe");
    assert_eq!(probe_line(&[1]), "change 1 0 0 0 - +0");
    assert_eq!(probe_line(&[1, 0]), "change 1 0 0 0 - +0");
    assert_eq!(probe_line(&[1, 0, 3]), "change 1 0 0 0 0003 +0");
    assert_eq!(probe_line(&whole[..2]), "change 1 0 0 0 00ff0001 +0");
    for end in 3..whole.len() - 2 {
        assert_eq!(probe_line(&whole[..end]), "change 2 0 0 0 00ff0052 +0");
    }
    assert!(probe_line(&whole[..whole.len() - 2]).ends_with("+239"));
    assert!(probe_line(&whole[..whole.len() - 1]).ends_with("0102+283"));
    assert_eq!(probe_line(&[2]), "owner 1 0 0");
    assert_eq!(probe_line(&[2, 1, 81]), "owner 0 0 255");
    assert_eq!(probe_line(&[3, 1, 81]), "standing 10 0 0 0");
    assert_eq!(probe_line(&[4, 1, 81, 9]), "empty 0 00ff0052");
    assert_eq!(probe_line(&[4, 1, 80, 9]), "empty 1 0900ff0050");
    for kind in [0, 8, 255] {
        assert_eq!(probe_line(&[kind, 1, 81]), "bad probe");
    }
}

/// A request's bytes are those of the content, also where its length says more.
#[test]
fn a_request_longer_than_the_content() {
    let image = image_field(&[0; IMAGE]);
    let content = [&[1][..], &image, &[255, 255, 1, 0, 8]].concat();
    let Probe::Change { request, area, .. } = read_probe(&content) else {
        panic!("a change probe");
    };
    assert_eq!((request, area), (vec![1, 0, 8], vec![]));
}

/// A bad frame prints its line and ends the input.
#[test]
fn bad_frames_among_probes() {
    let probe = frame(&standing_content(&image_field(&[0; IMAGE]), 0, 0));
    let mut output = Vec::new();
    let input = [&probe[..], &frame(&[]), &[0x41, 0, 0], &probe[..]].concat();
    assert!(print_probes(&mut &input[..], &mut output).is_ok());
    assert_eq!(String::from_utf8_lossy(&output), "standing 10 0 0 0\nbad probe\nbad frame\n");
}

/// Any bytes are answered with one line, of the form that their first byte asks for.
#[test]
fn any_content_is_answered() {
    let mut random = Random::new(6);
    for _ in 0..20_000 {
        let small = random.chance(1, 2);
        let mut content: Vec<u8> = (0..random.below(60))
            .map(|_| if small { random.below(4) as u8 } else { random.byte() })
            .collect();
        if let Some(kind) = content.first_mut() {
            *kind = random.below(9) as u8;
        }
        let line = probe_line(&content);
        let parts: Vec<&str> = line.split(' ').collect();
        let form = match content.first() {
            Some(1) => ("change", 7),
            Some(2) => ("owner", 4),
            Some(3) => ("standing", 5),
            Some(4) => ("empty", 3),
            Some(5) => ("answer", 4),
            Some(6) => ("request", 5),
            Some(7) => ("field", 7),
            _ => ("bad", 2),
        };
        assert_eq!((parts[0], parts.len()), form, "{line}");
        assert!(!line.contains('\n'));
    }
}

/// Every clause is broken on its own, many times, from timetables that histories reach.
#[test]
fn each_clause_is_broken_on_its_own() {
    let mut random = Random::new(8);
    let mut alone = [0; CLAUSES.len()];
    let mut sound = [0; CLAUSES.len()];
    let mut timetable = Timetable::empty();
    for request in Generator::new(2, 1500) {
        timetable = change(&timetable, &request, &mut [0; AREA]).timetable;
        for (at, (clause, _)) in CLAUSES.iter().enumerate() {
            let edited = broken(&mut random, *clause, &timetable);
            assert_eq!(edited.sound(), sound_in_numbers(&edited));
            assert_eq!(edited.sound(), broken_clauses(&edited).is_empty());
            sound[at] += u32::from(edited.sound());
            alone[at] += u32::from(broken_alone(&edited, *clause));
        }
    }
    assert!(alone.iter().all(|&times| times > 400), "{alone:?}");
    assert!(sound.iter().all(|&times| times < 800), "{sound:?}");
    assert!(
        [7, 12, 14, 15].iter().all(|&at| sound[at] > 250),
        "one below is sound, and a start that leads there: {sound:?}"
    );
}

/// Timetables that are built are sound, some of them on a full core and with long transitions.
#[test]
fn built_timetables_are_sound() {
    let mut random = Random::new(10);
    let (mut long, mut many, mut edges) = (0, 0, 0);
    for _ in 0..3000 {
        let timetable = built(&mut random);
        assert!(timetable.sound() && sound_in_numbers(&timetable));
        long += u32::from(timetable.length == 64);
        many += u32::from(timetable.entries.iter().filter(|entry| entry.listed()).count() > 8);
        edges += u32::from(timetable.base > LAST_SLOT);
    }
    assert!(long > 300 && many > 200 && edges > 50, "{long} {many} {edges}");
}

/// A seed and a count give one stream of probes, whose contents fit into frames.
#[test]
fn a_seed_always_gives_the_same_probes() {
    let stream = |seed| Probes::new(seed, 300).map(|made| made.content).collect::<Vec<_>>();
    assert_eq!(stream(3), stream(3));
    assert_ne!(stream(3), stream(4));
    let swept = |made: &Made| [Origin::SweptReached, Origin::SweptBuilt].contains(&made.origin);
    let others = Probes::new(3, 300).filter(|made| !swept(made)).count();
    assert_eq!(others, 300 + crate::cases::probes().len());
    assert!(stream(3).iter().all(|content| content.len() <= LONGEST_FRAME));
}

/// Every number comes from each kind that can give it, and every length, area and broken clause.
#[test]
fn the_probes_reach_every_answer() {
    let counts = ProbeCounts::of(Probes::new(1, 6000));
    let reached = |kind: usize, numbers: &[usize], least| {
        numbers.iter().all(|&number| counts.kinds.numbers[kind][number] >= least)
    };
    let numbers = counts.kinds.numbers;
    assert!(reached(0, &[0, 1, 2, 3, 4, 5, 6, 7, 8, 9, 11], 40), "{:?}", numbers[0]);
    assert!(reached(1, &[0, 1, 4, 6], 20), "{:?}", numbers[1]);
    assert!(reached(2, &[0, 1, 4, 6, 10], 20), "{:?}", numbers[2]);
    assert!(reached(3, &[0, 1], 1) && counts.kinds.bad > 20, "{:?}", numbers[3]);
    assert!(counts.wants.least() >= 10, "{:?}", counts.wants);
    assert!(counts.lengths.iter().all(|&count| count > 30), "{:?}", counts.lengths);
    assert!(counts.areas.iter().all(|&count| count > 60), "{:?}", counts.areas);
    assert!(counts.origins.iter().skip(8).all(|count| count.unsound > 20));
}

/// Between a fifth and a third of the change probes have a timetable that is not sound.
#[test]
fn most_changes_are_of_sound_timetables() {
    let counts = ProbeCounts::of(Probes::new(2, 6000)).kinds.numbers[0];
    let all: u64 = counts.iter().sum();
    assert!((20..33).contains(&(counts[1] * 100 / all)), "{} of {all}", counts[1]);
}
