//! Where offsets stand in a cycle and how they are found, and what programs with marks that are wrong
//! would place instead.

use crate::change::{change, AREA};
use crate::counts::{ProbeCounts, RequestCounts};
use crate::generate::Generator;
use crate::numbers::ACCEPTED;
use crate::offset_counts::{demands, placed};
use crate::probes::Probes;
use crate::timetable::Timetable;

/// Period 128 at its last offset, 127, has slots 127 and 255. Period 256 then finds 254, and 255 where
/// the second of them is not marked. With last offset 128 it finds that, and 129 if it looks one above.
#[test]
fn one_slot_less_and_one_above() {
    let two = |last| [(128, 127, 0), (256, last, 1)];
    assert_eq!(placed(&two(255), 0, 0), [127, 254]);
    assert_eq!(placed(&two(255), 1, 0), [127, 255]);
    assert_eq!(placed(&two(255), 0, 1), [127, 254]);
    assert_eq!(placed(&two(126), 0, 0), [127, 126]);
    assert_eq!(placed(&two(126), 1, 0), [127, 126]);
    assert_eq!(placed(&two(128), 0, 1), [127, 129]);
    assert_eq!(placed(&two(128), 0, 0), [127, 128]);
}

/// Seven of period 8 leave every eighth slot. Those of period 256 with last offset 199 take these from
/// 192 down: the second leaves the part of the last offset, and the tenth passes over a whole one.
#[test]
fn a_whole_part_is_passed_over() {
    let mut many: Vec<(u16, u16, usize)> = (0..7).map(|id| (8, 7, id)).collect();
    assert_eq!(placed(&many, 0, 0), [7, 6, 5, 4, 3, 2, 1]);
    many.extend((0..9).map(|id| (256, 199, 7 + id)));
    let offsets = placed(&many, 0, 0);
    assert_eq!(offsets[7..], [192, 184, 176, 168, 160, 152, 144, 136, 128]);
    many.push((256, 199, 16));
    assert_eq!(placed(&many, 0, 0)[16], 120);
}

/// With nothing wrong, those marks place what the model places.
#[test]
fn right_marks_place_as_the_rule_does() {
    let mut timetable = Timetable::empty();
    let mut accepted = 0;
    for request in Generator::new(2, 4000) {
        let outcome = change(&timetable, &request, &mut [0; AREA]);
        timetable = outcome.timetable;
        if outcome.number == ACCEPTED {
            let demands = demands(&timetable);
            let offset_of = |id: usize| u16::from(timetable.entries[id].offset);
            let offsets: Vec<u16> = demands.iter().map(|&(_, _, id)| offset_of(id)).collect();
            assert_eq!(placed(&demands, 0, 0), offsets);
            accepted += 1;
        }
    }
    assert!(accepted > 2000, "{accepted}");
}

/// Offsets stand in every part of a cycle, are found in a lower part than their last offset's, and
/// would often be others in a wrong program; and slots are shared first in every part.
#[test]
fn the_streams_have_offsets_in_every_part() {
    let requests = RequestCounts::of(Generator::new(1, 20000)).offsets;
    assert!(requests.least() >= 1000, "{requests:?}");
    let probes = ProbeCounts::of(Probes::new(1, 20000)).offsets;
    assert!(probes.least() >= 500, "{probes:?}");
    assert!(probes.shared.iter().all(|&count| count >= 10), "{probes:?}");
}
