//! What each number says (`docs/RULES.md` 7.1), and what can be done (`docs/DICTIONARY.md`, "What each number says").

/// A number's meaning, and what can be done where a request is refused by it.
pub struct Meaning {
    pub says: &'static str,
    pub remedy: &'static str,
}

/// What can be done where no transition leads to a schedule, whatever T is.
pub const NO_LENGTH_HELPS: &str =
    "Ask at a later slot, with a larger R, or with a smaller share (a larger k).";

/// Each number's meaning, by number.
pub const MEANINGS: [Meaning; 12] = [
    Meaning { says: "accepted", remedy: "" },
    Meaning { says: "timetable not sound", remedy: "Start from the empty timetable." },
    Meaning { says: "answer area under 231 bytes", remedy: "Lend 231 bytes." },
    Meaning {
        says: "field cut off, missing, unknown, out of order or of wrong length",
        remedy: "Mend that field: a request is field 01, field 02, and a field 03 for each id.",
    },
    Meaning { says: "value out of range", remedy: "Mend that value." },
    Meaning {
        says: "id not above the one before",
        remedy: "Put the ids in rising order, each id once.",
    },
    Meaning { says: "slot too early", remedy: "Ask for the base or a later slot." },
    Meaning {
        says: "weights sum above 256",
        remedy: "Ask for a smaller share (a larger k), or leave an id out.",
    },
    Meaning {
        says: "shortfall at the request slot not below 256 x new R",
        remedy: "Ask with a larger R.",
    },
    Meaning {
        says: "a transition slot below T is missed, no length up to it gives a schedule",
        remedy: NO_LENGTH_HELPS,
    },
    Meaning { says: "id not listed", remedy: "Ask for an id that the timetable lists." },
    Meaning {
        says: "no length up to T gives a schedule, all were searched",
        remedy: "Raise T, to 64 at most; the shortest transition is given, whatever T is.",
    },
];

/// What a number says; one that the library does not have is said to be unknown.
pub fn says(number: u8) -> &'static str {
    MEANINGS.get(usize::from(number)).map_or("a number that is not known", |meaning| meaning.says)
}

/// The numbers as a table.
pub fn table() -> String {
    let rows = MEANINGS.iter().enumerate().map(|(number, meaning)| {
        format!(
            "{}\n",
            format!("{number:>2}  {}\n      {}", meaning.says, meaning.remedy).trim_end()
        )
    });
    rows.collect()
}
