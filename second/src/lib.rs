//! An independent model of the timetable changer, written from docs/RULES.md 2 to 10 by slots. It
//! shares no code with the library it is compared with. What each works out how, and what is alike
//! in both, is in second/README.md.

#![forbid(unsafe_code)]

pub mod archive;
pub mod archive_counts;
pub mod archives;
pub mod asking;
pub mod breaks;
pub mod built;
pub mod cases;
pub mod change;
pub mod clauses;
pub mod counts;
pub mod debt_counts;
pub mod documents;
pub mod figures;
pub mod frames;
pub mod generate;
pub mod numbers;
pub mod offset_counts;
pub mod pictures;
pub mod probe;
pub mod probes;
pub mod queries;
pub mod random;
pub mod records;
pub mod short_counts;
pub mod standing_counts;
pub mod timetable;

mod absences;
mod archived;
mod damage;
mod debts;
mod desk;
mod dictionary;
mod followed;
mod run;
mod screen;
mod slots;
mod spoil;
mod untouched;
mod walks;
mod worked;
mod working_off;

#[cfg(test)]
mod archives_tests;
#[cfg(test)]
mod as_before;
#[cfg(test)]
mod debts_tests;
#[cfg(test)]
mod figures_tests;
#[cfg(test)]
mod offset_tests;
#[cfg(test)]
mod probe_tests;
#[cfg(test)]
mod raising;
#[cfg(test)]
mod reading_tests;
#[cfg(test)]
mod standing_tests;
#[cfg(test)]
mod tests;
#[cfg(test)]
mod windows;
#[cfg(test)]
mod writing_tests;
