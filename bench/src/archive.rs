//! The inputs of reading and writing: the answers of accepted requests, and what requests ask for.

use port::number::ACCEPTED;
use port::AREA;

use crate::inputs::Input;

/// The bytes that a request has at most.
pub const REQUEST: usize = 207;

/// The figures of a request: its slot, T, and three bytes for each listed id.
#[derive(Clone)]
pub struct Figures {
    pub slot: u64,
    pub longest: u8,
    pub listing: Vec<u8>,
}

/// Some answers and the figures of some requests.
pub struct Archive {
    pub answers: Vec<Vec<u8>>,
    pub figures: Vec<Figures>,
}

/// The answers of the inputs that are accepted, and the figures of all.
pub fn archive(inputs: &[Input]) -> Archive {
    Archive {
        answers: inputs.iter().filter_map(answer).collect(),
        figures: inputs.iter().map(|input| figures(&input.record)).collect(),
    }
}

/// The answer that an input gets, if it is accepted.
fn answer(input: &Input) -> Option<Vec<u8>> {
    let mut area = [0; AREA];
    let outcome = port::change(&mut input.image.clone(), &input.record, &mut area);
    (outcome.number == ACCEPTED).then(|| area[..outcome.written].to_vec())
}

/// The figures of a request that has no short field.
fn figures(record: &[u8]) -> Figures {
    let slot = record[3..11].iter().fold(0, |slot, &byte| slot << 8 | u64::from(byte));
    let listing = record[15..].chunks_exact(6).flat_map(|field| &field[3..]).copied().collect();
    Figures { slot, longest: record[14], listing }
}
