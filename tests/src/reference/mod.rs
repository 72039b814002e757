// An independent implementation of the card, written from the papers alone, one file a layer, and
// of the programs over it.
pub mod frame;
pub mod host;
pub mod lines;
pub mod message;
pub mod repair;
pub mod telemetry;

/// Why an input is refused: the number of the refusal table and the place it names.
#[derive(Clone, Copy, Debug, PartialEq, Eq)]
pub struct Refusal {
    pub number: u32,
    pub place: u32,
}
