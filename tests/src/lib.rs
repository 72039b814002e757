// What the outside tests share: the library under test, an independent implementation to
// compare it with, lent buffers that show every write, random inputs from a seeded generator and
// lines of them, programs run as child processes, a reader of JSON, counts of the answers, facts
// of the code, and the vectors of WSJT-X.
pub mod answers;
pub mod card;
pub mod child;
pub mod counts;
pub mod facts;
pub mod inputs;
pub mod json;
pub mod lent;
pub mod lines;
pub mod reference;
pub mod rng;
pub mod vectors;
