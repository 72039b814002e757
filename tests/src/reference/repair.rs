// Repair: the word nearest to a damaged frame, its margin, and the live count. They are written
// for codes of any size, once straight from the definitions, over all prefixes and all words, and
// once as a search that ends for words of 50 bits too. On small codes the two can be compared.
use super::frame;
use super::Refusal;
use std::iter;

const LARGEST_LIMIT: u32 = 12;
pub const LARGEST_BUDGET: u32 = 65_536;

#[derive(Clone, Copy, Debug, PartialEq, Eq)]
pub struct Repaired {
    pub word: u64,
    pub disagreements: u32,
    pub live: u32,
    pub sync_wrong: u32,
    pub margin: u32,
}

pub fn repair(frame: &[u8], limit: u32, budget: u32) -> Result<Repaired, Refusal> {
    frame::check_length(frame.len())?;
    check_range(limit, budget)?;
    frame::check_symbols(frame)?;
    let Nearest { word, disagreements, live, margin } =
        WSPR.nearest(&data_bits(frame), limit, budget)?;
    Ok(Repaired { word, disagreements, live, sync_wrong: sync_wrong(frame), margin })
}

fn check_range(limit: u32, budget: u32) -> Result<(), Refusal> {
    if limit > LARGEST_LIMIT {
        Err(Refusal { number: 15, place: 0 })
    } else if budget == 0 || budget > LARGEST_BUDGET {
        Err(Refusal { number: 15, place: 1 })
    } else {
        Ok(())
    }
}

/// The received data bits, put back in coded order.
pub fn data_bits(frame: &[u8]) -> Vec<u8> {
    frame::places().map(|place| frame[place] / 2).collect()
}

/// The live count of a frame, all lengths together.
pub fn live_count(frame: &[u8], limit: u32) -> u64 {
    WSPR.live_counts(&data_bits(frame), limit).iter().sum()
}

/// How many symbols have a wrong sync bit.
fn sync_wrong(frame: &[u8]) -> u32 {
    differing(frame.iter().map(|symbol| symbol % 2), frame::sync())
}

/// At how many places the two differ, as far as both go.
fn differing(ours: impl IntoIterator<Item = u8>, theirs: impl IntoIterator<Item = u8>) -> u32 {
    iter::zip(ours, theirs).map(|(one, other)| u32::from(one != other)).sum()
}

/// A convolutional code. A word's bits, highest first, and then the tail of zeros are clocked
/// one at a time into two registers that start at zero, and each time both give a coded bit.
#[derive(Clone, Copy, Debug)]
pub struct Code {
    pub word_bits: usize,
    /// From 1 to 32.
    pub register_bits: u32,
    pub masks: [u32; 2],
    pub tail: usize,
}

pub const WSPR: Code =
    Code { word_bits: 50, register_bits: 32, masks: frame::MASKS, tail: frame::ZEROS };

/// The one word with the fewest disagreements, the live count, and how many more disagreements the
/// next nearest word has.
#[derive(Clone, Copy, Debug, PartialEq, Eq)]
pub struct Nearest {
    pub word: u64,
    pub disagreements: u32,
    pub live: u32,
    pub margin: u32,
}

// By definition

impl Code {
    /// How many bits are clocked in. There are twice as many coded bits.
    pub fn clocked_len(&self) -> usize {
        self.word_bits + self.tail
    }

    /// All that is clocked in for a word, the first bit first.
    pub fn clocked(&self, word: u64) -> Vec<u8> {
        self.prefix(word, self.clocked_len())
    }

    /// The prefix of this length whose bits, as far as they are the word's, are these.
    fn prefix(&self, bits: u64, len: usize) -> Vec<u8> {
        let in_word = len.min(self.word_bits);
        let mut prefix: Vec<u8> = (0..in_word).rev().map(|bit| (bits >> bit & 1) as u8).collect();
        prefix.resize(len, 0);
        prefix
    }

    fn prefixes(&self, len: usize) -> impl Iterator<Item = Vec<u8>> + '_ {
        (0..1 << len.min(self.word_bits)).map(move |bits| self.prefix(bits, len))
    }

    /// The new bit comes in as the lowest of either register. The first register's parity
    /// under its mask goes before the second's.
    pub fn coded_bits(&self, clocked: &[u8]) -> Vec<u8> {
        let mut registers = [0; 2];
        let mut coded = Vec::with_capacity(2 * clocked.len());
        for &bit in clocked {
            for (register, mask) in iter::zip(&mut registers, self.masks) {
                *register = self.register(u64::from(*register) << 1 | u64::from(bit));
                coded.push(parity(*register & mask));
            }
        }
        coded
    }

    /// The lowest bits of these, as many as a register holds.
    fn register(&self, bits: u64) -> u32 {
        bits as u32 & u32::MAX >> (32 - self.register_bits)
    }

    /// How many coded bits of the prefix differ from the received ones, which it meets only as
    /// far as it goes.
    pub fn disagreements(&self, prefix: &[u8], received: &[u8]) -> u32 {
        differing(self.coded_bits(prefix), received.iter().copied())
    }

    /// How many prefixes are live, of each length from 1 on: every prefix is looked at.
    pub fn live_counts_by_definition(&self, received: &[u8], limit: u32) -> Vec<u64> {
        let is_live = |prefix: &Vec<u8>| self.disagreements(prefix, received) <= limit;
        let count = |len| self.prefixes(len).filter(is_live).count() as u64;
        (1..=self.clocked_len()).map(count).collect()
    }

    /// What repair answers: every prefix and every word is looked at.
    pub fn nearest_by_definition(
        &self,
        received: &[u8],
        limit: u32,
        budget: u32,
    ) -> Result<Nearest, Refusal> {
        let live: u64 = self.live_counts_by_definition(received, limit).iter().sum();
        if live > u64::from(budget) {
            return Err(Refusal { number: 16, place: 0 });
        }
        let of_word = |word| self.disagreements(&self.clocked(word), received);
        let all: Vec<u32> = (0..1 << self.word_bits).map(of_word).collect();
        let disagreements = *all.iter().min().expect("a code has words");
        if disagreements > limit {
            return Err(Refusal { number: 17, place: 0 });
        }
        let mut nearest = (0..all.len()).filter(|&word| all[word] == disagreements);
        let (Some(word), None) = (nearest.next(), nearest.next()) else {
            return Err(Refusal { number: 18, place: 0 });
        };
        let margin = margin_by_definition(&all, word, limit);
        Ok(Nearest { word: word as u64, disagreements, live: live as u32, margin })
    }
}

/// Of the disagreements of all words: how many more the next nearest word has than this one. If no
/// other word is within the limit, that next is taken as limit + 1.
fn margin_by_definition(all: &[u32], word: usize, limit: u32) -> u32 {
    let others = (0..all.len()).filter(|&other| other != word).map(|other| all[other]);
    let next = others.filter(|&disagreements| disagreements <= limit).min();
    next.unwrap_or(limit + 1) - all[word]
}

fn parity(bits: u32) -> u8 {
    (bits.count_ones() % 2) as u8
}

// By search

/// A prefix as the search keeps it.
#[derive(Clone, Copy, Debug, PartialEq, Eq)]
pub struct Prefix {
    /// The bits clocked in so far, the latest one lowest.
    pub clocked: u128,
    pub len: usize,
    pub disagreements: u32,
}

impl Prefix {
    pub const EMPTY: Prefix = Prefix { clocked: 0, len: 0, disagreements: 0 };
}

impl Code {
    /// All live prefixes: those of length 1, then those of length 2, and so on to the words.
    ///
    /// Only live ones are made longer. That loses none: a further bit adds two coded bits and
    /// leaves the others as they were, so disagreements never fall as a prefix grows, and what
    /// a live prefix began with was live.
    pub fn live_prefixes<'a>(
        &'a self,
        received: &'a [u8],
        limit: u32,
    ) -> impl Iterator<Item = Vec<Prefix>> + 'a {
        (0..self.clocked_len()).scan(vec![Prefix::EMPTY], move |live, _| {
            *live = self.extended(live, received, limit);
            Some(live.clone())
        })
    }

    /// All prefixes within the limit that are one bit longer than these.
    pub fn extended(&self, prefixes: &[Prefix], received: &[u8], limit: u32) -> Vec<Prefix> {
        let mut longer = Vec::new();
        for prefix in prefixes {
            // The zeros of the tail don't branch.
            let bits = if prefix.len < self.word_bits { 0..=1 } else { 0..=0 };
            longer.extend(bits.map(|bit| self.followed_by(bit, prefix, received)));
        }
        longer.retain(|prefix| prefix.disagreements <= limit);
        longer
    }

    /// Both registers hold the same bits, the latest ones.
    fn followed_by(&self, bit: u128, prefix: &Prefix, received: &[u8]) -> Prefix {
        let clocked = prefix.clocked << 1 | bit;
        let register = self.register(clocked as u64);
        let coded = self.masks.map(|mask| parity(register & mask));
        let added = differing(coded, received[2 * prefix.len..].iter().copied());
        Prefix { clocked, len: prefix.len + 1, disagreements: prefix.disagreements + added }
    }

    /// How many prefixes are live, of each length from 1 on.
    pub fn live_counts(&self, received: &[u8], limit: u32) -> Vec<u64> {
        self.live_prefixes(received, limit).map(|live| live.len() as u64).collect()
    }

    /// What repair answers. Once the count is above the budget the answer is known, whatever
    /// else there is to count. The longest live prefixes are the words within the limit; sorted by
    /// their disagreements, the second is the next nearest, if there is one.
    pub fn nearest(&self, received: &[u8], limit: u32, budget: u32) -> Result<Nearest, Refusal> {
        let mut count = 0;
        let mut words = Vec::new();
        for live in self.live_prefixes(received, limit) {
            count += live.len();
            if count > budget as usize {
                return Err(Refusal { number: 16, place: 0 });
            }
            words = live;
        }
        words.sort_by_key(|word| word.disagreements);
        match words[..] {
            [] => Err(Refusal { number: 17, place: 0 }),
            [first, second, ..] if first.disagreements == second.disagreements => {
                Err(Refusal { number: 18, place: 0 })
            }
            [Prefix { clocked, disagreements, .. }, ref others @ ..] => {
                let word = (clocked >> self.tail) as u64;
                let margin = match others {
                    [] => limit + 1 - disagreements,
                    [second, ..] => second.disagreements - disagreements,
                };
                Ok(Nearest { word, disagreements, live: count as u32, margin })
            }
        }
    }
}
