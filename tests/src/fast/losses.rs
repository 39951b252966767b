//! Losses: as a card tells them, and as the writer measures them.

use super::{LAYERS, PLACES};

/// One number for each plane that a card can have.
const MOST: usize = LAYERS * PLACES as usize;

/// What the layers of a card lose, one layer's numbers behind the other's. An old card tells none.
pub struct Losses {
    numbers: [u32; MOST],
    told: usize,
}

impl Losses {
    /// Those of an old card.
    pub fn none() -> Losses {
        Losses {
            numbers: [0; MOST],
            told: 0,
        }
    }

    pub fn push(&mut self, number: u32) {
        self.numbers[self.told] = number;
        self.told += 1;
    }

    pub fn told(&self) -> &[u32] {
        &self.numbers[..self.told]
    }

    /// What a layer loses, whose numbers begin at `first`, where so many planes of it are missing.
    pub fn of(&self, first: usize, missing: u64) -> u64 {
        if missing == 0 {
            0
        } else if self.told == 0 {
            1 << (missing - 1)
        } else {
            u64::from(self.numbers[first + missing as usize - 1])
        }
    }

    /// Measures a layer with these words (`planes::OFFSET`) and so many digits, behind the layers before it.
    pub fn measure(&mut self, words: &[u32], digits: u64) {
        let end = self.told + digits as usize;
        let own = &mut self.numbers[self.told..end];
        self.told = end;
        for run in words.chunks(RUN) {
            let mut low = [0; RUN];
            for (low, word) in low.iter_mut().zip(run) {
                *low = (word & 0x7FFF) as i16;
            }
            let low = &low[..run.len()];
            for (loss, d) in own.iter_mut().zip(1..) {
                // None is larger than the closed loss.
                if *loss < 1 << (d - 1) {
                    let met = if d <= LOW {
                        furthest_of_low(low, d)
                    } else {
                        furthest(run, d)
                    };
                    *loss = met.max(*loss);
                }
            }
        }
    }
}

/// Words looked at in one go.
const RUN: usize = 256;

/// The digits that are looked at in halves of words: plain x86-64 finds the least and the largest of eight
/// 16-bit numbers at once, and has no such instruction for longer ones.
const LOW: u32 = 15;

/// The d lowest bits of a word are what its d low digits come to, counted from the least that they can be; their
/// middle is there 2^(d-1) - 1, so the least and the largest tell how far from it any are.
fn furthest_of_low(low: &[i16], d: u32) -> u32 {
    let mask = ((1_u32 << d) - 1) as i16;
    let (mut least, mut most) = (i16::MAX, 0);
    for word in low {
        let bits = word & mask;
        least = least.min(bits);
        most = most.max(bits);
    }
    from_middle(least.into(), most.into(), d)
}

fn furthest(words: &[u32], d: u32) -> u32 {
    let mask = (1_u32 << d) - 1;
    let (mut least, mut most) = (i32::MAX, 0);
    for word in words {
        let bits = (word & mask) as i32;
        least = least.min(bits);
        most = most.max(bits);
    }
    from_middle(least, most, d)
}

fn from_middle(least: i32, most: i32, d: u32) -> u32 {
    let middle = (1 << (d - 1)) - 1;
    (middle - least).max(most - middle) as u32
}
