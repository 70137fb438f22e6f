//! The program `listing` beside the reference: every byte that it prints.

use crate::difference::{same_bytes, Compared, Failure};
use crate::messages::CONTENTS;
use crate::met::Met;
use crate::programs;
use crate::random::Random;
use reference::listing::listing;
use reference::table::data_symbols;
use reference::tree::SYMBOL;
use std::path::Path;

#[cfg(test)]
mod mutants;

const SEED: u64 = 1729;

/// The bytes of the block that is listed.
const BLOCK: usize = 1024;

/// Lengths of other inputs.
const OTHER_LENGTHS: [usize; 12] = [0, 1, 16, 96, 256, 512, 1023, 1025, 1026, 1280, 2048, 4096];

/// What is printed of an input.
pub type List = fn(&[u8]) -> Vec<u8>;

/// The program that `rt run` builds in `crates/listing`, run on an input.
pub fn program(input: &[u8]) -> Vec<u8> {
    programs::run(Path::new(env!("CARGO_MANIFEST_DIR")).join("../../crates/listing/out/listing"), input)
}

/// Makes every comparison.
pub fn compare(list: List) -> Result<Met, Failure> {
    let mut comparisons = Comparisons { list, random: Random::new(SEED), met: Met::default() };
    comparisons.contents()?;
    comparisons.every_byte()?;
    comparisons.random_blocks()?;
    comparisons.other_lengths()?;
    Ok(comparisons.met)
}

struct Comparisons {
    list: List,
    random: Random,
    met: Met,
}

impl Comparisons {
    /// The block of the cases, and one of each content.
    fn contents(&mut self) -> Compared {
        self.make("the block of the cases", &cases_block())?;
        for content in CONTENTS {
            let block = content.message(BLOCK, &mut self.random);
            self.make("a content", &block)?;
        }
        Ok(())
    }

    /// Each byte value as the first one of each data symbol.
    fn every_byte(&mut self) -> Compared {
        for value in 0..=u8::MAX {
            let mut block = self.random.bytes(BLOCK);
            for symbol in 0..data_symbols(0) {
                block[SYMBOL * symbol] = value.wrapping_add(64 * symbol as u8);
            }
            self.make("chosen first bytes", &block)?;
        }
        Ok(())
    }

    fn random_blocks(&mut self) -> Compared {
        for _ in 0..300 {
            let block = self.random.bytes(BLOCK);
            self.make("a random block", &block)?;
        }
        Ok(())
    }

    /// Inputs of which nothing is listed.
    fn other_lengths(&mut self) -> Compared {
        for len in OTHER_LENGTHS {
            for content in CONTENTS {
                let input = content.message(len, &mut self.random);
                self.make("another length", &input)?;
            }
        }
        Ok(())
    }

    fn make(&mut self, what: &str, input: &[u8]) -> Compared {
        self.met.made += 1;
        same_bytes("output", listing(input).as_bytes(), &(self.list)(input)).map_err(|difference| {
            Failure { call: format!("{what}, input of {} bytes", input.len()), difference }
        })
    }
}

/// "256 bytes each of 01, 02, 04, 08".
fn cases_block() -> Vec<u8> {
    [1, 2, 4, 8].iter().flat_map(|&byte| [byte; SYMBOL]).collect()
}
