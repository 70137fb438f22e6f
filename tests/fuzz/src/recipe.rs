//! Bytes read as a recipe: numbers, depths, kinds, tables, volumes and changes to records. Where
//! the bytes end, zeros follow.

use differential::input::Input;
use differential::random::Random;
use differential::records::{head, put_head, put_kind, put_value, COUNT, DEPTH, LENGTH};
use differential::tables::lists::{random_table, table_of};
use differential::tables::uses::use_times;
use differential::volumes::{lengths, Volume};
use reference::kind::Kind;
use reference::record::{Head, HEAD};
use reference::table::{data_symbols, house, listed, write};
use reference::tree::{block_len, symbols, HASH, SYMBOL};

/// The depths that buffers are made for, the smaller ones more often.
const DEPTHS: [usize; 8] = [1, 1, 1, 2, 2, 3, 4, 5];

/// The deep ones, which take long, for the highest bytes alone.
const DEEP: [usize; 8] = [6, 6, 6, 6, 7, 7, 8, 9];

pub struct Recipe<'a> {
    bytes: &'a [u8],
}

impl<'a> Recipe<'a> {
    pub fn new(bytes: &'a [u8]) -> Recipe<'a> {
        Recipe { bytes }
    }

    /// All that is left.
    pub fn rest(&mut self) -> &'a [u8] {
        std::mem::take(&mut self.bytes)
    }

    pub fn byte(&mut self) -> u8 {
        match self.bytes.split_first() {
            Some((&first, rest)) => {
                self.bytes = rest;
                first
            }
            None => 0,
        }
    }

    /// The number of so many bytes.
    pub fn number(&mut self, bytes: usize) -> u64 {
        (0..bytes).fold(0, |number, _| number << 8 | u64::from(self.byte()))
    }

    /// A number below a limit.
    pub fn below(&mut self, limit: usize) -> usize {
        self.number(3) as usize % limit
    }

    pub fn random(&mut self) -> Random {
        Random::new(u64::from(self.byte()))
    }

    /// The depth that buffers are made for, and the kind of volume, which has a bit of the same byte.
    pub fn made_for(&mut self) -> (usize, Kind) {
        let byte = self.byte();
        let depths = if byte < 240 { DEPTHS } else { DEEP };
        let kind = if byte & 8 == 0 { Kind::Plain } else { Kind::Placed };
        (depths[usize::from(byte) % depths.len()], kind)
    }

    /// A number to ask for: mostly the one given, or a small one, or any.
    pub fn asked(&mut self, given: usize) -> u64 {
        match self.byte() {
            0..=199 => given as u64,
            small @ 200..=249 => u64::from(small) - 200,
            _ => self.number(8),
        }
    }

    /// The words of a well-formed table, mostly a covered one.
    pub fn words(&mut self, depth: usize) -> Vec<u32> {
        match self.byte() {
            0..=95 => house(depth),
            96..=127 => self.words_with_few(depth),
            size @ 128..=191 => table_of(depth, 2 + usize::from(size) % 7),
            _ => random_table(depth, &mut self.random()),
        }
    }

    /// A table in which a data symbol of a layer is put into none to three equations.
    fn words_with_few(&mut self, depth: usize) -> Vec<u32> {
        let mut layers = listed(depth as u64, &self.words(depth)).expect("a table");
        let layer = usize::from(self.byte()) % depth;
        let symbol = self.below(data_symbols(layer));
        let times = usize::from(self.byte()) % 4;
        use_times(&mut layers[layer], &[symbol], times, &mut self.random());
        write(&layers)
    }

    /// A tree with up to three symbols replaced before they were hashed, and
    /// perhaps with one hash that does not fit.
    pub fn volume(&mut self) -> Volume {
        let (depth, kind) = self.made_for();
        let words = self.words(depth);
        let faults: Vec<_> = (0..self.byte() % 4).map(|_| self.symbol(depth)).collect();
        let mut volume = Volume::miscoded_of(kind, depth, &words, &faults, &mut self.random());
        if self.byte() >= 192 {
            let (layer, symbol) = self.symbol(depth);
            volume.break_hash(layer, symbol, self.below(HASH));
        }
        volume
    }

    /// The bytes of a block of a depth: the most, or at a limit, or any up to one too many.
    pub fn length(&mut self, depth: usize) -> usize {
        match self.byte() {
            0..=63 => block_len(depth),
            limit @ 64..=127 => lengths(depth)[usize::from(limit) % lengths(depth).len()],
            _ => self.below(block_len(depth) + 2),
        }
    }

    /// Changes the head of a record, mostly in no way, or in up to three.
    pub fn record(&mut self, input: &mut Input) {
        let changes = match self.byte() {
            0..=199 => 0,
            200..=231 => 1,
            232..=243 => 2,
            _ => 3,
        };
        (0..changes).for_each(|_| self.change_head(input));
    }

    /// Changes the head of a record: a kind, the depth, the length, the number of words, the
    /// hash, or both of these.
    fn change_head(&mut self, input: &mut Input) {
        let (said, change) = (head(input).expect("a head"), self.byte());
        match change % 9 {
            index @ 0..=2 => put_kind(input, usize::from(index), u32::from(self.byte()) % 4),
            3 => put_value(input, DEPTH, u32::from(self.byte())),
            4 => put_value(input, LENGTH, self.length(said.depth.clamp(1, 9)) as u32),
            5 => put_value(input, LENGTH, self.number(3) as u32),
            6 => put_value(input, COUNT, (said.words ^ 1 << (self.byte() % 30)) as u32),
            7 => input["record"][HEAD - HASH + usize::from(self.byte()) % HASH] ^= 1,
            _ => put_head(input, &Head { words: said.words + 1, hash: [0; HASH], ..said }),
        }
    }

    /// Changes a bit of up to three symbols.
    pub fn damage(&mut self, symbols: &mut [u8]) {
        for _ in 0..self.byte() % 4 {
            let start = SYMBOL * (usize::from(self.byte()) % (symbols.len() / SYMBOL));
            symbols[start + usize::from(self.byte())] ^= 1;
        }
    }

    /// A layer, and the number of a symbol of it.
    fn symbol(&mut self, depth: usize) -> (usize, usize) {
        let layer = usize::from(self.byte()) % depth;
        (layer, self.below(symbols(layer)))
    }
}
