//! What a call is lent.

use crate::call::{Call, Length};
use crate::records;
use reference::kind::Kind;
use reference::record::Head;
use reference::table::{house, to_bytes};
use std::ops::{Index, IndexMut};

/// Numbers and buffers, in the order of the call's arguments.
#[derive(Clone)]
pub struct Input {
    pub call: &'static Call,
    pub numbers: Vec<u64>,
    pub buffers: Vec<Vec<u8>>,
}

impl Input {
    pub fn new<const N: usize, const B: usize>(
        call: &'static Call,
        numbers: [u64; N],
        buffers: [Vec<u8>; B],
    ) -> Input {
        Input { call, numbers: numbers.into(), buffers: buffers.into() }
    }

    pub fn number(&self, name: &str) -> u64 {
        self.numbers[self.number_index(name)]
    }

    pub fn set(&mut self, name: &str, number: u64) {
        let index = self.number_index(name);
        self.numbers[index] = number;
    }

    fn number_index(&self, name: &str) -> usize {
        self.call.numbers().position(|found| found == name).expect("a number of the call")
    }

    /// The index of a buffer.
    pub fn index_of(&self, name: &str) -> usize {
        self.call.buffers().position(|found| found.name == name).expect("a buffer of the call")
    }

    /// All buffers.
    pub fn all<const N: usize>(&mut self) -> [&mut Vec<u8>; N] {
        let all: Vec<&mut Vec<u8>> = self.buffers.iter_mut().collect();
        all.try_into().unwrap_or_else(|_| panic!("the buffers of the call"))
    }

    /// The size that the call is for. Where it is none, its low bits may be one:
    /// so later tests can be asked of what an earlier one stops.
    pub fn size(&self) -> Option<usize> {
        let size = usize::from(self.numbers.first().map_or(0, |&first| first as u8));
        self.call.sizes.contains(&size).then_some(size)
    }

    /// The kind of volume that the call is told, or that its record says, if it has one.
    pub fn kind(&self) -> Option<Kind> {
        if self.call.numbers().any(|name| name == "kind") {
            Kind::told(self.number("kind")).ok()
        } else if records::is_lent(self.call) {
            records::kind(self)
        } else {
            None
        }
    }

    /// Whether the buffers of these indices have right lengths.
    pub fn lengths_fit(&self, asked: impl Fn(usize) -> bool) -> bool {
        let mut all = self.call.buffers().zip(&self.buffers).enumerate();
        all.all(|(b, (buffer, bytes))| !asked(b) || buffer.length.fits(self.size(), bytes.len()))
    }

    /// The call with each of these buffers cut where it is too long.
    pub fn cut(&self, cut: impl Fn(usize) -> bool) -> Input {
        let mut input = self.clone();
        for (b, buffer) in self.call.buffers().enumerate().filter(|&(b, _)| cut(b)) {
            let len = buffer.length.cut(self.size(), self.buffers[b].len());
            input.buffers[b].truncate(len);
        }
        input
    }

    /// Gives buffers the lengths of a size, whether there is that size or not, and
    /// the call a table of it and a record of that.
    pub fn make_for(&mut self, size: usize) {
        for (buffer, bytes) in self.call.buffers().zip(&mut self.buffers) {
            match buffer.length {
                Length::Of(right) | Length::UpTo(right) => bytes.resize(right(size), 1),
                Length::Within { .. } if buffer.name == "table" => *bytes = to_bytes(&house(size)),
                Length::Within { .. } => {}
            }
        }
        if records::is_lent(self.call) {
            let kind = records::kind(self).unwrap_or(Kind::Plain);
            records::put_head(self, &Head::of(kind, size, 0, &to_bytes(&house(size))));
        }
    }

    pub fn description(&self) -> String {
        let numbers = self.call.numbers().zip(&self.numbers);
        let numbers = numbers.map(|(name, number)| format!("{name} {number}"));
        let buffers = self.call.buffers().zip(&self.buffers);
        let buffers = buffers.map(|(b, bytes)| format!("{} of {}", b.name, bytes.len()));
        let arguments: Vec<String> = numbers.chain(buffers).collect();
        format!("{} with {}", self.call.name, arguments.join(", "))
    }
}

impl Index<&str> for Input {
    type Output = Vec<u8>;

    fn index(&self, name: &str) -> &Vec<u8> {
        &self.buffers[self.index_of(name)]
    }
}

impl IndexMut<&str> for Input {
    fn index_mut(&mut self, name: &str) -> &mut Vec<u8> {
        let index = self.index_of(name);
        &mut self.buffers[index]
    }
}
