//! What stops a call, written from the section "What stops a call" of 01 and from
//! CRs 1, 4, 5 and 7 of 02.

/// A cause, with the values that are returned beside its number.
#[derive(Clone, Copy, Debug, PartialEq, Eq)]
pub enum Stop {
    Depth,
    Length,
    /// With the first wrong word, or the number of words of a list that is
    /// short.
    Word(usize),
    /// With the lowest place.
    Mark(usize),
    Number,
    Head,
    /// With the layer, and of a proof with the position of the member.
    Hash {
        layer: usize,
        position: Option<usize>,
    },
    NoFault,
    /// With the index in the sample, or the base number.
    Absent(usize),
    /// With the layer, and the number of the data symbol in it.
    Uncovered {
        layer: usize,
        symbol: usize,
    },
    /// A record's head is out of form, or for another depth, or there is no such kind.
    WrongRecord,
    /// A table is not the one that the record names.
    OtherTable,
    /// A repair of the tree would not end whole with nothing stored.
    NotWhole,
}

impl Stop {
    /// The number of a cause, and its values, as many as it has.
    pub fn numbers(self) -> (u64, Vec<usize>) {
        match self {
            Stop::Depth => (1, vec![]),
            Stop::Length => (2, vec![]),
            Stop::Word(at) => (3, vec![at]),
            Stop::Mark(place) => (4, vec![place]),
            Stop::Number => (5, vec![]),
            Stop::Head => (6, vec![]),
            Stop::Hash { layer, position } => (7, [layer].into_iter().chain(position).collect()),
            Stop::NoFault => (8, vec![]),
            Stop::Absent(index) => (9, vec![index]),
            Stop::Uncovered { layer, symbol } => (10, vec![layer, symbol]),
            Stop::WrongRecord => (11, vec![]),
            Stop::OtherTable => (12, vec![]),
            Stop::NotWhole => (14, vec![]),
        }
    }
}
