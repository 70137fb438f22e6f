//! Tables with what is lost of their trees.

use crate::random::mixed;
use crate::search::{given, Equations};
use crate::volume::{house, Volume};
use crate::worst::{self, Chain};
use reference::kind::Kind;
use reference::repair::{End, Repaired};
use reference::table::Layers;
use reference::tree::{place, symbols};

/// The layers whose random losses are the first that end as they must.
const SEEDED: usize = 5;

/// A table, and the symbols that are lost in each layer.
pub struct Lossy {
    pub layers: Layers,
    pub absent: Vec<Vec<bool>>,
}

impl Lossy {
    /// With nothing lost.
    pub fn new(layers: Layers) -> Lossy {
        let absent = (0..layers.len()).map(|layer| vec![false; symbols(layer)]).collect();
        Lossy { layers, absent }
    }

    /// With the loss that a worst table is made for.
    pub fn worst(depth: usize, chain: Chain, thousandths: usize) -> Lossy {
        let mut lossy = Lossy::new(worst::layers(depth, chain, thousandths));
        for (layer, absent) in lossy.absent.iter_mut().enumerate() {
            absent[..worst::lost(layer, thousandths)].fill(true);
        }
        lossy
    }

    /// The house table, with symbols lost at random by a seed, so many of a thousand, in a layer and those below it.
    fn random(depth: usize, from: usize, thousandths: u64, seed: u64) -> Lossy {
        let mut lossy = Lossy::new(house(depth));
        for layer in from..depth {
            for (symbol, absent) in lossy.absent[layer].iter_mut().enumerate() {
                *absent = lost_by(seed, place(layer, symbol), thousandths);
            }
        }
        lossy
    }

    /// The same in all layers, by the first seed with which a repair of the first five is whole. A larger layer is hardly ever: there the
    /// symbols that a repair would leave are kept, and others lost in their place.
    pub fn whole(depth: usize, thousandths: u64) -> Lossy {
        let of_seed = |seed| Lossy::random(depth.min(SEEDED), 0, thousandths, seed);
        let is_whole = |&seed: &u64| of_seed(seed).repaired().end == End::Whole;
        let seed = (0..).find(is_whole).expect("a seed");
        let mut lossy = Lossy::random(depth, 0, thousandths, seed);
        for layer in SEEDED..depth {
            lose_others(&lossy.layers[layer], &mut lossy.absent[layer], seed);
        }
        lossy
    }

    /// The same in the base alone, by the first seed with which a repair leaves some.
    pub fn stopping(depth: usize, thousandths: u64) -> Lossy {
        let mut of_seed = (0..).map(|seed| Lossy::random(depth, depth - 1, thousandths, seed));
        of_seed.find(|lossy| lossy.repaired().end != End::Whole).expect("a seed")
    }

    /// What a repair does with a tree of this table.
    pub fn repaired(&self) -> Repaired {
        let mut stored = 0;
        for (layer, (equations, absent)) in self.layers.iter().zip(&self.absent).enumerate() {
            let given = given(equations, absent).len();
            stored += given;
            if given < absent.iter().filter(|&&absent| absent).count() {
                return Repaired { end: End::Unavailable(layer), stored };
            }
        }
        Repaired { end: End::Whole, stored }
    }

    /// The tree of a block, as a plain volume, without what is lost.
    pub fn written(&self) -> Volume {
        self.written_as(Kind::Plain)
    }

    /// The same as a volume of a kind.
    pub fn written_as(&self, kind: Kind) -> Volume {
        let mut volume = Volume::written(kind, &self.layers);
        for (mark, absent) in volume.marks.iter_mut().zip(self.absent.concat()) {
            *mark = u8::from(!absent);
        }
        volume
    }
}

/// Whether the symbol of a place is lost by a seed, where so many of a thousand are.
fn lost_by(seed: u64, place: usize, thousandths: u64) -> bool {
    mixed(seed << 32 | place as u64) % 1000 < thousandths
}

/// Keeps the symbols that a repair of a layer would leave, and loses as many others at random, until it leaves none.
fn lose_others(equations: &Equations, absent: &mut [bool], seed: u64) {
    let count = |absent: &[bool]| absent.iter().filter(|&&absent| absent).count();
    let wanted = count(absent);
    let mut turn = 0;
    loop {
        let mut left = absent.to_vec();
        given(equations, absent).iter().for_each(|given| left[given.symbol] = false);
        absent.iter_mut().zip(left).for_each(|(absent, left)| *absent &= !left);
        let missing = wanted - count(absent);
        if missing == 0 {
            break;
        }
        // Half of them: so what one of them makes a repair leave is not all that is lost.
        let enough = count(absent) + (missing + 1) / 2;
        while count(absent) < enough {
            turn += 1;
            absent[mixed(seed << 32 | turn) as usize % absent.len()] = true;
        }
    }
}
