//! Sets of numbers below 256: the symbols of a layer, and of the base.

#[derive(Clone, Copy, Debug, Default, PartialEq, Eq)]
pub struct Set([u64; 4]);

impl Set {
    pub fn with(mut self, number: usize) -> Set {
        self.0[number / 64] |= 1 << (number % 64);
        self
    }

    pub fn without(mut self, number: usize) -> Set {
        self.0[number / 64] &= !(1 << (number % 64));
        self
    }

    pub fn has(self, number: usize) -> bool {
        self.0[number / 64] >> (number % 64) & 1 == 1
    }

    pub fn or(self, other: Set) -> Set {
        let [a, b, c, d] = self.0;
        let [e, f, g, h] = other.0;
        Set([a | e, b | f, c | g, d | h])
    }

    pub fn len(self) -> usize {
        self.0.iter().map(|part| part.count_ones() as usize).sum()
    }

    #[cfg(test)]
    pub fn numbers(self) -> impl Iterator<Item = usize> {
        (0..256).filter(move |&number| self.has(number))
    }
}

impl FromIterator<usize> for Set {
    fn from_iter<I: IntoIterator<Item = usize>>(numbers: I) -> Set {
        numbers.into_iter().fold(Set::default(), Set::with)
    }
}
