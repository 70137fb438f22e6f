//! Parity tables, written from the sections "Layers", "Parity table", "House
//! table" and "What stops a call" of 01 and from CR 6 of 02.

use crate::cover::covered;
use crate::stop::Stop;

/// The largest depth.
pub const MAX_DEPTH: u64 = 9;

/// The longest table that comes as bytes.
pub const MAX_BYTES: usize = 220_792;

/// The kinds of words: the top two bits.
pub const MEMBER: u32 = 0b00;
pub const LAYER: u32 = 0b01;
pub const EQUATION: u32 = 0b10;
pub const END: u32 = 0b11;

/// A word of a kind and a value of 30 bits.
pub fn word(kind: u32, value: usize) -> u32 {
    assert!(value < 1 << 30);
    kind << 30 | value as u32
}

/// The data symbols of a layer.
pub fn data_symbols(layer: usize) -> usize {
    4 << layer
}

/// A table as bytes, four to a word, the highest first.
pub fn to_bytes(words: &[u32]) -> Vec<u8> {
    words.iter().flat_map(|word| word.to_be_bytes()).collect()
}

/// The whole words of a table that comes as bytes.
pub fn to_words(bytes: &[u8]) -> Vec<u32> {
    bytes.chunks_exact(4).map(|b| u32::from_be_bytes([b[0], b[1], b[2], b[3]])).collect()
}

/// The members of each equation of each layer.
pub type Layers = Vec<Vec<Vec<usize>>>;

/// Whether a table that comes as bytes is taken.
pub fn check_bytes(depth: u64, table: &[u8]) -> Result<(), Stop> {
    equations(depth, table).map(|_| ())
}

/// The equations of a table that comes as bytes, where it is taken.
pub fn equations(depth: u64, table: &[u8]) -> Result<Layers, Stop> {
    layers_of(depth)?;
    byte_length(table)?;
    let layers = listed(depth, &to_words(table))?;
    covered(&layers)?;
    Ok(layers)
}

/// Whether a list keeps the rules of 01, covered or not.
pub fn check_words(depth: u64, words: &[u32]) -> Result<(), Stop> {
    read(layers_of(depth)?, words, |_, _| ())
}

/// The equations of a list that keeps the rules of 01, covered or not.
pub fn listed(depth: u64, words: &[u32]) -> Result<Layers, Stop> {
    check_words(depth, words)?;
    Ok(listed_so_far(layers_of(depth)?, words))
}

/// The equations that a list has before its first wrong word.
pub fn listed_so_far(layers: usize, words: &[u32]) -> Layers {
    let mut found = vec![Vec::new(); layers];
    // Where the word is, the caller knows, or does not ask.
    let _ = read(layers, words, |layer, members| {
        found[layer].push(members.iter().map(|&member| member as usize).collect());
    });
    found
}

/// The layers of a depth.
pub fn layers_of(depth: u64) -> Result<usize, Stop> {
    if (1..=MAX_DEPTH).contains(&depth) {
        Ok(depth as usize)
    } else {
        Err(Stop::Depth)
    }
}

/// The length of a table that comes as bytes.
pub fn byte_length(table: &[u8]) -> Result<(), Stop> {
    if table.len() > MAX_BYTES || table.len() % 4 != 0 {
        return Err(Stop::Length);
    }
    Ok(())
}

/// Reads a table, and hands on the members of each equation with its layer.
fn read(
    layers: usize,
    words: &[u32],
    mut equation_of: impl FnMut(usize, &[u32]),
) -> Result<(), Stop> {
    let mut reader = Reader { words, at: 0 };
    for layer in 0..layers {
        reader.opener(LAYER, layer)?;
        let k = data_symbols(layer);
        for equation in 0..3 * k {
            reader.opener(EQUATION, equation)?;
            let first = reader.at;
            reader.members((k + equation) as u32)?;
            equation_of(layer, &words[first..reader.at]);
        }
    }
    reader.opener(END, reader.at)?;
    reader.nothing()
}

/// The words, and the place of the next.
struct Reader<'a> {
    words: &'a [u32],
    at: usize,
}

impl Reader<'_> {
    /// The next word has this kind and this value.
    fn opener(&mut self, kind: u32, value: usize) -> Result<(), Stop> {
        match self.words.get(self.at) {
            Some(&found) if found >> 30 == kind && (found & 0x3fff_ffff) as usize == value => {
                self.at += 1;
                Ok(())
            }
            _ => Err(Stop::Word(self.at)),
        }
    }

    /// The next words are 2 to 8 members, strictly ascending, up to `last`.
    fn members(&mut self, last: u32) -> Result<(), Stop> {
        let mut lowest = 0;
        for number in 1..=8 {
            let found = match self.words.get(self.at) {
                Some(&found) if found >> 30 == MEMBER => found,
                _ => return Err(Stop::Word(self.at)),
            };
            if found < lowest || found > last {
                return Err(Stop::Word(self.at));
            }
            let ends = found == last;
            if (ends && number == 1) || (!ends && number == 8) {
                return Err(Stop::Word(self.at));
            }
            self.at += 1;
            if ends {
                break;
            }
            lowest = found + 1;
        }
        Ok(())
    }

    /// No word is left.
    fn nothing(&self) -> Result<(), Stop> {
        if self.at < self.words.len() {
            return Err(Stop::Word(self.at));
        }
        Ok(())
    }
}

/// The members of equation `e` of the house table in a layer of `k` data
/// symbols.
pub fn house_equation(k: usize, e: usize) -> Vec<usize> {
    let mut members = vec![e % k, (e + 1 + e / k) % k];
    if e > 0 {
        members.push(k + e - 1);
    }
    members.push(k + e);
    members.sort_unstable();
    members
}

/// The words of the house table of a depth.
pub fn house(depth: usize) -> Vec<u32> {
    let layers: Layers = (0..depth)
        .map(|layer| {
            let k = data_symbols(layer);
            (0..3 * k).map(|e| house_equation(k, e)).collect()
        })
        .collect();
    write(&layers)
}

/// The words of a table: its layers, their equations, their members.
pub fn write(layers: &[Vec<Vec<usize>>]) -> Vec<u32> {
    let mut words = Vec::new();
    for (layer, equations) in layers.iter().enumerate() {
        words.push(word(LAYER, layer));
        for (equation, members) in equations.iter().enumerate() {
            words.push(word(EQUATION, equation));
            words.extend(members.iter().map(|&member| word(MEMBER, member)));
        }
    }
    words.push(word(END, words.len()));
    words
}

#[cfg(test)]
mod tests {
    use super::*;
    use crate::written::without;

    /// Cases 1 and 2.
    #[test]
    fn house_table_of_depth_1() {
        assert_eq!(house_equation(4, 0), [0, 1, 4]);
        assert_eq!(house_equation(4, 3), [0, 3, 6, 7]);
        assert_eq!(house_equation(4, 9), [0, 1, 12, 13]);
        let words = house(1);
        assert_eq!(words.len(), 61);
        assert_eq!(words[60], word(END, 60));
    }

    #[test]
    fn house_tables_are_whole() {
        for depth in 1..=MAX_DEPTH as usize {
            let words = house(depth);
            assert_eq!(words.len(), 5 * 12 * ((1 << depth) - 1) + 1);
            assert_eq!(check_words(depth as u64, &words), Ok(()));
            assert_eq!(check_bytes(depth as u64, &to_bytes(&words)), Ok(()));
        }
    }

    /// The longest list that comes as bytes has eight members in each equation. No table of
    /// the largest depth is so long: layer 0's first three equations have room for 5, 6 and 7.
    #[test]
    fn longest_tables() {
        let layers: Layers = (0..MAX_DEPTH as usize)
            .map(|layer| {
                let k = data_symbols(layer);
                (k..4 * k).map(|last| (0..last.min(7)).chain([last]).collect()).collect()
            })
            .collect();
        let words = write(&layers);
        assert_eq!(check_words(MAX_DEPTH, &words), Ok(()));
        assert_eq!(4 * words.len(), 220_768);
        let layers = MAX_DEPTH as usize;
        let equations: usize = (0..layers).map(|layer| 3 * data_symbols(layer)).sum();
        assert_eq!(4 * (layers + 9 * equations + 1), MAX_BYTES);
    }

    #[test]
    fn equations_are_those_written() {
        let words = house(3);
        let layers = equations(3, &to_bytes(&words)).unwrap();
        assert_eq!(layers[2][47], house_equation(16, 47));
        assert_eq!(write(&layers), words);
    }

    #[test]
    fn a_short_list_is_wrong_at_its_end() {
        for words in [house(2), without(2, 0, 1)] {
            for len in 0..words.len() {
                assert_eq!(check_words(2, &words[..len]), Err(Stop::Word(len)));
                assert_eq!(check_bytes(2, &to_bytes(&words[..len])), Err(Stop::Word(len)));
            }
            assert_eq!(check_words(2, &words), Ok(()));
        }
    }

    #[test]
    fn equations_before_a_wrong_word() {
        let words = house(2);
        let whole = listed(2, &words).unwrap();
        // The first layer has 60 words, and an equation of it that is not the first 5.
        for (len, equations) in [(0, 0), (59, 11), (60, 12), (61, 12)] {
            let found = listed_so_far(2, &words[..len]);
            assert_eq!((&found[0][..], found[1].len()), (&whole[0][..equations], 0));
        }
        assert_eq!(listed_so_far(2, &[&words[..], &[0]].concat()), whole);
    }

    #[test]
    fn tests_in_their_order() {
        let bytes = to_bytes(&house(1));
        assert_eq!(check_bytes(0, &bytes[1..]), Err(Stop::Depth));
        assert_eq!(check_bytes(10, &to_bytes(&house(10))[1..]), Err(Stop::Depth));
        assert_eq!(check_bytes(1 << 32 | 1, &bytes), Err(Stop::Depth));
        assert_eq!(check_bytes(1 << 32 | 9, &to_bytes(&house(9))), Err(Stop::Depth));
        assert_eq!(check_bytes(1, &bytes[1..]), Err(Stop::Length));
        assert_eq!(check_bytes(1, &[0xff; MAX_BYTES + 4]), Err(Stop::Length));
        assert_eq!(check_bytes(1, &[0xff; MAX_BYTES]), Err(Stop::Word(0)));
        assert_eq!(check_bytes(9, &[0xff; MAX_BYTES]), Err(Stop::Word(0)));
        for (depth, len) in [(1, 16_388), (5, 16_388), (5, MAX_BYTES), (9, MAX_BYTES)] {
            let words = house(depth);
            let mut longer = to_bytes(&words);
            longer.resize(len.max(longer.len() + 4), 0);
            assert_eq!(check_bytes(depth as u64, &longer), Err(Stop::Word(words.len())));
        }
        assert_eq!(check_bytes(1, &[]), Err(Stop::Word(0)));
        let uncovered = to_bytes(&without(1, 0, 2));
        assert_eq!(check_bytes(1, &uncovered[1..]), Err(Stop::Length));
        assert_eq!(check_bytes(1, &uncovered[4..]), Err(Stop::Word(0)));
        assert_eq!(check_bytes(2, &uncovered), Err(Stop::Word(uncovered.len() / 4 - 1)));
        assert_eq!(check_bytes(1, &uncovered), Err(Stop::Uncovered { layer: 0, symbol: 2 }));
    }

    /// The first wrong word of the house table of depth 1 with one word
    /// replaced.
    fn replaced(at: usize, by: u32) -> Result<(), Stop> {
        let mut words = house(1);
        words[at] = by;
        check_words(1, &words)
    }

    #[test]
    fn members() {
        // equation 0 is {0, 1, 4}: words 2, 3 and 4
        assert_eq!(replaced(2, 4), Err(Stop::Word(2)));
        assert_eq!(replaced(3, 0), Err(Stop::Word(3)));
        assert_eq!(replaced(3, 3), Ok(()));
        assert_eq!(replaced(4, 5), Err(Stop::Word(4)));
        assert_eq!(replaced(4, word(EQUATION, 1)), Err(Stop::Word(4)));
        // a member after the last
        assert_eq!(replaced(3, 4), Err(Stop::Word(4)));
        assert_eq!(replaced(60, word(END, 59)), Err(Stop::Word(60)));
        // a value of thirty bits, whole
        assert_eq!(replaced(0, word(LAYER, 1 << 29)), Err(Stop::Word(0)));
    }

    #[test]
    fn at_most_eight_members() {
        let mut layers = vec![(0..12).map(|e| house_equation(4, e)).collect::<Vec<_>>()];
        layers[0][11] = vec![0, 1, 2, 3, 4, 5, 6, 15];
        let words = write(&layers);
        assert_eq!(check_words(1, &words), Ok(()));
        layers[0][11] = vec![0, 1, 2, 3, 4, 5, 6, 7, 15];
        let long = write(&layers);
        let eighth = words.len() - 2;
        assert_eq!(check_words(1, &long), Err(Stop::Word(eighth)));
    }

    #[test]
    fn nothing_follows_the_end() {
        let mut words = house(1);
        words.push(word(END, 61));
        assert_eq!(check_words(1, &words), Err(Stop::Word(61)));
    }
}
