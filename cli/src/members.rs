//! The words of tables and of proofs' heads, and the members of a table's equations.

/// The low bits of a word, which are its value; the two above are its kind.
const VALUE: u32 = (1 << 30) - 1;

/// The kind and the value of each word.
pub fn words(bytes: &[u8]) -> impl Iterator<Item = (u32, usize)> + '_ {
    bytes.chunks_exact(4).map(|word| {
        let word = u32::from_be_bytes([word[0], word[1], word[2], word[3]]);
        (word >> 30, (word & VALUE) as usize)
    })
}

/// A page as a member of an equation, by their numbers in the layer.
#[derive(Debug, PartialEq, Eq)]
pub struct Member {
    pub layer: usize,
    pub equation: usize,
    pub page: usize,
}

/// The members of each equation in turn, in the bytes of a well-formed table.
pub fn members(table: &[u8]) -> impl Iterator<Item = Member> + '_ {
    let (mut layer, mut equation) = (0, 0);
    words(table).filter_map(move |(kind, value)| {
        match kind {
            0 => return Some(Member { layer, equation, page: value }),
            1 => layer = value,
            2 => equation = value,
            _ => {}
        }
        None
    })
}

#[cfg(test)]
mod tests {
    use super::*;

    #[test]
    fn words_have_a_kind_and_a_value() {
        let bytes = [0, 0, 1, 2, 0x40, 0, 0, 3, 0xbf, 255, 255, 255, 0xc0, 0, 0, 0, 9];
        let found: Vec<_> = words(&bytes).collect();
        assert_eq!(found, [(0, 258), (1, 3), (2, (1 << 30) - 1), (3, 0)]);
    }

    #[test]
    fn members_come_with_layer_and_equation() {
        let house = cedunmi::house_table(2).expect("the house table");
        let of = |layer, equation| {
            let those = members(&house)
                .filter(move |member| (member.layer, member.equation) == (layer, equation));
            those.map(|member| member.page).collect::<Vec<_>>()
        };
        assert_eq!((of(0, 0), of(0, 11)), (vec![0, 1, 4], vec![2, 3, 14, 15]));
        assert_eq!((of(1, 0), of(1, 23)), (vec![0, 1, 8], vec![2, 7, 30, 31]));
        assert!(of(0, 12).is_empty() && of(2, 0).is_empty());
        assert_eq!(members(&house).next(), Some(Member { layer: 0, equation: 0, page: 0 }));
    }
}
