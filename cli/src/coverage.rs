//! Data pages that too few equations of a table have as a member.

use crate::members::members;

/// The equations of a layer that have the page of this number as a member, in the bytes of a well-formed table.
fn equations_with(table: &[u8], layer: usize, page: usize) -> Vec<usize> {
    let those = members(table).filter(|member| (member.layer, member.page) == (layer, page));
    those.map(|member| member.equation).collect()
}

/// Of a table that leaves a page in fewer than two equations: what becomes of the page.
pub fn open_to_loss(name: &str, table: &[u8], layer: usize, page: usize) -> Option<String> {
    match equations_with(table, layer, page)[..] {
        [] => Some(format!(
            "{name} has it in no equation: once it is lost, no repair brings it back"
        )),
        [equation] => Some(format!(
            "{name} has it in equation {equation} alone: if another page of that equation is lost too, \
             a repair may not bring it back"
        )),
        _ => None,
    }
}

#[cfg(test)]
mod tests {
    use super::*;

    /// The house table of depth 2 with these bytes changed: a word, what its value was, and what it is.
    fn changed(changes: &[(usize, u8, u8)]) -> Vec<u8> {
        let mut table = cedunmi::house_table(2).expect("the house table");
        for (word, was, is) in changes {
            assert_eq!(std::mem::replace(&mut table[4 * word + 3], *is), *was);
        }
        table
    }

    #[test]
    fn equations_are_those_of_the_layer() {
        let house = changed(&[]);
        assert_eq!(equations_with(&house, 0, 2), [1, 2, 4, 6, 10, 11]);
        assert_eq!(equations_with(&house, 0, 15), [11]);
        assert_eq!(equations_with(&house, 1, 1), [0, 1, 9, 15, 17, 22]);
        assert!(equations_with(&house, 1, 32).is_empty());
        assert!(equations_with(&house, 2, 0).is_empty());
        assert!(equations_with(&[], 0, 0).is_empty());
    }

    /// Page 2 of the top layer stays in six equations, in one, in none.
    #[test]
    fn a_page_that_is_open_to_loss_is_told() {
        let all_but_one = [(11, 2, 1), (22, 2, 1), (32, 2, 3), (52, 2, 3), (56, 2, 1)];
        let told = |changes: &[_]| open_to_loss("a", &changed(changes), 0, 2);
        assert_eq!(told(&[]), None);
        let alone = "a has it in equation 1 alone: if another page of that equation is lost too, \
                     a repair may not bring it back";
        assert_eq!(told(&all_but_one).as_deref(), Some(alone));
        let none = "a has it in no equation: once it is lost, no repair brings it back";
        assert_eq!(told(&[&all_but_one[..], &[(7, 2, 3)]].concat()).as_deref(), Some(none));
    }
}
