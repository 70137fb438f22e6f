//! Where a path breaks, written from CR 4 of 02.

use crate::stop::Stop;
use std::cmp::Reverse;

/// No given symbol is broken: none has another hash than the committed one. Each that
/// is comes with its layer and, in a proof, the position of its member. Of all of them
/// the first member's count, and of these the one in the lowest layer, since a path
/// goes up from there.
pub fn unbroken(broken: impl Iterator<Item = (Option<usize>, usize)>) -> Result<(), Stop> {
    match broken.min_by_key(|&(position, layer)| (position, Reverse(layer))) {
        Some((position, layer)) => Err(Stop::Hash { layer, position }),
        None => Ok(()),
    }
}

#[cfg(test)]
mod tests {
    use super::*;

    #[test]
    fn lowest_layer_of_the_first_member() {
        let first = |broken: &[(Option<usize>, usize)]| unbroken(broken.iter().copied());
        assert_eq!(first(&[]), Ok(()));
        let stop = Err(Stop::Hash { layer: 3, position: None });
        assert_eq!(first(&[(None, 2), (None, 3), (None, 0)]), stop);
        let stop = Err(Stop::Hash { layer: 1, position: Some(2) });
        assert_eq!(first(&[(Some(3), 4), (Some(2), 0), (Some(2), 1), (Some(7), 2)]), stop);
    }
}
