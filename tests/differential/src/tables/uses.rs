//! Equations that use a data symbol: more of them, or just so many.

use crate::random::Random;
use reference::table::{data_symbols, Layers};

/// The most members of an equation.
pub const MOST: usize = 8;

/// The equations that are enough for a data symbol.
const ENOUGH: usize = 2;

/// Puts data symbols into more equations, until each is in enough.
pub fn cover(layers: &mut Layers, random: &mut Random) {
    for (layer, equations) in layers.iter_mut().enumerate() {
        let k = data_symbols(layer);
        let mut times = vec![0; k];
        let data = equations.iter().flatten().filter(|&&member| member < k);
        data.for_each(|&data| times[data] += 1);
        for (symbol, times) in times.into_iter().enumerate() {
            for _ in times..ENOUGH {
                let without = |&e: &usize| !equations[e].contains(&symbol);
                let others: Vec<usize> =
                    with_room(equations, 1).into_iter().filter(without).collect();
                let members = &mut equations[others[random.below(others.len())]];
                members.push(symbol);
                members.sort_unstable();
            }
        }
    }
}

/// Puts a random data symbol into too few equations. It gives its layer and its
/// number: of a table that was covered, the first that is not.
pub fn uncover(layers: &mut Layers, random: &mut Random) -> (usize, usize) {
    let layer = random.below(layers.len());
    let symbol = random.below(data_symbols(layer));
    let times = random.below(2);
    use_times(&mut layers[layer], &[symbol], times, random);
    (layer, symbol)
}

/// Makes data symbols of a layer members of just so many equations, or of all that
/// have room for them.
pub fn use_times(
    equations: &mut [Vec<usize>],
    symbols: &[usize],
    times: usize,
    random: &mut Random,
) {
    use_only_in(equations, symbols, &[], random);
    let mut others = with_room(equations, symbols.len());
    let times = times.min(others.len());
    let chosen: Vec<usize> =
        (0..times).map(|_| others.swap_remove(random.below(others.len()))).collect();
    use_only_in(equations, symbols, &chosen, random);
}

/// Makes data symbols of a layer, but not all of them, members of these equations
/// and of no others. No other symbol leaves an equation; where too few members
/// would stay, or by chance, another comes in.
pub fn use_only_in(
    equations: &mut [Vec<usize>],
    symbols: &[usize],
    chosen: &[usize],
    random: &mut Random,
) {
    for (e, members) in equations.iter_mut().enumerate() {
        let before = members.len();
        members.retain(|member| !symbols.contains(member));
        if chosen.contains(&e) {
            members.extend(symbols);
        } else if members.len() == 1 || members.len() < before && random.below(2) == 0 {
            let other = another(members, symbols, random);
            members.extend(other);
        }
        members.sort_unstable();
        assert!((2..=MOST).contains(&members.len()), "an equation by the rules");
    }
}

/// A symbol that an equation can have as one more member, but none of these.
fn another(members: &[usize], symbols: &[usize], random: &mut Random) -> Option<usize> {
    let last = members[members.len() - 1];
    let other = |other: &usize| !symbols.contains(other) && !members.contains(other);
    let others: Vec<usize> = (0..last).filter(other).collect();
    others.get(random.below(others.len().max(1))).copied()
}

/// The equations that so many more symbols can be members of.
fn with_room(equations: &[Vec<usize>], more: usize) -> Vec<usize> {
    (0..equations.len()).filter(|&e| equations[e].len() + more <= MOST).collect()
}

#[cfg(test)]
mod tests {
    use super::*;
    use crate::stops::{DEEP, DEPTHS};
    use crate::tables::lists::some_equations;
    use reference::cover::covered;
    use reference::stop::Stop;
    use reference::table::{check_words, write};

    /// How many equations each data symbol of a layer is in.
    fn times(layer: usize, equations: &[Vec<usize>]) -> Vec<usize> {
        let uses = |symbol| equations.iter().filter(|members| members.contains(&symbol)).count();
        (0..data_symbols(layer)).map(uses).collect()
    }

    #[test]
    fn just_so_many_equations() {
        let mut random = Random::new(28);
        for turn in 0..600 {
            let mut layers = some_equations(3, &mut random);
            let (layer, asked) = (turn % 3, turn % 4);
            let symbols = [random.below(2), 2 + random.below(2)];
            let before = times(layer, &layers[layer]);
            use_times(&mut layers[layer], &symbols, asked, &mut random);
            let after = times(layer, &layers[layer]);
            assert_eq!(check_words(3, &write(&layers)), Ok(()));
            for (symbol, (before, after)) in before.into_iter().zip(after).enumerate() {
                let right =
                    if symbols.contains(&symbol) { after == asked } else { after >= before };
                assert!(right, "symbol {symbol}: {before}, then {after}, asked {asked}");
            }
        }
    }

    #[test]
    fn what_is_named_is_the_only_one() {
        let mut random = Random::new(496);
        for depth in (1..DEEP).cycle().take(300).chain(DEPTHS) {
            let mut layers = some_equations(depth, &mut random);
            let (layer, symbol) = uncover(&mut layers, &mut random);
            assert_eq!(covered(&layers), Err(Stop::Uncovered { layer, symbol }));
            use_times(&mut layers[layer], &[symbol], 2, &mut random);
            assert_eq!(covered(&layers), Ok(()));
        }
    }
}
