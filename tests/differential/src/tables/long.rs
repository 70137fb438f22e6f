//! Tables as long as they can be, longer lists, and tables of a depth beside.

use super::listed;
use super::lists::{chained, random_table, table_of, LINKS, WORD_KINDS};
use crate::comparisons::Comparisons;
use crate::difference::Compared;
use crate::results::number;
use crate::stops::{DEEP, DEPTHS};
use reference::stop::Stop;
use reference::table::{house, word, MAX_BYTES};

/// What a list comes to that is well-formed up to its end word, where this word stands.
fn wrong_from(end: usize, words: usize) -> u64 {
    number(if 4 * words > MAX_BYTES { Err(Stop::Length) } else { Err(Stop::Word(end + 1)) })
}

/// Eight members everywhere, where there is room for them, and words after that up to the
/// limit and one beyond it.
pub fn longest_tables(c: &mut Comparisons) -> Compared {
    for &depth in c.sizes {
        let words = table_of(depth, 8);
        c.make_so("the longest table", &listed(depth as u64, &words), Ok(()))?;
        if depth == DEPTHS[DEPTHS.len() - 1] {
            assert_eq!(4 * words.len(), 220_768);
            for kind in WORD_KINDS {
                let mut longer = words.clone();
                while 4 * longer.len() <= MAX_BYTES {
                    longer.push(word(kind, longer.len()));
                    let result = c.make("a word after them", &listed(depth as u64, &longer))?;
                    assert_eq!(result, wrong_from(words.len() - 1, longer.len()));
                }
            }
        }
    }
    Ok(())
}

/// A whole table, and after it as many words as the limit leaves room for, or one more: zeros,
/// or the layers that a deeper table has next.
pub fn more_words_than_a_table(c: &mut Comparisons) -> Compared {
    for &depth in c.sizes {
        for words in [house(depth), random_table(depth, &mut c.random)] {
            let end = words.len() - 1;
            let longer = table_of(DEPTHS.len(), 8);
            for most in [4096, 4097, 16_384, MAX_BYTES / 4 - 6, MAX_BYTES / 4, MAX_BYTES / 4 + 1] {
                let mut zeros = words.clone();
                zeros.resize(most.max(words.len() + 1), 0);
                let mut more = words.clone();
                more.extend(longer.iter().cycle().take(zeros.len() - words.len()));
                for list in [zeros, more] {
                    let result = c.make("words after a table", &listed(depth as u64, &list))?;
                    assert_eq!(result, wrong_from(end, list.len()));
                }
            }
        }
    }
    Ok(())
}

/// A table lent at a depth that is less by one: the opener of its base is wrong, where the end
/// word must be. And at one that is more by one: its end word is, where the next layer opens.
pub fn neighbouring_depths(c: &mut Comparisons) -> Compared {
    for &depth in c.sizes.iter().filter(|&&depth| depth >= DEEP - 1) {
        for words in [house(depth), random_table(depth, &mut c.random), table_of(depth, 8)] {
            let base = words.iter().position(|&opener| opener == word(1, depth - 1));
            let base = base.expect("the opener of the base");
            let result = c.make("lent at the depth before", &listed(depth as u64 - 1, &words))?;
            assert_eq!(result, number(Err(Stop::Word(base))));
            if depth < DEPTHS.len() {
                let result =
                    c.make("lent at the depth after", &listed(depth as u64 + 1, &words))?;
                assert_eq!(result, number(Err(Stop::Word(words.len() - 1))));
            }
        }
    }
    Ok(())
}

/// Tables whose data symbols can be formed in one order alone.
pub fn chains(c: &mut Comparisons) -> Compared {
    for &depth in c.sizes {
        for links in LINKS {
            c.make_so("a chain", &listed(depth as u64, &chained(depth, links)), Ok(()))?;
        }
    }
    Ok(())
}
