//! Calls with tables that are none.

use super::lists::{any_table, random_damage, random_table, table_of};
use crate::comparisons::Comparisons;
use crate::difference::Compared;
use crate::records::put_table;
use crate::stops::{turns, DEEP};
use reference::table::{house, to_bytes};

/// No words, equations of all sizes, tables of other depths, damaged ones.
pub fn damaged_tables(c: &mut Comparisons, depth: usize) -> Compared {
    let mut lists = vec![Vec::new()];
    lists.extend((1..=10).map(|size| table_of(depth, size)));
    // Of a deep depth, those beside it alone.
    let others = if depth < DEEP { 0..=DEEP + 1 } else { depth - 1..=depth + 1 };
    lists.extend(others.flat_map(|other| [house(other), random_table(other, &mut c.random)]));
    for turn in 0..turns(depth, 300) {
        let table = any_table(depth, &mut c.random);
        lists.push(random_damage(&table, 1 + turn % 3, &mut c.random));
    }
    let mut input = c.good(depth);
    for words in lists {
        put_table(&mut input, to_bytes(&words));
        c.make("a damaged table", &input)?;
    }
    Ok(())
}
