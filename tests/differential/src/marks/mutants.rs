//! Wrong ways to ask test 4.

use crate::call::Ask;
use crate::input::Input;
use reference::stop::Stop;

pub const WRONG: &[(&str, Ask)] = &[
    ("2 is held", |i| bad_mark(i, |_, mark| mark > 2)),
    ("3 is absent", |i| bad_mark(i, |_, mark| mark > 1 && mark != 3)),
    ("128 is absent", |i| bad_mark(i, |_, mark| mark % 128 > 1)),
    ("255 is held", |i| bad_mark(i, |_, mark| mark > 1 && mark < 255)),
    ("two bits tested", |i| bad_mark(i, |_, mark| mark & 0x82 != 0)),
    ("the first mark not tested", |i| bad_mark(i, |place, mark| place > 0 && mark > 1)),
    ("the last mark not tested", |i| {
        bad_mark(i, |place, mark| place + 1 < i["marks"].len() && mark > 1)
    }),
    ("marks of the top not tested", |i| bad_mark(i, |place, mark| place > 15 && mark > 1)),
    ("marks below the top not tested", |i| bad_mark(i, |place, mark| place < 16 && mark > 1)),
    ("the highest bad mark", |i| match i["marks"].iter().rposition(|&mark| mark > 1) {
        Some(place) => Err(Stop::Mark(place)),
        None => Ok(()),
    }),
];

/// The first mark that is taken for a bad one.
fn bad_mark(input: &Input, bad: impl Fn(usize, u8) -> bool) -> Result<(), Stop> {
    let mut marks = input["marks"].iter().enumerate();
    match marks.find(|&(place, &mark)| bad(place, mark)) {
        Some((place, _)) => Err(Stop::Mark(place)),
        None => Ok(()),
    }
}
