//! Whether a repair stays linear, as CR 6 asks, by its instructions: valgrind counts them, without a clock, and every run is the same.
//!
//!     linear                   counts, and fails where a symbol takes over 1.25 times as many at depth 9 as at depth 5
//!     linear FUNCTION DEPTH    calls a function that is counted, on a tree that comes on its input, and prints what that gives
//!
//! 47 % of each layer are lost. That a search is found that is not linear is tried first.

use linear::lossy::Lossy;
use linear::search::looked_at;
use linear::volume::Volume;
use linear::worst::Chain;
use reference::kind::Kind;
use reference::record::RECORD;
use reference::repair::{output_len, End};
use reference::table::{equations, Layers};
use reference::tree::{place, tree_symbols, SYMBOL};
use std::io::{Read, Write};
use std::process::{Command, ExitCode, Output, Stdio};

const DEPTHS: [usize; 2] = [5, 9];

/// How many times as many instructions a symbol may take at the larger depth, in hundredths.
const MOST: u64 = 125;

/// A table with what is lost.
type Losses = (&'static str, fn(usize) -> Lossy);
const HOUSE: Losses = ("house table", |depth| Lossy::whole(depth, 470));
const UP: Losses = ("chain upwards", |depth| Lossy::worst(depth, Chain::Up, 470));
const DOWN: Losses = ("chain downwards", |depth| Lossy::worst(depth, Chain::Down, 470));

/// What is counted: the search is the same of both kinds, so with places one table is enough.
const COUNTED: [(Kind, Losses); 4] =
    [(Kind::Plain, HOUSE), (Kind::Plain, UP), (Kind::Plain, DOWN), (Kind::Placed, DOWN)];

/// A function that is counted, by the name that valgrind knows: its call, and what that must give.
struct Function {
    name: &'static str,
    call: fn(&mut Volume) -> u64,
    gives: fn(&Lossy) -> u64,
}

const REPAIR: Function = Function {
    name: "cmt_repair",
    call: |v| {
        let mut output = vec![0; output_len(v.depth as usize)];
        let Volume { depth, record, table, tree, marks, .. } = v;
        cedunmi_sys::cmt_repair(*depth, record, table, tree, marks, &mut output)
    },
    gives: |lossy| {
        let repaired = lossy.repaired();
        assert_eq!(repaired.end, End::Whole);
        (repaired.stored as u64) << 32
    },
};

/// A search that goes back after a store, which grows with the square of the tree.
const BACK: Function = Function {
    name: "goes_back",
    call: |v| {
        let marks = |layer| &v.marks[place(layer, 0)..place(layer + 1, 0)];
        let absent = |layer| marks(layer).iter().map(|&mark| mark == 0).collect();
        let absent: Vec<_> = (0..v.depth as usize).map(absent).collect();
        goes_back(&equations(v.depth, &v.table).expect("a table"), &absent)
    },
    gives: |lossy| goes_back(&lossy.layers, &lossy.absent),
};

#[no_mangle]
#[inline(never)]
fn goes_back(layers: &Layers, absent: &[Vec<bool>]) -> u64 {
    layers.iter().zip(absent).map(|(equations, absent)| looked_at(equations, absent) as u64).sum()
}

/// The instructions of a call on a tree of so many symbols.
#[derive(Clone, Copy)]
struct Count {
    instructions: u64,
    symbols: u64,
}

/// Counts at both depths.
type Counts = [Count; 2];

fn stays_linear([shallow, deep]: Counts) -> bool {
    100 * deep.instructions * shallow.symbols <= MOST * shallow.instructions * deep.symbols
}

fn shown(title: &str, counts: Counts) -> String {
    let [shallow, deep] = counts.map(|count| count.instructions as f64 / count.symbols as f64);
    format!("{title} {shallow:.0} and {deep:.0}, {:.3} times", deep / shallow)
}

fn main() -> ExitCode {
    let words: Vec<String> = std::env::args().skip(1).collect();
    let done = match words.iter().map(String::as_str).collect::<Vec<_>>()[..] {
        [] => count(),
        [name, depth] => call(name, depth),
        _ => Err("usage: linear | linear FUNCTION DEPTH".to_string()),
    };
    match done {
        Ok(line) => {
            println!("{line}");
            ExitCode::SUCCESS
        }
        Err(message) => {
            eprintln!("linear: {message}");
            ExitCode::FAILURE
        }
    }
}

/// The figures, where all are as they should be.
fn count() -> Result<String, String> {
    let known = counts(&BACK, Kind::Plain, DOWN)?;
    let known_shown = shown("a search that goes back", known);
    if stays_linear(known) {
        return Err(format!("{known_shown}: the counting misses that"));
    }
    let mut figures = Vec::new();
    let mut right = true;
    for (kind, losses) in COUNTED {
        let found = counts(&REPAIR, kind, losses)?;
        right &= stays_linear(found);
        let title = if kind == Kind::Placed { "with places, " } else { "" };
        figures.push(shown(&format!("{title}{}", losses.0), found));
    }
    let line = format!(
        "instructions a symbol at depth {} and {}: {}; refused as it should be: {known_shown}",
        DEPTHS[0],
        DEPTHS[1],
        figures.join("; ")
    );
    if right {
        Ok(format!("linear: {line}"))
    } else {
        Err(format!("over {MOST} hundredths: {line}"))
    }
}

fn counts(function: &Function, kind: Kind, (title, of_depth): Losses) -> Result<Counts, String> {
    let count_at = |depth| {
        counted(function, kind, &of_depth(depth))
            .map_err(|why| format!("{}, {title}, depth {depth}: {why}", function.name))
    };
    Ok([count_at(DEPTHS[0])?, count_at(DEPTHS[1])?])
}

/// What valgrind counts in a function, in a process of its own, which gives what it must.
fn counted(function: &Function, kind: Kind, lossy: &Lossy) -> Result<Count, String> {
    let volume = lossy.written_as(kind);
    let Output { status, stdout, stderr } =
        counting(function.name, &volume).map_err(|error| format!("valgrind: {error}"))?;
    let (printed, said) = (String::from_utf8_lossy(&stdout), String::from_utf8_lossy(&stderr));
    let wanted = (function.gives)(lossy);
    if !status.success() || printed.trim() != wanted.to_string() {
        return Err(format!("{status}, it gave {}, not {wanted}\n{said}", printed.trim()));
    }
    let collected = said.lines().find(|line| line.contains("Collected :"));
    let number = collected.and_then(|line| line.split_whitespace().last()?.parse().ok());
    match number {
        None | Some(0) => Err(format!("nothing was counted\n{said}")),
        Some(instructions) => Ok(Count { instructions, symbols: volume.marks.len() as u64 }),
    }
}

/// This program under valgrind, with a tree on its input.
fn counting(name: &str, volume: &Volume) -> std::io::Result<Output> {
    let mut child = Command::new("valgrind")
        .args(["--tool=callgrind", "--callgrind-out-file=/dev/null"])
        .arg(format!("--toggle-collect={name}"))
        .arg(std::env::current_exe()?)
        .args([name, &volume.depth.to_string()])
        .stdin(Stdio::piped())
        .stdout(Stdio::piped())
        .stderr(Stdio::piped())
        .spawn()?;
    let bytes = [&volume.record[..], &volume.marks, &volume.tree, &volume.table].concat();
    // Where it does not read them all, what it said tells why.
    let _ = child.stdin.take().expect("a pipe").write_all(&bytes);
    child.wait_with_output()
}

/// What a function gives that is named, on the tree of the input.
fn call(name: &str, depth: &str) -> Result<String, String> {
    let function = [REPAIR, BACK].into_iter().find(|function| function.name == name);
    let function = function.ok_or_else(|| format!("{name}: no such function"))?;
    let depth: usize = depth.parse().map_err(|_| format!("{depth}: no depth"))?;
    let mut bytes = Vec::new();
    std::io::stdin().read_to_end(&mut bytes).map_err(|error| error.to_string())?;
    let mut from = &bytes[..];
    let mut next = |len: usize| {
        let (front, rest) = from.split_at(len.min(from.len()));
        from = rest;
        front.to_vec()
    };
    let symbols = tree_symbols(depth);
    let (record, marks, tree) = (next(RECORD), next(symbols), next(SYMBOL * symbols));
    let table = next(bytes.len());
    let mut volume = Volume { depth: depth as u64, table, block: Vec::new(), tree, marks, record };
    Ok((function.call)(&mut volume).to_string())
}

#[cfg(test)]
mod tests {
    use super::*;

    /// So many instructions a symbol at the two depths, and some more in all at the larger one.
    fn made_up(each: [u64; 2], more: u64) -> Counts {
        let count = |at: usize, more| {
            let symbols = tree_symbols(DEPTHS[at]) as u64;
            Count { instructions: each[at] * symbols + more, symbols }
        };
        [count(0, 0), count(1, more)]
    }

    #[test]
    fn linear_up_to_a_quarter_more() {
        assert!(stays_linear(made_up([16_000, 15_000], 0)));
        assert!(stays_linear(made_up([16_000, 20_000], 0)));
        assert!(!stays_linear(made_up([16_000, 20_000], 1)));
        assert!(!stays_linear(made_up([16_000, 16 * 16_000], 0)));
    }

    #[test]
    fn chains_are_as_described() {
        assert_eq!(linear::worst::check(), Ok(()));
    }
}
