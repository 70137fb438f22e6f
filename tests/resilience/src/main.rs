//! What losses the house table survives, how many samples show that something is withheld, and how long samples and proofs are.
//!
//!     resilience tables    the tables of docs/BENCHMARKS.md
//!     resilience curve     lines of DEPTH, PERCENT and the chance that a repair is whole after such a loss

mod layer;
mod losses;
mod samples;
mod set;
mod sizes;
mod stopping;

use layer::Layer;
use losses::{average, chance, nearly_always, survived};
use reference::proof::proof_len;
use reference::sample::sample_len;
use reference::tree::{block_len, symbols};
use samples::{needed, needed_different, showing};
use std::process::ExitCode;

const DEPTHS: std::ops::RangeInclusive<usize> = 1..=5;

/// The depths of a tree, whose lengths are known without a search.
const ALL_DEPTHS: std::ops::RangeInclusive<usize> = 1..=9;

fn main() -> ExitCode {
    let words: Vec<String> = std::env::args().skip(1).collect();
    match words.iter().map(String::as_str).collect::<Vec<_>>()[..] {
        ["tables"] => {
            println!("{}\n\n{}\n\n{}\n\n{}", lengths(), layers(), trees(), withheld());
            ExitCode::SUCCESS
        }
        ["curve"] => {
            curve();
            ExitCode::SUCCESS
        }
        _ => {
            eprintln!("usage: resilience tables | curve");
            ExitCode::FAILURE
        }
    }
}

/// A table as Markdown: its head, and its rows.
fn markdown(head: &str, rows: impl Iterator<Item = String>) -> String {
    let columns = head.matches(" | ").count();
    let lines = [format!("| {head} |"), format!("|---|{}", "---:|".repeat(columns))];
    let rows = rows.map(|row| format!("| {row} |"));
    lines.into_iter().chain(rows).collect::<Vec<_>>().join("\n")
}

fn percent(share: f64) -> String {
    format!("{:.1} %", 100.0 * share)
}

/// A number with a comma before each three digits.
fn grouped(number: usize) -> String {
    if number < 1000 {
        return number.to_string();
    }
    format!("{},{:03}", grouped(number / 1000), number % 1000)
}

/// Samples and proofs of a fault in the base, beside 003's formulas: the longest proof has 8 members, one by the house table 4.
fn lengths() -> String {
    let head = "Bytes at depth | a sample | by (2) of 003 | the longest proof | by (4) of 003 | a proof by the house table | by (4) of 003";
    let rows = ALL_DEPTHS.map(|depth| {
        let proof = |d| {
            format!("{} | {}", grouped(proof_len(depth - 1, d)), grouped(sizes::proof(depth, d)))
        };
        let sample = format!("{} | {}", grouped(sample_len(depth)), grouped(sizes::sample(depth)));
        format!("{depth} | {sample} | {} | {}", proof(8), proof(4))
    });
    markdown(head, rows)
}

/// Each layer by itself.
fn layers() -> String {
    let head = "Layer | symbols | smallest stopping set | of the layer | average random loss survived | 99 in 100 survive";
    let rows = DEPTHS.map(|depth| {
        let layer = Layer::house(depth - 1);
        let n = layer.symbols;
        let smallest = stopping::smallest(&layer).1;
        let survived = survived(&[layer]);
        let (mean, nearly) = (average(&survived, n), nearly_always(&survived, n));
        let share = percent(smallest as f64 / n as f64);
        format!(
            "{} | {n} | {smallest} | {share} | {} | {}",
            depth - 1,
            percent(mean),
            percent(nearly)
        )
    });
    markdown(head, rows)
}

/// The layers of a tree.
fn tree(depth: usize) -> (Vec<Layer>, usize) {
    let layers: Vec<Layer> = (0..depth).map(Layer::house).collect();
    let symbols = layers.iter().map(|layer| layer.symbols).sum();
    (layers, symbols)
}

/// Whole trees, with losses in every layer.
fn trees() -> String {
    let head = "Tree of depth | symbols | average random loss survived | 99 in 100 survive | samples for 99 % against that average";
    let rows = DEPTHS.map(|depth| {
        let (layers, n) = tree(depth);
        let survived = survived(&layers);
        let (mean, nearly) = (average(&survived, n), nearly_always(&survived, n));
        format!("{depth} | {n} | {} | {} | {}", percent(mean), percent(nearly), needed(mean))
    });
    markdown(head, rows)
}

/// What the worst withholding takes to be seen: the layer and the stopping set that the fewest samples show.
fn withheld() -> String {
    let head = "Withheld at depth | layer | samples that show it | share | samples for 99 % | different ones | their bytes | the volume's bytes";
    let rows = DEPTHS.map(|depth| {
        let n = symbols(depth - 1);
        let cheapest = |layer: usize| stopping::cheapest(&Layer::house(layer), &showing(depth, layer)).1;
        let (show, layer) = (0..depth).map(|layer| (cheapest(layer), layer)).min().expect("a layer");
        let share = show as f64 / n as f64;
        let different = needed_different(show, n);
        let bytes = grouped(different * sample_len(depth));
        let volume = grouped(block_len(depth));
        let (shown, times) = (percent(share), needed(share));
        format!("{depth} | {layer} | {show} of {n} | {shown} | {times} | {different} | {bytes} | {volume}")
    });
    markdown(head, rows)
}

fn curve() {
    for depth in DEPTHS {
        let (layers, n) = tree(depth);
        let survived = survived(&layers);
        for loss in (0..=100).step_by(2) {
            println!("{depth} {loss} {:.4}", chance(&survived, n, loss as f64 / 100.0));
        }
    }
}
