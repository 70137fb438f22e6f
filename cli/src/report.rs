//! What a repair did, layer by layer.

use cedunmi::{Depth, End, Place, SYMBOL_BYTES};
use std::fmt::Write;

/// A tree and its marks.
#[derive(Clone, Copy, Debug, PartialEq, Eq)]
pub struct Pages<'a> {
    pub tree: &'a [u8],
    pub marks: &'a [u8],
}

impl Pages<'_> {
    pub fn page(&self, place: usize) -> &[u8] {
        &self.tree[SYMBOL_BYTES * place..][..SYMBOL_BYTES]
    }

    pub fn held(&self, place: usize) -> bool {
        self.marks[place] == 1
    }
}

/// What a layer lacked, and what it lacks now.
#[derive(Debug, PartialEq, Eq)]
pub struct Layer {
    pub absent: usize,
    /// The places of held pages that a repair found to be bad copies.
    pub bad: Vec<usize>,
    pub missing: Vec<usize>,
}

impl Layer {
    /// A page that was held, and is absent or another now, was a bad copy.
    pub fn compare(depth: Depth, layer: usize, before: Pages, after: Pages) -> Layer {
        let places = depth.places(layer);
        let bad = |place: &usize| {
            before.held(*place)
                && !(after.held(*place) && before.page(*place) == after.page(*place))
        };
        Layer {
            absent: places.clone().filter(|place| !before.held(*place)).count(),
            bad: places.clone().filter(bad).collect(),
            missing: places.filter(|place| !after.held(*place)).collect(),
        }
    }
}

/// The last layer that a repair entered. A fault proof has its layer in its first word; of twins in a plain volume it is
/// not told.
fn last_entered(depth: Depth, end: &End) -> usize {
    match end {
        End::Fault { proof } => usize::from(proof[3]),
        End::Unavailable { layer } => *layer,
        End::Twins { place: Some(Place { layer, .. }), .. } => *layer,
        _ => depth.layers() - 1,
    }
}

/// The layers of a repair, those that it did not enter too.
pub fn layers(depth: Depth, end: &End, before: Pages, after: Pages) -> String {
    let mut text = String::new();
    for layer in 0..depth.layers() {
        let places = depth.places(layer);
        let _ = write!(
            text,
            "layer {layer}: {} pages, {} to {}: ",
            places.len(),
            places.start,
            places.end - 1
        );
        if layer > last_entered(depth, end) {
            text += "not entered\n";
            continue;
        }
        let Layer { absent, bad, missing } = Layer::compare(depth, layer, before, after);
        let stored = absent + bad.len() - missing.len();
        let _ = writeln!(
            text,
            "{absent} absent, {} bad; {stored} stored, {} missing",
            bad.len(),
            missing.len()
        );
        text += &listed("bad copies", &bad);
        text += &listed("missing", &missing);
    }
    text
}

/// A line with page numbers, where there are any.
fn listed(what: &str, places: &[usize]) -> String {
    if places.is_empty() {
        return String::new();
    }
    let numbers: Vec<String> = places.iter().map(usize::to_string).collect();
    format!("  {what}: {}\n", numbers.join(" "))
}

/// How many pages were absent, and how many bad, in all.
pub fn lacked(depth: Depth, before: Pages, after: Pages) -> (usize, usize) {
    let layers = (0..depth.layers()).map(|layer| Layer::compare(depth, layer, before, after));
    layers.fold((0, 0), |(absent, bad), layer| (absent + layer.absent, bad + layer.bad.len()))
}
