//! The declarations are the header's: its functions, and their arguments in its order.

use cedunmi_sys::FUNCTIONS;
use std::fs;
use std::path::Path;

/// The prototype of a function as the header writes it, with single spaces.
fn prototype(name: &str, arguments: &[(&str, &str)]) -> String {
    let written = arguments.iter().map(|(kind, argument)| match *kind {
        "number" => format!("uint64_t {argument}"),
        "read" => format!("const uint8_t *{argument}, size_t {argument}_len"),
        _ => format!("uint8_t *{argument}, size_t {argument}_len"),
    });
    format!("uint64_t {name}({});", written.collect::<Vec<_>>().join(", "))
}

/// The prototypes of a header: what begins like one at the start of a line and goes to a semicolon.
fn prototypes(header: &str) -> Vec<String> {
    let joined = header.replace("\n                ", " \t");
    let lines = joined.lines().map(|line| line.split_whitespace().collect::<Vec<_>>().join(" "));
    lines.filter(|line| line.contains("uint64_t cmt_") && line.ends_with(");")).collect()
}

#[test]
fn declarations_are_the_headers() {
    let path = Path::new(env!("CARGO_MANIFEST_DIR")).join("../../../include/cedunmi.h");
    let header = fs::read_to_string(path).expect("the header");
    let found = prototypes(&header);
    let declared: Vec<String> =
        FUNCTIONS.iter().map(|(name, arguments, _)| prototype(name, arguments)).collect();
    assert_eq!(found.len(), declared.len(), "{found:#?}");
    for (found, declared) in found.iter().zip(&declared) {
        assert!(found.ends_with(declared.as_str()), "{found} is not {declared}");
    }
}
