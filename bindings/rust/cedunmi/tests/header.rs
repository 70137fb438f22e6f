//! What is said twice, here and in the header, is the same: lengths, limits, kinds, version, what a record's head says,
//! and the words of numbers and ends.

use cedunmi::{explain, explain_end, Depth, Kind, Record, NO_END};
use std::fmt::Write;
use std::path::Path;
use std::process::Command;
use std::{env, fs};

const PROGRAM: &str = r#"
#include "cedunmi.h"
#include <stdio.h>

#define SIZE(name, value) printf(name " %llu\n", (unsigned long long)(value))

static void depth_sizes(unsigned depth)
{
    SIZE("table", CMT_HOUSE_TABLE_BYTES(depth));
    SIZE("marks", CMT_MARKS_BYTES(depth));
    SIZE("tree", CMT_TREE_BYTES(depth));
    SIZE("block", CMT_BLOCK_BYTES(depth));
    SIZE("sample", CMT_SAMPLE_BYTES(depth));
    SIZE("output", CMT_OUTPUT_BYTES(depth));
    SIZE("stack", CMT_STACK_BYTES_AT(depth));
}

static void word(uint8_t *at, unsigned kind, unsigned value)
{
    at[0] = (uint8_t)(64 * kind);
    at[1] = 0;
    at[2] = (uint8_t)(value / 256);
    at[3] = (uint8_t)(value % 256);
}

static void record_of(unsigned kind, unsigned depth, unsigned length)
{
    uint8_t record[CMT_RECORD_BYTES] = {0};
    word(record, kind, depth);
    word(record + 4, 2, length);
    word(record + 8, 3, 61);
    SIZE("record", cmt_record_depth(record));
    if (cmt_record_depth(record) != 0) {
        SIZE("kind", cmt_record_kind(record));
        SIZE("length", cmt_record_length(record));
        SIZE("table", cmt_record_table_bytes(record));
    }
}

int main(void)
{
    puts(CMT_VERSION);
    SIZE("placed", CMT_KIND_PLACED);
    SIZE("plain", CMT_KIND_PLAIN);
    SIZE("place", CMT_PLACE_BYTES);
    for (unsigned kind = 0; kind < 4; kind++) {
        for (unsigned depth = 0; depth < 12; depth++) {
            record_of(kind, depth, 700);
            record_of(kind, depth, 1025);
        }
    }
    for (unsigned number = 0; number < 300; number++) {
        printf("%u %s; %s\n", number, cmt_explain(number), cmt_explain_end(number));
    }
    printf("%s\n", cmt_explain_end(CMT_NO_END));
    SIZE("no end", CMT_NO_END);
    SIZE("depth", CMT_DEPTH_MAX);
    for (unsigned depth = 1; depth <= CMT_DEPTH_MAX; depth++) {
        depth_sizes(depth);
    }
    SIZE("message", CMT_SHA256_MESSAGE_MAX);
    SIZE("digest", CMT_SHA256_DIGEST_BYTES);
    SIZE("record", CMT_RECORD_BYTES);
    SIZE("record's head", CMT_RECORD_HEAD_BYTES);
    SIZE("root", CMT_ROOT_BYTES);
    SIZE("table max", CMT_TABLE_BYTES_MAX);
    SIZE("head", CMT_PROOF_HEAD_BYTES);
    SIZE("twins", CMT_TWINS_BYTES);
    SIZE("stack", CMT_STACK_BYTES);
    SIZE("deep", CMT_STACK_BYTES_DEEP);
    return 0;
}
"#;

/// What the program prints, by the header.
fn by_the_header() -> String {
    let room = Path::new(env!("CARGO_TARGET_TMPDIR"));
    let (source, program) = (room.join("header.c"), room.join("header"));
    fs::write(&source, PROGRAM).expect("a file");
    let include = Path::new(env!("CARGO_MANIFEST_DIR")).join("../../../include");
    let mut cc = Command::new("cc");
    cc.args(["-std=c99", "-Wall", "-Wextra", "-Werror", "-I"])
        .arg(include)
        .arg(&source)
        .arg("-o")
        .arg(&program);
    assert!(cc.status().expect("a C compiler").success());
    let output = Command::new(&program).output().expect("the program");
    String::from_utf8(output.stdout).expect("a text")
}

/// What a record with this head says.
fn record_of(kind: u32, depth: u32, length: u32) -> String {
    let words = [kind << 30 | depth, 2 << 30 | length, 3 << 30 | 61].map(u32::to_be_bytes);
    let head = words.into_iter().flatten().chain([0; 544]).collect::<Vec<u8>>();
    match Record::read(&head) {
        Ok(Record { kind, depth, length, table_words, .. }) => format!(
            "record {}\nkind {}\nlength {length}\ntable {}\n",
            depth.layers(),
            kind.number(),
            4 * table_words
        ),
        Err(_) => "record 0\n".to_string(),
    }
}

/// The same by this crate.
fn by_this_crate() -> String {
    let mut text = format!("{}\n", env!("CARGO_PKG_VERSION"));
    let _ = writeln!(text, "placed {}\nplain {}", Kind::Placed.number(), Kind::Plain.number());
    let _ = writeln!(text, "place {}", cedunmi::PLACE_BYTES);
    for (kind, depth) in (0..4).flat_map(|kind| (0..12).map(move |depth| (kind, depth))) {
        text += &record_of(kind, depth, 700);
        text += &record_of(kind, depth, 1025);
    }
    for number in 0..300 {
        let _ = writeln!(text, "{number} {}; {}", explain(number), explain_end(number));
    }
    let _ =
        writeln!(text, "{}\nno end {NO_END}\ndepth {}", explain_end(NO_END), Depth::MAX.layers());
    for depth in (1..=Depth::MAX.layers() as u64).filter_map(Depth::new) {
        let _ = writeln!(text, "table {}\nmarks {}", depth.house_table_bytes(), depth.symbols());
        let _ = writeln!(text, "tree {}\nblock {}", depth.tree_bytes(), depth.block_bytes());
        let _ = writeln!(text, "sample {}\noutput {}", depth.sample_bytes(), depth.output_bytes());
        let _ = writeln!(text, "stack {}", depth.stack_bytes());
    }
    let _ = writeln!(text, "message {}\ndigest {}", cedunmi::MESSAGE_MAX, cedunmi::DIGEST_BYTES);
    let _ = writeln!(text, "record {}", cedunmi::RECORD_BYTES);
    let _ = writeln!(text, "record's head {}", cedunmi::RECORD_HEAD_BYTES);
    let _ = writeln!(text, "root {}\ntable max {}", cedunmi::ROOT_BYTES, cedunmi::TABLE_BYTES_MAX);
    let _ = writeln!(text, "head {}\ntwins {}", cedunmi::PROOF_HEAD_BYTES, cedunmi::TWINS_BYTES);
    let _ = writeln!(text, "stack {}\ndeep {}", cedunmi::STACK_BYTES, cedunmi::STACK_BYTES_DEEP);
    text
}

#[test]
fn what_is_said_twice_is_the_same() {
    let (header, here) = (by_the_header(), by_this_crate());
    for (theirs, ours) in header.lines().zip(here.lines()) {
        assert_eq!(theirs, ours);
    }
    assert_eq!(header.lines().count(), here.lines().count());
}
