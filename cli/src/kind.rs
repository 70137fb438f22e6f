//! The kinds of files, and how long they are.

use cedunmi::{Depth, MESSAGE_MAX, PROOF_HEAD_BYTES, RECORD_BYTES, TABLE_BYTES_MAX};

#[derive(Clone, Copy, Debug, PartialEq, Eq)]
pub enum Kind {
    Volume,
    Tree,
    Marks,
    Record,
    Table,
    Sample,
    Proof,
    Message,
    Text,
}

impl Kind {
    /// The most bytes that one of this kind has, at any depth: nothing is read further than one byte more,
    /// which the call refuses like any longer file.
    pub fn most(self) -> usize {
        match self {
            Kind::Volume => Depth::MAX.block_bytes(),
            Kind::Table => TABLE_BYTES_MAX,
            Kind::Proof => Depth::MAX.output_bytes(),
            Kind::Message => MESSAGE_MAX,
            Kind::Text => 65_536,
            _ => self.sized(Depth::MAX).map_or(0, |(_, bytes)| bytes),
        }
    }

    /// What it is called, and its bytes at a depth, where that fixes them.
    pub fn sized(self, depth: Depth) -> Option<(&'static str, usize)> {
        match self {
            Kind::Tree => Some(("tree", depth.tree_bytes())),
            Kind::Marks => Some(("marks file", depth.symbols())),
            Kind::Record => Some(("record", RECORD_BYTES)),
            Kind::Sample => Some(("sample", depth.sample_bytes())),
            Kind::Volume | Kind::Table | Kind::Proof | Kind::Message | Kind::Text => None,
        }
    }

    /// What is wrong with a length at a depth, if anything is: how long such a file is.
    pub fn wanted(self, depth: Depth, len: u64) -> Option<String> {
        match self {
            Kind::Table if len % 4 != 0 || len > TABLE_BYTES_MAX as u64 => {
                Some(format!("a table has a multiple of 4, at most {TABLE_BYTES_MAX}"))
            }
            Kind::Proof => Some(format!(
                "a fault proof has as many as its head demands, {PROOF_HEAD_BYTES} or more"
            )),
            Kind::Message if len > MESSAGE_MAX as u64 => {
                Some(format!("at most {MESSAGE_MAX} can be hashed"))
            }
            Kind::Text if len > Kind::Text.most() as u64 => {
                Some(format!("a typed record has at most {}", Kind::Text.most()))
            }
            Kind::Record if len != RECORD_BYTES as u64 => {
                Some(format!("a record has {RECORD_BYTES}"))
            }
            Kind::Volume if len > depth.block_bytes() as u64 => Some(too_long(depth, len)),
            _ => {
                let (name, bytes) = self.sized(depth).filter(|(_, bytes)| *bytes as u64 != len)?;
                Some(format!("a {name} of depth {} has {bytes}", depth.layers()))
            }
        }
    }
}

/// What to do with a volume that a depth does not hold.
fn too_long(depth: Depth, len: u64) -> String {
    let (layers, held) = (depth.layers(), depth.block_bytes());
    match Depth::least(len as usize).map(Depth::layers) {
        Some(least) => {
            format!("depth {layers} holds at most {held}: take depth {least}, and a table of it: cedunmi table --for VOLUME TABLE writes one")
        }
        None => format!("no depth holds more than {}: split it", Depth::MAX.block_bytes()),
    }
}
