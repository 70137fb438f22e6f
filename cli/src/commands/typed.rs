//! `typed TEXT RECORD`

use super::Done;
use crate::arguments::Arguments;
use crate::failure::{Failure, SLIP};
use crate::input::{stopped, Reader};
use crate::kind::Kind;
use crate::output::{Content, Output};
use crate::said;
use crate::typed::{self, Slips};
use cedunmi::Stop;

pub fn run(arguments: &Arguments) -> Done {
    let [text, record] = arguments.take()?;
    let text = Reader::new(arguments.options.quiet).read(text, Kind::Text)?;
    if text.bytes.len() > Kind::Text.most() {
        return Err(stopped(Stop::WrongLength, 1, &[&text]));
    }
    let output = Output::file(record, arguments.options, &[&text])?;
    let typed = typed::parse(&text.bytes).map_err(|slips| match slips {
        Slips::Lines(lines) => Failure { status: SLIP, lines },
        Slips::Stopped(stop) => Failure::stopped(stop),
    })?;
    output.put(Content::File(&typed.record))?;
    if typed.unchecked && !arguments.options.quiet {
        said::remark("no check was typed: a slip in these lines would not be found");
        if typed.kindless {
            said::remark("no kind was typed: it is taken for plain, as older prints are");
        }
    }
    Ok(0)
}
