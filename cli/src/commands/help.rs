//! `help [COMMAND]`

use super::Done;
use crate::arguments::Arguments;
use crate::failure::Failure;
use crate::help;
use crate::name::shown;
use crate::said;

pub fn run(arguments: &Arguments) -> Done {
    let text = match arguments.at_most_one()? {
        None => help::MANUAL.to_string(),
        Some(word) => {
            let lines = help::of(word.to_str().unwrap_or(""));
            if lines.is_empty() {
                return Err(Failure::usage(format!(
                    "there is no command {}: cedunmi help",
                    shown(word)
                )));
            }
            lines
        }
    };
    said::report(&text)?;
    Ok(0)
}
