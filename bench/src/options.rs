//! What the command line asks for.

use std::env;

/// What is measured.
pub struct Options {
    /// How many rounds.
    pub rounds: usize,
    /// Only trials with this in their title.
    pub trial: String,
    /// Beside the first one, only contenders with this in their name.
    pub contender: String,
}

impl Options {
    /// What the command line asks for, or how it should be written.
    pub fn from_arguments() -> Result<Options, String> {
        let mut options = Options {
            rounds: 9,
            trial: String::new(),
            contender: String::new(),
        };
        let mut arguments = env::args().skip(1);
        while let Some(name) = arguments.next() {
            let value = arguments.next().unwrap_or_default();
            match name.as_str() {
                "--rounds" => options.rounds = value.parse().map_err(|_| usage())?,
                "--trial" => options.trial = value,
                "--contender" => options.contender = value,
                _ => return Err(usage()),
            }
        }
        if options.rounds == 0 {
            return Err(usage());
        }
        Ok(options)
    }
}

fn usage() -> String {
    "usage: bench [--rounds NUMBER] [--trial PART-OF-TITLE] [--contender PART-OF-NAME]".to_string()
}
