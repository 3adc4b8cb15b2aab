//! Compares the proved archive with a calculator written from documents 01 and 02 alone. README.md says what is compared.

mod asking;
mod calculator;
#[cfg(test)]
mod cases;
mod compare;
mod counts;
mod damage;
mod exact;
mod grow;
mod known;
mod lists;
mod margins;
mod random;
mod reading;
mod refusals;
mod sheets;
mod tree;
mod values;
mod work;
mod writer;
mod wrong;

use std::io::Write;
use std::process::ExitCode;

const USAGE: &str = "usage: outside [--sheets N] [--first SEED] [--wrong K | --wrong all]
       outside --write SEED > SHEET";

struct Options {
    sheets: Option<u64>,
    first: u64,
    wrong: Option<String>,
    write: Option<u64>,
}

fn main() -> ExitCode {
    match options(std::env::args().skip(1)).and_then(run) {
        Ok(true) => ExitCode::SUCCESS,
        Ok(false) => ExitCode::FAILURE,
        Err(words) => {
            eprintln!("{words}");
            ExitCode::from(2)
        }
    }
}

fn options(mut words: impl Iterator<Item = String>) -> Result<Options, String> {
    let mut options = Options { sheets: None, first: 0, wrong: None, write: None };
    while let Some(word) = words.next() {
        let value = words.next().ok_or(USAGE)?;
        let number = value.parse::<u64>().map_err(|_| USAGE.to_string());
        match word.as_str() {
            "--sheets" => options.sheets = Some(number?),
            "--first" => options.first = number?,
            "--wrong" => options.wrong = Some(value),
            "--write" => options.write = Some(number?),
            _ => return Err(USAGE.to_string()),
        }
    }
    Ok(options)
}

/// True if all is as it should be.
fn run(options: Options) -> Result<bool, String> {
    if let Some(seed) = options.write {
        let sheet = sheets::sheet(seed);
        return std::io::stdout().write_all(&sheet.bytes).map(|()| true).map_err(|error| error.to_string());
    }
    match options.wrong {
        Some(rule) => Ok(compare::wrong_rules(&rules(&rule)?, options.first, options.sheets.unwrap_or(compare::FEW))),
        None => Ok(known::agree()? & compare::all(options.first, options.sheets.unwrap_or(compare::MANY))),
    }
}

fn rules(words: &str) -> Result<Vec<usize>, String> {
    let all = 1..=wrong::Wrong::ALL.len();
    match words.parse() {
        _ if words == "all" => Ok(all.collect()),
        Ok(number) if all.contains(&number) => Ok(vec![number]),
        _ => Err(format!("the wrong rules are numbered from 1 to {}", wrong::Wrong::ALL.len())),
    }
}
