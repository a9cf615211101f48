//! The oracle of the differential runs: plays scripts on the Rust of hdds, and makes, shows and compares them.
//! differential/build puts the Rust beside this file; differential/README.md has the format.

mod clock;
mod compare;
#[allow(dead_code)] // The Rust as it stands; the scripts reach part of it.
mod congestion;
mod digest;
mod doors;
mod generate;
mod judge;
mod line;
mod operation;
mod overflow;
mod play;
mod random;
mod refusal;
mod script;
mod show;
mod station;
mod tape;

use std::fs::File;
use std::io::{self, BufReader, BufWriter, Write};
use std::process::ExitCode;

const USAGE: &str = "\
usage: oracle play < SCRIPT                        the Rust's answer to each call, one line each
       oracle generate --suite NAME --calls N --seed S [--cut]
                                                   a script; with --cut it ends in a record cut short
       oracle show < SCRIPT                        the script as text, one call a line
       oracle case NAME                            a named case as text, each call and the Rust's line below it
       oracle compare SCRIPT ORACLE_LINES REPLAY_LINES
                                                   how many lines differ, and the first three
       oracle judge SCRIPT LINES                   holds a station's lines against the book, the allowance and the waits
       oracle rewrite < SCRIPT                     the script with every byte of every record changed
       oracle alike SCRIPT LINES OTHER_LINES       holds the lines of a script against those of the rewritten one
       oracle suites                               the names of the suites
       oracle cases                                the names of the named cases
       oracle doors generate --requests N --seed S [--short]
                                                   requests to the C functions, one line each
       oracle doors answer < REQUESTS              each request with the Rust's answer behind it
       oracle tape, oracle tapes                   tapes of document 01; 'oracle help' has more
Exit status: 0 done, or no difference; 1 differences or violations; 2 bad usage, or a file that cannot be read.";

fn main() -> ExitCode {
    let words: Vec<String> = std::env::args().skip(1).collect();
    let words: Vec<&str> = words.iter().map(String::as_str).collect();
    match run(&words) {
        Ok(true) => ExitCode::SUCCESS,
        Ok(false) => ExitCode::from(1),
        Err(message) => {
            eprintln!("oracle: {message}");
            ExitCode::from(2)
        }
    }
}

fn run(words: &[&str]) -> Result<bool, String> {
    let input = BufReader::with_capacity(1 << 16, io::stdin());
    let output = BufWriter::with_capacity(1 << 16, io::stdout());
    match words {
        ["play"] => done(play::play(input, io::stdout())),
        ["generate", options @ ..] => generate(options, output),
        ["show"] => done(show::show(input, output)),
        ["case", name] => {
            let script = generate::case(name).ok_or(format!("there is no case '{name}'"))?;
            done(show::show_answered(&script, output))
        }
        ["compare", script, oracle, replay] => {
            compare::compare(open(script)?, open(oracle)?, open(replay)?, output).map_err(text)
        }
        ["judge", script, lines] => judge::judge(open(script)?, open(lines)?, output).map_err(text),
        ["rewrite"] => done(judge::contents::rewrite(input, output)),
        ["alike", script, lines, others] => {
            judge::contents::alike(open(script)?, open(lines)?, open(others)?, output).map_err(text)
        }
        ["suites"] => {
            for suite in &generate::SUITES {
                println!("{}", suite.name);
            }
            Ok(true)
        }
        ["cases"] => {
            for case in &generate::CASES {
                println!("{}", case.name);
            }
            Ok(true)
        }
        ["tape", options @ ..] => tape::command::tape(options),
        ["tapes", words @ ..] => tape::command::tapes(words),
        ["doors", "generate", options @ ..] => requests(options, output),
        ["doors", "answer"] => done(doors::answer(input, output)),
        ["help" | "--help"] => {
            println!("{USAGE}\n{}", tape::command::USAGE);
            Ok(true)
        }
        _ => Err(USAGE.into()),
    }
}

fn generate(mut options: &[&str], mut output: impl Write) -> Result<bool, String> {
    let (mut suite, mut calls, mut seed, mut cut) = (None, None, None, false);
    while !options.is_empty() {
        options = match options {
            ["--suite", name, rest @ ..] => {
                suite = Some(generate::suite(name).ok_or(format!("there is no suite '{name}'"))?);
                rest
            }
            ["--calls", number, rest @ ..] => {
                calls = Some(whole_number(number)?);
                rest
            }
            ["--seed", number, rest @ ..] => {
                seed = Some(whole_number(number)?);
                rest
            }
            ["--cut", rest @ ..] => {
                cut = true;
                rest
            }
            _ => return Err(USAGE.into()),
        };
    }
    let (Some(suite), Some(calls), Some(seed)) = (suite, calls, seed) else {
        return Err(USAGE.into());
    };
    let script = generate::generate(suite, calls as usize, seed);
    script.write(&mut output).map_err(text)?;
    if cut {
        output.write_all(&[16; 47]).map_err(text)?;
    }
    done(output.flush())
}

fn requests(options: &[&str], mut output: impl Write) -> Result<bool, String> {
    let (count, seed, short) = match options {
        ["--requests", count, "--seed", seed] => (count, seed, false),
        ["--requests", count, "--seed", seed, "--short"] => (count, seed, true),
        _ => return Err(USAGE.into()),
    };
    let (count, seed) = (whole_number(count)?, whole_number(seed)?);
    for request in generate::doors::requests(count as usize, seed, short) {
        writeln!(output, "{}", request.text()).map_err(text)?;
    }
    done(output.flush())
}

fn whole_number(word: &str) -> Result<u64, String> {
    word.parse()
        .map_err(|_| format!("'{word}' is not a whole number"))
}

fn open(path: &str) -> Result<BufReader<File>, String> {
    let file = File::open(path).map_err(|error| format!("{path}: {error}"))?;
    Ok(BufReader::with_capacity(1 << 16, file))
}

fn done(result: io::Result<()>) -> Result<bool, String> {
    result.map(|()| true).map_err(text)
}

fn text(error: io::Error) -> String {
    error.to_string()
}
