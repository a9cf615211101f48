//! Every function against the Rust that was ported: the stored answers, and where the variable BOWUNTE_ORACLE names the
//! oracle's program (differential/build prints it), many fresh ones.

use std::io::Write;
use std::process::{Command, Stdio};
use std::time::{SystemTime, UNIX_EPOCH};
use std::{env, fs, thread};

use bowunte::{key_hash, rate_decrease, tape_run};

const STORED: &str = concat!(env!("CARGO_MANIFEST_DIR"), "/tests/cases/doors.txt");
/// How many requests the oracle is asked.
const FRESH: &str = "8000";

#[test]
fn stored_answers() {
    let cases = fs::read_to_string(STORED).expect("the stored cases can be read");
    assert!(compare(&cases) >= 300, "there are cases of every function");
}

#[test]
fn fresh_answers() {
    let Some(oracle) = env::var_os("BOWUNTE_ORACLE").filter(|path| !path.is_empty()) else {
        eprintln!("BOWUNTE_ORACLE names no oracle: only the stored answers are compared");
        return;
    };
    let seed = match env::var("BOWUNTE_SEED") {
        Ok(seed) => seed,
        Err(_) => seconds().to_string(),
    };
    println!("BOWUNTE_SEED={seed} makes the same requests again");
    let generate = ["doors", "generate", "--requests", FRESH, "--seed", &seed];
    let requests = told(Command::new(&oracle).args(generate), "");
    let cases = told(Command::new(&oracle).args(["doors", "answer"]), &requests);
    assert!(compare(&cases) >= 7_000, "every request is answered");
}

fn seconds() -> u64 {
    let now = SystemTime::now().duration_since(UNIX_EPOCH);
    now.expect("the clock is past 1970").as_secs()
}

/// What a program prints for an input.
fn told(program: &mut Command, input: &str) -> String {
    let mut child = program
        .stdin(Stdio::piped())
        .stdout(Stdio::piped())
        .spawn()
        .expect("the oracle runs");
    let mut stdin = child.stdin.take().expect("its input is a pipe");
    let output = thread::scope(|scope| {
        scope.spawn(move || stdin.write_all(input.as_bytes()).expect("the oracle reads"));
        child.wait_with_output().expect("the oracle ends")
    });
    assert!(
        output.status.success(),
        "the oracle failed: {}",
        output.status
    );
    String::from_utf8(output.stdout).expect("the oracle prints text")
}

/// Compares each line, a request and behind ` = ` its answer; how many there are.
fn compare(cases: &str) -> usize {
    for case in cases.lines() {
        let (request, expected) = case.split_once(" = ").expect("a request and its answer");
        assert_eq!(answer(request), expected, "to the request {request}");
    }
    cases.lines().count()
}

/// The answer as the oracle writes it: the number and, where it is 0, the result.
fn answer(request: &str) -> String {
    let words: Vec<&str> = request.split(' ').collect();
    match words[..] {
        ["hash", data] => format!("0 {}", key_hash(&bytes(data))),
        ["decrease", rate, factor, least_rate] => {
            let factor = u32::from_str_radix(factor, 16).expect("the bits of a factor");
            let (rate, least_rate) = (number(rate), number(least_rate));
            match rate_decrease(rate, f32::from_bits(factor), least_rate) {
                Ok(rate) => format!("0 {rate}"),
                Err(refusal) => refusal.number().to_string(),
            }
        }
        ["tape", tape] => match tape_run(&bytes(tape)) {
            Ok(lines) => format!("0 {} {}", lines.len(), lines.replace('\n', "/")),
            Err(refusal) => refusal.number().to_string(),
        },
        _ => panic!("an unknown request: {request}"),
    }
}

fn number(text: &str) -> u32 {
    text.parse().expect("a number of 32 bits")
}

/// Two hexadecimal digits a byte; nothing is a dash.
fn bytes(text: &str) -> Vec<u8> {
    let digit = |digit: u8| char::from(digit).to_digit(16).expect("a hexadecimal digit") as u8;
    match text {
        "-" => Vec::new(),
        _ => text
            .as_bytes()
            .chunks_exact(2)
            .map(|pair| digit(pair[0]) << 4 | digit(pair[1]))
            .collect(),
    }
}
