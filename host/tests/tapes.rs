//! Tapes and their buffers: lengths that fit exactly, damaged tapes, and tapes beyond what the player reads.

use bowunte::{lines_bytes, tape_run, tape_run_into, Refusal};

const END: u32 = 0x0000_0000;
const LONGEST_ADVANCE: u32 = 0x1fff_ffff;
const TICK: u32 = 0x4000_0000;
const DOCUMENT: [u32; 7] = [
    0x2000_0004,
    0x2000_0009,
    0x3000_0000,
    0x1001_86a0,
    TICK,
    0x6000_0000,
    END,
];

fn tape(words: &[u32]) -> Vec<u8> {
    words.iter().flat_map(|word| word.to_le_bytes()).collect()
}

#[test]
fn the_specifications_tape() {
    let lines = tape_run(&tape(&DOCUMENT)).expect("the buffer is long enough");
    let expected = "\
word answer fields
0 0
1 0
2 0
4 0 2 1:0:10000000 2:0:28000000
5 0 empty
";
    assert_eq!(lines, expected);
}

#[test]
fn a_tape_cut_anywhere_breaks_off() {
    let whole = tape(&DOCUMENT);
    for length in 0..whole.len() {
        let lines = tape_run(&whole[..length]).expect("a tape that breaks off is accepted");
        let last = lines.lines().last().expect("there is a header");
        assert_eq!(last, format!("{} 5", length / 4), "cut at byte {length}");
    }
}

#[test]
fn buffers_of_every_length() {
    let whole = tape(&DOCUMENT);
    let expected = tape_run(&whole).expect("the buffer is long enough");
    let needed = lines_bytes(whole.len());
    for length in [0, 1, 24, needed - 1] {
        let mut lines = vec![b'#'; length];
        assert_eq!(tape_run_into(&whole, &mut lines), Err(Refusal::ShortBuffer));
        assert!(lines.iter().all(|&byte| byte == b'#'), "nothing is written");
    }
    for length in [needed, needed + 1, 2 * needed] {
        let mut lines = vec![b'#'; length];
        assert_eq!(tape_run_into(&whole, &mut lines), Ok(expected.len()));
        let (written, rest) = lines.split_at(expected.len());
        assert_eq!(written, expected.as_bytes());
        assert!(rest.iter().all(|&byte| byte == b'#'), "the rest is left");
    }
}

/// The player would find the end missing.
#[test]
fn a_tape_beyond_65536_bytes() {
    let ticks = 20_000;
    let lines =
        tape_run(&tape(&[vec![TICK; ticks], vec![END]].concat())).expect("a long tape is accepted");
    assert_eq!(lines.lines().count(), 1 + ticks);
    assert_eq!(lines.lines().last(), Some("19999 0 none"));
}

#[test]
fn calls_from_several_threads() {
    let expected = tape_run(&tape(&DOCUMENT)).expect("the buffer is long enough");
    std::thread::scope(|scope| {
        for _ in 0..4 {
            scope.spawn(|| {
                for _ in 0..200 {
                    assert_eq!(tape_run(&tape(&DOCUMENT)).as_deref(), Ok(&expected[..]));
                }
            });
        }
    });
}

/// Only a tape of 69 million bytes takes the clock past 2^62 nanoseconds.
#[test]
#[ignore = "its buffer of lines takes 3.3 GB of address space"]
fn the_clock_beyond_its_limit() {
    const NANOSECONDS: u64 = 0x0fff_ffff * 1_000;
    let advances = ((1u64 << 62) / NANOSECONDS) as usize;
    let mut words = vec![LONGEST_ADVANCE; advances];
    words.extend([TICK, LONGEST_ADVANCE, TICK, END]);
    let lines = tape_run(&tape(&words)).expect("a long tape is accepted");
    let expected = format!(
        "word answer fields\n{advances} 0 none\n{} 7\n",
        advances + 2
    );
    assert_eq!(lines, expected);
}
