//! The journal line and the stream of lines.

mod common;

use common::answers;
use model::calls::Answer;
use model::damage;
use model::filter;
use model::journal::journal;
use model::line::{read_call, write_answer, ITEM_BYTES};
use model::machine::Machine;
use model::random::Random;
use std::io::{self, Read};

const REFUSED: &[u8] = b"no\t3\t0\n";

#[test]
fn empty_input_answers_nothing() {
    assert_eq!(answers(b""), b"");
}

#[test]
fn lines_that_are_no_call() {
    let lines: [&[u8]; 75] = [
        b"\n",
        b" \n",
        b"\t\n",
        b"0\n",
        b"18\n",
        b"18\t\n",
        b"18\t01\n",
        b"18\t1\t1\n",
        b"18\tab\n",
        b"18 1\n",
        b"19\t\n",
        b"19\t1\n",
        b"19\t1\t1\n",
        b"019\n",
        b"19 \n",
        b"20\t\n",
        b"20\t1\n",
        b"020\n",
        b"20 \n",
        b"21\n",
        b"21\t0\n",
        b"21\t0\t\n",
        b"21\t0\t01\n",
        b"21\t0\tff\n",
        b"21\t0\t1\t1\n",
        b"21\t0\t4294967296\n",
        b"22\n",
        b"22\t0\n",
        b"22\t0\t1\t\n",
        b"22\t0\t-1\n",
        b"22\t0 1\n",
        b"23\n",
        b"23\t0\t1\t0\t0\n",
        b"23\t0\t1\t0\t0\t\n",
        b"23\t0\t1\t0\t0\t0\t0\n",
        b"23\t0\t1\t00\t0\t0\n",
        b"23\t0\t1\t0\t\t0\n",
        b"23\t0\t1\t0\t4294967296\t0\n",
        b"24\n",
        b"24\t1\n",
        b"99\n",
        b"017\n",
        b"00\n",
        b"17\t\n",
        b"17 \n",
        b" 17\n",
        b"17\r\n",
        b"+17\n",
        b"-17\n",
        b"17\0\n",
        b"1\n",
        b"1\t\n",
        b"1\t\t3\n",
        b"1\t03\n",
        b"1\t3\t\n",
        b"1\t3\t4\n",
        b"1 3\n",
        b"1\t4294967296\n",
        b"1\t18446744073709551617\n",
        b"1\t+3\n",
        b"1\t-3\n",
        b"1\t3a\n",
        b"1\xff3\n",
        b"13\t0\t0\n",
        b"13\t0\t\n",
        b"13\t0\t\t\n",
        b"13\t0\ta\t0\n",
        b"13\t0\tAB\t0\n",
        b"13\t0\tag\t0\n",
        b"13\t0\tabc\t0\n",
        b"13\t0\tab\n",
        b"13\t0\tab 0\n",
        b"13\t0\tab\t00\n",
        b"14\t0\tab\t0\n",
        b"42949672950\n",
    ];
    for line in lines {
        assert_eq!(answers(line), REFUSED, "{}", line.escape_ascii());
    }
    assert_eq!(answers(b"17"), REFUSED);
    assert_eq!(answers(b"17\n17"), b"ok\t0\t0\nno\t3\t0\n");
    assert_eq!(answers(b"19\n19"), b"ok\t0\t0\nno\t3\t0\n");
}

#[test]
fn the_largest_numbers_are_read() {
    assert_eq!(answers(b"2\t4294967295\n1\t0\n"), b"no\t5\t0\nok\t1\t0\n");
    assert_eq!(answers(b"13\t4294967295\t\t4294967295\n"), b"no\t5\t0\n");
    assert_eq!(answers(b"21\t4294967295\t16777215\n22\t0\t4294967295\n"), b"no\t5\t0\nno\t4\t0\n");
    let wait = b"20\n23\t4294967295\t16777215\t1\t1\t4294967295\n23\t0\t1\t4294967295\t4294967295\t0\n";
    assert_eq!(answers(wait), b"ok\t0\t0\nno\t5\t0\nno\t4\t0\n");
}

#[test]
fn answer_lines_of_every_length() {
    let cases: [(Answer, u32, &[u8]); 10] = [
        (Answer::Done, 0, b"ok\t0\t0\n"),
        (Answer::Done, 9, b"ok\t0\t9\n"),
        (Answer::Made(0), 10, b"ok\t0\t10\n"),
        (Answer::Made(99), 100, b"ok\t99\t100\n"),
        (Answer::Made(1_000), 9_999, b"ok\t1000\t9999\n"),
        (Answer::Made(99_999), 100_000, b"ok\t99999\t100000\n"),
        (Answer::Made(1_048_575), 1_048_575, b"ok\t1048575\t1048575\n"),
        (Answer::Waiting, 1_000_000, b"wait\t0\t1000000\n"),
        (Answer::Refused(3), 999_999, b"no\t3\t999999\n"),
        (Answer::Refused(18), 1_048_575, b"no\t18\t1048575\n"),
    ];
    for (answer, running, line) in cases {
        let mut out = b"before".to_vec();
        write_answer(answer, running, &mut out);
        assert_eq!(out, [b"before", line].concat(), "{answer:?}");
    }
}

#[test]
fn an_item_has_at_most_64_bytes() {
    let send = |bytes: usize| [b"10\t1\t64\n13\t0\t".as_slice(), &b"0f".repeat(bytes), b"\t0\n"].concat();
    assert_eq!(answers(&send(63)), b"ok\t0\t0\nno\t6\t0\n");
    assert_eq!(answers(&send(64)), b"ok\t0\t0\nok\t0\t0\n");
    assert_eq!(answers(&send(65)), b"ok\t0\t0\nno\t3\t0\n");
}

#[test]
fn a_long_line_is_one_refusal() {
    for length in [254, 255, 256, 257, 511, 512, 513, 5_000, 65_535, 65_536, 65_537, 200_000] {
        let line = b"1".repeat(length);
        assert_eq!(answers(&[&line[..], b"\n17\n"].concat()), b"no\t3\t0\nok\t0\t0\n", "{length}");
        assert_eq!(answers(&line), REFUSED, "{length}");
        assert_eq!(answers(&[&line[..], b"\n17"].concat()), b"no\t3\t0\nno\t3\t0\n", "{length}");
    }
}

#[test]
fn a_byte_after_the_newline_is_refused() {
    let mut item = [0; ITEM_BYTES];
    assert!(read_call(b"17\n", &mut item).is_some());
    assert!(read_call(b"17\n\n", &mut item).is_none());
    assert!(read_call(b"17\n1", &mut item).is_none());
    assert!(read_call(b"17", &mut item).is_none());
    assert!(read_call(b"", &mut item).is_none());
}

/// Hands out a few bytes at a time.
struct Dribble<'b> {
    bytes: &'b [u8],
    random: Random,
}

impl Read for Dribble<'_> {
    fn read(&mut self, buffer: &mut [u8]) -> io::Result<usize> {
        let most = self.random.between(1, 400) as usize;
        let got = most.min(buffer.len()).min(self.bytes.len());
        buffer[..got].copy_from_slice(&self.bytes[..got]);
        self.bytes = &self.bytes[got..];
        Ok(got)
    }
}

#[test]
fn answers_do_not_depend_on_how_the_input_is_cut() {
    for seed in 0..20 {
        let journal = journal(seed, 2_000);
        let whole = answers(&journal);
        let mut output = Vec::new();
        let mut input = Dribble { bytes: &journal, random: Random::new(seed) };
        filter::run(&mut input, &mut output, &mut Machine::new(false)).unwrap();
        assert!(whole == output, "seed {seed}");
        let lines = journal.split_inclusive(|&byte| byte == b'\n').count();
        assert_eq!(whole.iter().filter(|&&byte| byte == b'\n').count(), lines, "one answer for each line");
    }
}

#[test]
fn damaged_lines_are_no_calls() {
    let drafts: [&[&str]; 10] = [
        &["17"],
        &["1", "3"],
        &["5", "1", "2"],
        &["13", "0", "0a0b", "5"],
        &["15", "0", "0"],
        &["18", "7"],
        &["19"],
        &["20"],
        &["21", "0", "7"],
        &["23", "0", "7", "1", "0", "5"],
    ];
    let mut random = Random::new(1);
    for kind in damage::KINDS {
        for round in 0..500 {
            let fields: Vec<Vec<u8>> = drafts[round % drafts.len()].iter().map(|field| (*field).into()).collect();
            let line = damage::damaged(kind, &fields, &mut random);
            assert_eq!(line.iter().position(|&byte| byte == b'\n'), Some(line.len() - 1), "{kind}");
            let mut item = [0; ITEM_BYTES];
            let can_be_a_call = ["one byte changed", "missing tab", "missing field", "extra field"].contains(&kind);
            let is_call = read_call(&line, &mut item).is_some();
            assert!(!is_call || can_be_a_call, "{kind}: {}", line.escape_ascii());
        }
    }
}
