//! Lines that are no frames, and why.

mod common;

use common::{always, tell_over, REFUSED_2};

fn told(line: &[u8]) -> String {
    let ran = tell_over(line, &always(REFUSED_2), &["check", "-"]);
    assert_eq!((ran.status, ran.err.as_str()), (Some(1), ""));
    let (first, verdict) = ran.out.split_once('\n').expect("two lines");
    assert_eq!(verdict, "standard input: refused: 1 of 1 line\n");
    first.to_string()
}

fn words(words: &[i32]) -> Vec<u8> {
    let digits = words.iter().map(|word| format!("{word:08x}"));
    let mut line = digits.collect::<String>().into_bytes();
    line.push(b'\n');
    line
}

#[test]
fn bytes_that_are_no_words() {
    for (line, why) in [
        (&b"0000000A\n"[..], "a capital digit at column 8"),
        (b"0000000800000000\r\n", "a carriage return at column 17"),
        (b"00000008 00000000\n", "a blank at column 9"),
        (b"00000008\t00000000\n", "a tab at column 9"),
        (b"0000000g\n", "the character 'g' at column 8"),
        (b"000000\n", "not a multiple of eight digits: 6 digits"),
        (b"0\n", "not a multiple of eight digits: 1 digit"),
        (b"0000000800000000", "no 0A at the end"),
        (b"000", "no 0A at the end"),
        (b"\n", "empty"),
    ] {
        assert_eq!(told(line), format!("line 1: refused 2: {why}"));
    }
}

#[test]
fn an_overlong_line() {
    let mut line = vec![b'0'; 32_768 + 8];
    line.push(b'\n');
    let why = "line 1: refused 2: more than 32,768 digits: 32776";
    assert_eq!(told(&line), why);
}

#[test]
fn words_that_are_no_frame() {
    let mut long = vec![1, 1];
    long.extend(1..=300);
    for (frame, why) in [
        (&[10][..], "refused 2: unknown operation 10"),
        (&[-1, 1], "refused 2: unknown operation -1"),
        (&[3, 1, 2], "FORGET refused 2: FORGET has 3 words, not 2"),
        (&[4], "PROMOTE refused 2: PROMOTE has 1 word, not 2"),
        (&[1], "ADD refused 2: ADD has 1 word and no id"),
        (&[2, 5], "LEARN refused 2: LEARN has 2 words and no n"),
        (&[8], "SAT refused 2: SAT has 1 word and no a"),
        (&[2, 1, 300], "LEARN refused 2: n is 300, more than 256"),
        (&[6, 1, 0, 1], "WEAKEN refused 2: w is 0, less than 1"),
        (&[9, -1], "UNSAT refused 2: a is -1, less than 0"),
        (
            &[2, 1, 3, 1],
            "LEARN refused 2: n is 3, past the end of the frame: 1 word left",
        ),
        (&[1, 0, 1], "ADD refused 2: the id is not positive: 0"),
        (&[5, -7], "DROP refused 2: the id is not positive: -7"),
        (&long, "ADD refused 2: ADD has 300 literals, more than 256"),
    ] {
        assert_eq!(told(&words(frame)), format!("line 1: {why}"));
    }
}

#[test]
fn explain_shows_what_stands_there() {
    let ran = tell_over(b"0000000\r\n00", &always(REFUSED_2), &["explain", "-"]);
    assert_eq!(
        ran.out,
        "line 1: no frame: \"0000000\\r\"\n    refused 2: a carriage return at column 8\n\
         line 2: no frame: \"00\"\n    refused 2: no 0A at the end\n\
         standard input: refused: 2 of 2 lines\n"
    );
    let mut line = vec![b'1'; 100_000];
    line.push(b'\n');
    let ran = tell_over(&line, &always(REFUSED_2), &["explain", "-"]);
    let shown = format!("line 1: no frame: \"{}\" .. 100000 bytes\n", "1".repeat(64));
    assert!(ran.out.starts_with(&shown), "{ran:?}");
}
