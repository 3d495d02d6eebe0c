//! Rules in DIMACS: the points that request 1 leaves open and the project has decided, each by its
//! own words, and a table of small texts.

use second::dimacs::{frames, judge, read, Kind};

/// Number and position of a text's fault.
fn fault(text: impl AsRef<[u8]>) -> (u32, usize) {
    let text = text.as_ref();
    let fault = judge(text).expect_err(&String::from_utf8_lossy(text));
    assert_eq!(read(text).expect_err("the same fault"), fault);
    (fault.kind.number(), fault.position)
}

/// The clauses of a sound text.
fn clauses(text: impl AsRef<[u8]>) -> Vec<Vec<i32>> {
    let text = text.as_ref();
    let told = String::from_utf8_lossy(text);
    let (declared, frames) = read(text).unwrap_or_else(|fault| panic!("{fault}: {told}"));
    assert_eq!(judge(text), Ok(declared), "{told}");
    assert_eq!(frames.len(), declared.clauses, "{told}");
    frames.iter().map(|frame| frame[2..].to_vec()).collect()
}

fn is_sound(text: impl AsRef<[u8]>) {
    clauses(text);
}

/// So many digits 0.
fn zeros(number: usize) -> String {
    "0".repeat(number)
}

/// The variables from 1 on, so many of them.
fn literals(number: usize) -> String {
    (1..=number)
        .map(|variable| format!("{variable} "))
        .collect()
}

#[test]
fn the_numbers_are_21_to_29_in_the_lists_order() {
    let numbers: Vec<u32> = Kind::ALL.iter().map(|kind| kind.number()).collect();
    assert_eq!(numbers, [21, 22, 23, 24, 25, 26, 27, 28, 29]);
    assert!(Kind::ALL.windows(2).all(|two| two[0] < two[1]));
    assert!(Kind::ALL
        .iter()
        .all(|&kind| Kind::of(kind.number()) == Some(kind)));
    assert_eq!(Kind::of(20), None);
    assert_eq!(Kind::of(30), None);
}

#[test]
fn add_frames_with_ids_1_2_3_and_so_on() {
    let text = b"c rules\np cnf 3 4\n1 -2 0\n0\n3 0 -1 2 -3 0\n";
    let found: Vec<Vec<i32>> = frames(text).iter().map(<[i32]>::to_vec).collect();
    let expected: [&[i32]; 4] = [&[1, 1, 1, -2], &[1, 2], &[1, 3, 3], &[1, 4, -1, 2, -3]];
    assert_eq!(found, expected);
}

#[test]
fn a_text_with_a_fault_yields_no_frame() {
    assert!(frames(b"p cnf 3 2\n1 0 2 0 x").is_empty());
    assert_eq!(frames(b"p cnf 3 2\n1 0 2 0 x").iter().count(), 0);
}

#[test]
fn blanks_are_space_tab_cr_and_lf() {
    assert_eq!(clauses("p cnf 3 1\n1\t2\r-3\n0"), [[1, 2, -3]]);
    for blank in [" ", "\t", "\r", "\n", "\r\n", " \t\r\n\n"] {
        assert_eq!(clauses(format!("p cnf 9 1\n1{blank}2 0")), [[1, 2]]);
    }
}

#[test]
fn nul_vt_ff_and_bytes_above_7f_belong_to_words() {
    for byte in (0..=u8::MAX).filter(|byte| !b" \t\r\n0123456789".contains(byte)) {
        let text = [b"p cnf 9 1\n1", &[byte][..], b"2 0"].concat();
        assert_eq!(fault(text), (23, 10), "byte {byte:02x}");
    }
    for byte in [0, 0x0b, 0x0c, 0x1f, 0x7f, 0x80, 0x85, 0xa0, 0xff] {
        let text = [b"p cnf 9 1\n1 ", &[byte][..], b" 2 0"].concat();
        assert_eq!(fault(text), (23, 12), "byte {byte:02x}");
        let text = [&[byte][..], b"p cnf 9 1\n1 2 0"].concat();
        assert_eq!(fault(text), (21, 0), "byte {byte:02x}");
        let text = [b"p cnf 9 1", &[byte][..], b"\n1 2 0"].concat();
        assert_eq!(fault(text), (23, 8), "byte {byte:02x}");
    }
}

#[test]
fn a_line_ends_at_lf_alone() {
    assert_eq!(fault("p cnf 3 1\r1 0"), (23, 10));
    assert_eq!(fault("p cnf 3 1\n1 0\rp"), (23, 14));
    assert_eq!(clauses("c x\r1 2 3 0\np cnf 3 1\n1 0"), [[1]]);
    assert_eq!(fault("c x\rp cnf 3 0"), (21, 13));
    assert_eq!(fault("p cnf 3 1\n1 0\n\rc x"), (23, 15));
}

#[test]
fn a_comment_line_is_one_whose_very_first_byte_is_c() {
    assert_eq!(
        clauses(b"c\nc c\np cnf 3 1\nc 7\n1\nc 0\ncnf 9\n2\nc\xff\n0\nc"),
        [[1, 2]]
    );
    is_sound("c\r\np cnf 3 0\r\nc\r\n");
    is_sound("cp cnf 0 0\np cnf 3 0\ncomment");
    assert_eq!(fault(" c\np cnf 3 0"), (21, 1));
    assert_eq!(fault("\tc\np cnf 3 0"), (21, 1));
    assert_eq!(fault("p cnf 3 0\n c"), (23, 11));
    assert_eq!(fault("p cnf 3 0\n\rc"), (23, 11));
    assert_eq!(fault("p cnf 3 0 c"), (23, 10));
    assert_eq!(fault("p cnf 3 1\n1 c\n0"), (23, 12));
    assert_eq!(fault("C\np cnf 3 0"), (21, 0));
    assert_eq!(fault("p cnf 3 0\nC"), (23, 10));
}

#[test]
fn p_cnf_v_c_stand_on_one_line() {
    is_sound("p cnf 3 0");
    is_sound("  \t\r p\t\tcnf\r3 \t 0  \t\r");
    is_sound("\n\n \n p cnf 3 0\n");
}

#[test]
fn a_problem_line_cut_short_is_malformed_at_the_next_word() {
    assert_eq!(fault("p\n cnf 3 1\n1 0"), (23, 3));
    assert_eq!(fault("p cnf\n3 1\n1 0"), (23, 6));
    assert_eq!(fault("p cnf 3\n1\n1 0"), (23, 8));
    assert_eq!(fault("p cnf 3\nc 1\n\t1 0"), (23, 13));
    // a line `cnf 3 1` is a comment
    assert_eq!(fault("p\ncnf 3 1\n1 0"), (23, 10));
    // whatever that word is, also another p
    assert_eq!(fault("p\np cnf 3 0"), (23, 2));
    assert_eq!(fault("p cnf 3\n  p cnf 3 0"), (23, 10));
    assert_eq!(fault("p cnf 3\nx"), (23, 8));
}

#[test]
fn or_at_the_texts_length_where_none_is_left() {
    assert_eq!(fault("p"), (23, 1));
    assert_eq!(fault("p \n"), (23, 3));
    assert_eq!(fault("p cnf"), (23, 5));
    assert_eq!(fault("p cnf 3"), (23, 7));
    assert_eq!(fault("p cnf 3\nc 1\n \n"), (23, 14));
    assert_eq!(fault("p cnf 3\nc"), (23, 9));
}

#[test]
fn words_of_the_problem_line_are_malformed_where_they_stand() {
    assert_eq!(fault("p dnf 3 0"), (23, 2));
    assert_eq!(fault("p CNF 3 0"), (23, 2));
    assert_eq!(fault("p cnf3 0"), (23, 2));
    assert_eq!(fault("p cnf, 3 0"), (23, 2));
    assert_eq!(fault("p cn 3 0"), (23, 2));
    assert_eq!(fault("p p cnf 3 0"), (23, 2));
    assert_eq!(fault("p cnf x 0"), (23, 6));
    assert_eq!(fault("p cnf 3 x"), (23, 8));
}

#[test]
fn a_fifth_word_is_malformed() {
    assert_eq!(fault("p cnf 3 0 0"), (23, 10));
    assert_eq!(fault("p cnf 3 1 1 0"), (23, 10));
    assert_eq!(fault("p cnf 3 0 p"), (23, 10));
    assert_eq!(fault("p cnf 3 0 \t\rc"), (23, 12));
}

#[test]
fn p_that_is_not_the_first_word_of_its_line_is_malformed() {
    assert_eq!(fault("p cnf 3 1\n1 0 p cnf 3 1"), (23, 14));
    assert_eq!(fault("p cnf 3 1\n1 p 0"), (23, 12));
    assert_eq!(fault("p cnf 3 1\n1 \r p\n0"), (23, 14));
}

#[test]
fn p_first_of_a_line_is_a_second_problem_line_whatever_follows_it() {
    assert_eq!(fault("p cnf 3 1\n1 0\np cnf 3 1"), (22, 14));
    assert_eq!(fault("p cnf 3 1\np cnf 3 1\n1 0"), (22, 10));
    assert_eq!(fault("p cnf 3 1\n1 0\np"), (22, 14));
    assert_eq!(fault("p cnf 3 1\n1 0\n \t\rp dnf x"), (22, 17));
    assert_eq!(fault("p cnf 3 1\n1\np 0"), (22, 12));
    assert_eq!(fault("p cnf 3 1\n1\nc x\np 0"), (22, 16));
    assert_eq!(fault("p cnf 3 1\n1\npp 0"), (23, 12));
    assert_eq!(fault("p cnf 3 1\n1\np5 0"), (23, 12));
}

#[test]
fn leading_zeros_are_allowed() {
    assert_eq!(
        clauses("p cnf 03 002\n01 -002 00\n0003 000"),
        [vec![1, -2], vec![3]]
    );
    let zeros = zeros(400);
    let text = format!("p cnf {zeros}3 {zeros}1 \n{zeros}1 -{zeros}3 {zeros}");
    assert_eq!(clauses(text), [[1, -3]]);
    assert_eq!(fault("p cnf 000 0"), (27, 6));
    assert_eq!(fault("p cnf 3 1\n1 001 0"), (25, 12));
    assert_eq!(fault("p cnf 3 1\n00004 0"), (24, 10));
}

#[test]
fn plus_5_and_minus_0_are_malformed() {
    let words = [
        "+5", "+0", "-0", "-00", "-", "--1", "-+1", "5x", "1-2", "1-", "0-", "-1-", "0x1", "1.0",
        "1,",
    ];
    for word in words {
        assert_eq!(fault(format!("p cnf 9 1\n3 {word} 0")), (23, 12), "{word}");
        assert_eq!(fault(format!("p cnf 9 1\n3 {word}")), (23, 12), "{word}");
        assert_eq!(fault(format!("p cnf {word} 1\n3 0")), (23, 6), "{word}");
        assert_eq!(fault(format!("p cnf 9 {word}\n3 0")), (23, 8), "{word}");
    }
    // past the count as far as it goes
    assert_eq!(fault("p cnf 9 1\n99999999999x 0"), (23, 10));
    assert_eq!(fault("p cnf 99999999999x 0"), (23, 6));
}

#[test]
fn a_count_with_a_sign_is_malformed() {
    for count in ["-3", "+3", "-0", "-2049"] {
        assert_eq!(fault(format!("p cnf {count} 0")), (23, 6), "{count}");
        assert_eq!(fault(format!("p cnf 3 {count}")), (23, 8), "{count}");
    }
}

/// Numbers that are small ones in 8, 16, 31, 32, 63, 64 or 128 bits.
const WRAPPING: [&str; 14] = [
    "257",
    "65537",
    "2147483649",
    "4294967297",
    "8589934593",
    "9223372036854775809",
    "18446744073709551617",
    "36893488147419103233",
    "340282366920938463463374607431768211457",
    "1000000000000000001",
    "10000000000000000001",
    "100000000000000000001",
    "999999999999999999999999999999",
    "10000000000000000000000000000000000000000000000000000000000000001",
];

#[test]
fn a_number_of_any_length_is_that_number() {
    for number in WRAPPING {
        assert_eq!(
            fault(format!("p cnf 3 1\n{number} 0")),
            (24, 10),
            "{number}"
        );
        assert_eq!(
            fault(format!("p cnf 3 1\n-{number} 0")),
            (24, 10),
            "{number}"
        );
        assert_eq!(
            fault(format!("p cnf 3 {number}\n1 0")),
            (29, 12 + number.len()),
            "{number}"
        );
    }
    for number in &WRAPPING[1..] {
        assert_eq!(fault(format!("p cnf {number} 1\n1 0")), (27, 6), "{number}");
    }
    // none of them closes a clause
    for number in ["256", "65536", "4294967296", "18446744073709551616"] {
        assert_eq!(
            fault(format!("p cnf 3 1\n1 {number}")),
            (24, 12),
            "{number}"
        );
        assert_eq!(
            fault(format!("p cnf 3 {number}")),
            (29, 8 + number.len()),
            "{number}"
        );
    }
    assert_eq!(fault("p cnf 99999999999999999999999 0"), (27, 6));
}

#[test]
fn the_first_faulty_word_decides() {
    assert_eq!(fault("p cnf 0 x"), (27, 6));
    assert_eq!(fault("p cnf 0"), (27, 6));
    assert_eq!(fault("p dnf 0 x"), (23, 2));
    assert_eq!(fault("p cnf 2 1\n3 3 x"), (24, 10));
    assert_eq!(fault("p cnf 2 1\n1 1 3 x"), (25, 12));
    assert_eq!(fault("p cnf 2 1\n1 x 1 3"), (23, 12));
    assert_eq!(fault("p cnf 2 9\n1 0 x"), (23, 14));
    assert_eq!(fault("p cnf 2 9\n1\np"), (22, 12));
}

#[test]
fn at_one_place_the_lists_order_decides() {
    let line = "p cnf 300 1\n";
    let most = literals(256);
    let place = line.len() + most.len();
    assert_eq!(fault(format!("{line}{most}301 0")), (24, place));
    assert_eq!(fault(format!("{line}{most}-256 0")), (25, place));
    assert_eq!(fault(format!("{line}{most}257 0")), (26, place));
    assert_eq!(fault(format!("{line}{most}x 0")), (23, place));
    assert_eq!(fault(format!("{line}{most}p 0")), (23, place));
    assert_eq!(fault(format!("{line}{most}\np 0")), (22, place + 1));
    // unclosed with a wrong count
    assert_eq!(fault("p cnf 3 7\n1 0 2"), (28, 15));
    assert_eq!(fault(""), (21, 0));
}

#[test]
fn a_word_before_the_problem_line_is_21_whatever_it_is() {
    for word in [
        "1",
        "0",
        "x",
        "-",
        "cnf",
        "p1",
        "P",
        "pcnf",
        "\0",
        "99999999999999999999999",
    ] {
        assert_eq!(fault(format!(" {word} p cnf 3 0")), (21, 1), "{word}");
        assert_eq!(fault(format!(" {word}\np cnf 3 0")), (21, 1), "{word}");
        assert_eq!(fault(format!("c\n\n {word}")), (21, 4), "{word}");
    }
}

#[test]
fn where_no_word_is_left_the_problem_line_is_missing_at_the_texts_length() {
    for text in [
        "",
        " ",
        "\n",
        " \t\r\n",
        "c",
        "c\n",
        "c p cnf 3 0\n",
        "c x\nc y\n \n",
    ] {
        assert_eq!(fault(text), (21, text.len()), "{text:?}");
    }
}

#[test]
fn a_variable_twice_stands_at_the_second_occurrence() {
    assert_eq!(fault("p cnf 3 1\n1 2 1 0"), (25, 14));
    assert_eq!(fault("p cnf 3 1\n1 2 -1 0"), (25, 14));
    assert_eq!(fault("p cnf 3 1\n-3 -3 0"), (25, 13));
    assert_eq!(clauses("p cnf 3 2\n1 2 0 1 -2 0"), [[1, 2], [1, -2]]);
}

#[test]
fn a_clause_over_256_literals_stands_at_the_257th() {
    let most = literals(256);
    let place = 12 + most.len();
    assert_eq!(fault(format!("p cnf 300 1\n{most}257 258 0")), (26, place));
    assert_eq!(fault(format!("p cnf 300 1\n{most}257")), (26, place));
    assert_eq!(clauses(format!("p cnf 300 1\n{most}0"))[0].len(), 256);
    is_sound(format!("p cnf 300 2\n{most}0 257 0"));
}

#[test]
fn a_declared_variable_count_is_1_to_2048() {
    is_sound("p cnf 1 0");
    assert_eq!(clauses("p cnf 2048 1\n-2048 0"), [[-2048]]);
    assert_eq!(fault("p cnf 0 0"), (27, 6));
    assert_eq!(fault("p cnf 2049 1\n1 0"), (27, 6));
    assert_eq!(fault("p cnf 2048 1\n2049 0"), (24, 13));
    assert_eq!(fault("p cnf 1 1\n2 0"), (24, 10));
}

#[test]
fn too_many_clauses_are_told_at_the_texts_length() {
    assert_eq!(fault("p cnf 3 1\n1 0 2 0\n"), (29, 18));
    assert_eq!(fault("p cnf 3 1\n1 0 2 0 x\n"), (23, 18));
    assert_eq!(fault("p cnf 3 1\n1 0 2 0 3"), (28, 19));
    assert_eq!(fault("p cnf 3 3\n1 0 2 0\nc\n"), (29, 20));
    assert_eq!(fault("p cnf 3 1"), (29, 9));
    assert_eq!(fault("p cnf 3 0\n0"), (29, 11));
}

#[test]
fn a_clause_may_run_over_lines_and_several_may_stand_on_one() {
    let expected = [vec![1, 2], vec![-3], vec![]];
    assert_eq!(clauses("p cnf 3 3\n1\n\n2\n0 -3 0 0"), expected);
    assert_eq!(clauses("p cnf 3 3\n1 2 0 -3\r\n0\r\n0\r\n"), expected);
}

#[test]
fn p_cnf_3_0_with_no_clause_is_sound() {
    assert!(clauses("p cnf 3 0").is_empty());
    assert!(clauses("p cnf 3 00\n\n").is_empty());
}

#[test]
fn a_last_line_without_lf_is_a_line_like_others() {
    assert_eq!(clauses("p cnf 3 1\n1 0"), clauses("p cnf 3 1\n1 0\n"));
    is_sound("p cnf 3 1\n1 0\nc");
    is_sound("c\np cnf 3 0");
}

#[test]
fn a_clause_is_unclosed_when_a_literal_of_it_was_read_and_no_0() {
    assert_eq!(fault("p cnf 3 1\n1"), (28, 11));
    assert_eq!(fault("p cnf 3 1\n1 \nc 0\n"), (28, 17));
    assert_eq!(fault("p cnf 3 1\n1 0 2"), (28, 15));
    is_sound("p cnf 3 1\n1 0 ");
}

/// Texts with what they are: V and the clauses, or number and position of the fault.
const TABLE: [(&str, &str); 42] = [
    ("p cnf 1 0", "V 1"),
    ("p cnf 2 1\n1 -2 0\n", "V 2: 1 -2"),
    ("p cnf 2 2\n0 0", "V 2: , "),
    ("p cnf 2 3\n1 0 0 -1 0", "V 2: 1, , -1"),
    ("p cnf 2 1\r\n1 -2 0\r\n", "V 2: 1 -2"),
    ("c a\nc\n\np cnf 2 1\nc b\n1\nc d\n-2 0\nc e", "V 2: 1 -2"),
    ("\n\tp cnf\t2  1 \n\n 1\n 0 \n\n", "V 2: 1"),
    ("p cnf 2048 1\n2048 -1 0", "V 2048: 2048 -1"),
    ("p cnf 0002 01\n-01 02 0000", "V 2: -1 2"),
    ("p cnf 2 1\n1 -2 0\ncnf p 0 0 0", "V 2: 1 -2"),
    ("", "21 at 0"),
    ("\r\n", "21 at 2"),
    ("c p cnf 2 0", "21 at 11"),
    ("cp cnf 2 0\n", "21 at 11"),
    ("1 0\np cnf 2 1", "21 at 0"),
    ("c\n x p cnf 2 0", "21 at 3"),
    ("P cnf 2 0", "21 at 0"),
    ("p cnf 2 0\np", "22 at 10"),
    ("p cnf 2 0\n\n\r p cnf 2 0", "22 at 13"),
    ("p cnf 2 1\n1\np cnf 2 1\n0", "22 at 12"),
    ("p", "23 at 1"),
    ("p cnf 2\n", "23 at 8"),
    ("p cnf 2\n0", "23 at 8"),
    ("p\np", "23 at 2"),
    ("p cnf 2 0 %", "23 at 10"),
    ("p cnf 2 1\n1 0\n%\n0\n", "23 at 14"),
    ("p cnf 2 1\n1 -\n", "23 at 12"),
    ("p cnf 2 1\n1 -0\n", "23 at 12"),
    ("p cnf 2 0\n p1", "23 at 11"),
    ("p cnf 2 1\n3 0", "24 at 10"),
    ("p cnf 2 1\n1 -3 0", "24 at 12"),
    ("p cnf 2 1\n4294967297 0", "24 at 10"),
    ("p cnf 2 1\n1 1 0", "25 at 12"),
    ("p cnf 2 2\n1 0 2 -2 0", "25 at 16"),
    ("p cnf 0 0", "27 at 6"),
    ("p cnf 2049 0", "27 at 6"),
    ("p cnf 18446744073709551618 0", "27 at 6"),
    ("p cnf 2 1\n1", "28 at 11"),
    ("p cnf 2 0\n1 \n", "28 at 13"),
    ("p cnf 2 2\n1 0", "29 at 13"),
    ("p cnf 2 1\n1 0 2 0\n", "29 at 18"),
    ("p cnf 2 4294967297\n1 0\n", "29 at 23"),
];

/// What a text is, as the table tells it.
fn told(text: &str) -> String {
    let joined = |frame: &[i32]| {
        let words: Vec<String> = frame[2..].iter().map(i32::to_string).collect();
        words.join(" ")
    };
    match read(text.as_bytes()) {
        Err(fault) => format!("{} at {}", fault.kind.number(), fault.position),
        Ok((declared, frames)) if frames.is_empty() => format!("V {}", declared.vars),
        Ok((declared, frames)) => {
            let clauses: Vec<String> = frames.iter().map(joined).collect();
            format!("V {}: {}", declared.vars, clauses.join(", "))
        }
    }
}

#[test]
fn small_texts_are_what_the_table_says() {
    for (text, expected) in TABLE {
        assert_eq!(told(text), expected, "{text:?}");
    }
}
