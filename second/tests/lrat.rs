//! Request 3's checking: every number, the order within a line, and every point decided where the request
//! is silent, each under its own words.

use second::lrat::check;

/// Variables 1 to 3; the clauses 1 to 4 allow no model.
const CNF: &str = "p cnf 3 4\n1 2 0\n1 -2 0\n-1 2 0\n-1 -2 0\n";

/// Code and detail with the tables of the program.
fn checked(cnf: &str, proof: &str) -> (u32, u64) {
    check(1_024, 8_192, cnf.as_bytes(), proof.as_bytes())
}

/// Code and detail of a proof over the CNF above.
fn said(proof: &str) -> (u32, u64) {
    checked(CNF, proof)
}

/// The code of a line that stands behind a sound one.
fn code_of_line(line: &str) -> u32 {
    let (code, detail) = said(&format!("5 1 0 1 2 0\n{line}\n"));
    let is_end = detail == 2 && code == 38;
    assert!(code == 0 || detail == 2, "{line}: {code} in line {detail}");
    if is_end {
        0
    } else {
        code
    }
}

/// These lines, behind a sound one, have this code; 0 for lines that pass.
fn all_say(code: u32, lines: &[&str]) {
    for line in lines {
        assert_eq!(code_of_line(line), code, "{line:?}");
    }
}

#[test]
fn a_proof_is_accepted() {
    assert_eq!(said("5 1 0 1 2 0\n6 0 5 3 4 0\n"), (0, 0));
    assert_eq!(said("5 1 0 1 2 0\n5 d 1 2 0\n6 0 5 3 4 0\n"), (0, 0));
    assert_eq!(checked("p cnf 1 2\n1 0 -1 0", "3 0 1 2 0"), (0, 0));
    assert_eq!(checked("p cnf 1 2\n1 0 -1 0", "3 0 2 1 0"), (0, 0));
}

#[test]
fn an_end_without_an_empty_clause_is_38_with_the_number_of_lines() {
    assert_eq!(said(""), (38, 0));
    assert_eq!(said("5 1 0 1 2 0\n"), (38, 1));
    assert_eq!(said("5 1 0 1 2 0\n5 d 1 0"), (38, 2));
    assert_eq!(said("5 d 0\n5 d 0\n5 d 0\n"), (38, 3));
}

/// The same for lines that are given with / between them.
fn each_says(code: u32, lines: &str) {
    all_say(code, &lines.split('/').collect::<Vec<&str>>());
}

#[test]
fn what_is_no_line_of_either_kind_is_31() {
    each_says(31, "/ /\t\r/\r/c/c a comment/c 6 0 1 0/d/d 1 0/x");
}

#[test]
fn an_addition_has_its_two_0_and_ends_with_the_second() {
    each_says(31, "6/6 0/6 1/6 1 0/6 1 0 1/6 1 0 1 2/6 0 1/6 1 2 3");
    each_says(
        31,
        "6 1 0 1 2 0 0/6 1 0 1 2 0 7/6 1 0 1 2 0 x/6 0 0 0/6 1 0 1 0 2 0",
    );
}

#[test]
fn a_deletion_has_d_for_its_second_word_and_ends_with_its_only_0() {
    each_says(
        31,
        "5 d/5 d 1/5 d 1 0 2 0/5 d 1 0 0/5 d 0 0/5 d 0 1/5 d x 0/5 d d 0",
    );
    each_says(
        31,
        "5 D 1 0/5 dd 1 0/5 d1 0/5d 1 0/5 -d 1 0/5 1 d 0/5 1 d 2 0/x d 1 0/+5 d 1 0",
    );
}

#[test]
fn words_that_are_no_numbers_are_31_wherever_they_stand() {
    for word in [
        "-0", "-00", "+5", "+0", "-", "--1", "5x", "1-", "1.0", "0x1", "1,", "\u{b}", "\0", "é",
    ] {
        all_say(
            31,
            &[
                &format!("{word} 1 0 1 2 0"),
                &format!("6 {word} 1 0 1 2 0"),
                &format!("6 1 {word} 0 1 2 0"),
                &format!("6 1 0 {word} 1 2 0"),
                &format!("6 1 0 1 2 {word} 0"),
                &format!("6 1 0 1 2 0 {word}"),
                &format!("6 1 0 1 2 {word}"),
                &format!("{word} d 1 0"),
                &format!("5 d {word} 0"),
                &format!("5 d 1 {word} 0"),
                &format!("5 d 1 0 {word}"),
            ],
        );
    }
}

#[test]
fn an_added_id_that_no_clause_can_have_is_31() {
    all_say(
        31,
        &[
            "0 1 0 1 2 0",
            "00 1 0 1 2 0",
            "-6 1 0 1 2 0",
            "2147483648 1 0 1 2 0",
        ],
    );
    all_say(
        31,
        &[
            "4294967302 1 0 1 2 0",
            "18446744073709551622 1 0 1 2 0",
            "99999999999999999999999 1 0 1 2 0",
        ],
    );
    all_say(0, &["2147483647 1 0 1 2 0", "0000002147483647 1 0 1 2 0"]);
}

#[test]
fn numbers_have_any_length_and_leading_zeros() {
    assert_eq!(said("005 0001 00 1 02 000\n000006 0 05 3 4 00\n"), (0, 0));
    let zeros = "0".repeat(70_000);
    assert_eq!(
        said(&format!(
            "{zeros}5 {zeros}1 {zeros} 1 2 {zeros}\n6 0 5 3 4 0"
        )),
        (0, 0)
    );
    assert_eq!(
        said(&format!("5 -{zeros}1 0 {zeros}3 4 0\n6 0 5 1 2 0")),
        (0, 0)
    );
}

#[test]
fn blanks_are_space_tab_and_cr_and_lines_end_at_lf() {
    assert_eq!(said("5 1 0 1 2 0\r\n6 0 5 3 4 0\r\n"), (0, 0));
    assert_eq!(said(" \t5\r1\t0  1 2 0 \n\r6 0 5 3 4 0\t"), (0, 0));
    assert_eq!(said("5\td\r1\t0\r\n6 -2 0 2 0\n"), (37, 2));
    assert_eq!(said("5 1 0\n1 2 0\n"), (31, 1));
    assert_eq!(said("5 1 0 1 2 0\r6 0 5 3 4 0"), (31, 1));
}

#[test]
fn a_last_line_needs_no_lf_and_nothing_behind_the_last_lf_is_no_line() {
    assert_eq!(said("5 1 0 1 2 0\n6 0 5 3 4 0"), (0, 0));
    assert_eq!(said("5 1 0 1 2 0\n"), (38, 1));
    assert_eq!(said("5 1 0 1 2 0"), (38, 1));
    assert_eq!(said("5 1 0 1 2 0\n\n"), (31, 2));
    assert_eq!(said("5 1 0 1 2 0\n "), (31, 2));
    assert_eq!(said("\n5 1 0 1 2 0\n6 0 5 3 4 0"), (31, 1));
}

#[test]
fn a_literal_past_the_cnfs_count_is_32() {
    all_say(
        32,
        &[
            "6 4 0 1 2 0",
            "6 1 -4 0 1 2 0",
            "6 -4 0 1 2 0",
            "6 99999999999999999999 0 1 0",
        ],
    );
    all_say(
        32,
        &[
            "6 4294967297 0 1 2 0",
            "6 -18446744073709551615 0 1 2 0",
            "6 2147483648 0 1 0",
            "6 -2147483648 0 1 0",
        ],
    );
    all_say(0, &["6 1 3 0 1 2 0", "6 1 -3 0 1 2 0"]);
}

#[test]
fn a_variable_twice_or_more_than_256_literals_are_33() {
    all_say(
        33,
        &[
            "6 1 1 0 1 2 0",
            "6 1 -1 0 1 2 0",
            "6 1 3 2 -3 0 1 2 0",
            "6 -1 -1 0 0",
        ],
    );
    let wide = |literals: i32| {
        let literals: String = (1..=literals)
            .map(|literal| format!("{literal} "))
            .collect();
        checked("p cnf 300 1\n1 0", &format!("2 {literals}0 1 0\n3 0 0"))
    };
    assert_eq!(wide(256), (37, 2));
    assert_eq!(wide(257), (33, 1));
    assert_eq!(wide(300), (33, 1));
    assert_eq!(wide(301), (32, 1));
}

#[test]
fn an_added_id_not_above_all_earlier_ones_is_34() {
    all_say(34, &["5 1 0 1 2 0", "4 1 0 1 2 0", "1 1 0 1 2 0"]);
    assert_eq!(said("4 1 0 1 2 0\n"), (34, 1));
    assert_eq!(said("9 1 0 1 2 0\n8 0 9 3 4 0\n"), (34, 2));
    assert_eq!(said("9 1 0 1 2 0\n1 d 9 0\n9 1 0 1 2 0\n"), (34, 3));
    assert_eq!(said("5 d 1 2 3 4 0\n4 1 0 1 0\n"), (34, 2));
    assert_eq!(
        said("2147483647 1 0 1 2 0\n2147483647 0 2147483647 3 4 0\n"),
        (34, 2)
    );
    assert_eq!(said("900 d 0\n5 1 0 1 2 0\n6 0 5 3 4 0"), (0, 0));
}

#[test]
fn a_deleted_id_that_is_not_held_is_35() {
    all_say(
        35,
        &[
            "5 d 6 0",
            "5 d 1 1 0",
            "5 d 1 7 0",
            "5 d 99999999999999999999 0",
            "5 d 4294967297 0",
        ],
    );
    all_say(
        0,
        &[
            "5 d 1 0",
            "5 d 5 0",
            "5 d 1 2 3 4 5 0",
            "5 d 0",
            "5 d 0001 0",
        ],
    );
    assert_eq!(said("5 d 1 0\n5 d 1 0\n"), (35, 2));
    all_say(31, &["5 d -1 0", "5 d 1 -99 0", "5 d 7 -1 0"]);
}

#[test]
fn a_deletions_own_first_id_is_any_number() {
    all_say(
        0,
        &[
            "0 d 1 0",
            "-7 d 1 0",
            "1 d 1 0",
            "99999999999999999999 d 1 0",
            "-99999999999999999999 d 0",
        ],
    );
    all_say(31, &["-0 d 1 0", "d d 1 0"]);
}

#[test]
fn a_negative_hint_is_36_read_or_not() {
    all_say(
        36,
        &[
            "6 1 0 -1 2 0",
            "6 1 0 1 2 -1 0",
            "6 1 0 99 -1 0",
            "6 1 0 -99999999999999999999 0",
        ],
    );
    all_say(36, &["6 0 5 3 4 -1 0", "6 1 0 1 2 7 8 -9 0"]);
}

#[test]
fn a_failed_proof_is_37() {
    // not held: never, not yet, gone, past all ids
    all_say(
        37,
        &[
            "6 1 0 7 0",
            "6 1 0 6 0",
            "6 0 6 0",
            "6 1 0 4294967297 2 0",
            "6 1 0 99999999999999999999 1 2 0",
        ],
    );
    assert_eq!(said("5 1 0 1 2 0\n5 d 5 0\n6 0 5 3 4 0"), (37, 3));
    // a true literal, two open, hints used up
    all_say(
        37,
        &[
            "6 2 0 3 0",
            "6 3 0 1 0",
            "6 1 0 0",
            "6 1 0 1 0",
            "6 1 0 1 1 0",
            "6 0 3 5 0",
            "6 0 0",
        ],
    );
    // hints behind the conflict are unread
    all_say(0, &["6 1 0 1 2 1 1 77 99999999999999999999 0"]);
}

#[test]
fn a_cnf_with_the_empty_clause_still_needs_a_line() {
    let cnf = "p cnf 1 2\n1 0 0";
    assert_eq!(checked(cnf, ""), (38, 0));
    assert_eq!(checked(cnf, "3 0 2 0"), (0, 0));
    assert_eq!(checked(cnf, "3 0 0"), (37, 1));
    assert_eq!(checked(cnf, "3 1 0 2 0\n4 0 2 0"), (0, 0));
    assert_eq!(checked(cnf, "3 d 2 0\n3 0 2 0"), (37, 2));
}

#[test]
fn nothing_behind_the_first_empty_clause_is_read() {
    for behind in [
        "",
        "x",
        "\n\n",
        "0",
        "7 9 0 1 0",
        "7 d 99 0",
        "\0\u{7f}",
        "7 0 -1 0",
        "5 1 0 1 2 0",
    ] {
        assert_eq!(
            said(&format!("5 1 0 1 2 0\n6 0 5 3 4 0\n{behind}")),
            (0, 0),
            "{behind:?}"
        );
    }
}

#[test]
fn the_cnfs_faults_come_first() {
    for proof in ["", "x", "3 0 1 2 0"] {
        assert_eq!(checked("", proof), (21, 0));
        assert_eq!(checked("p cnf 3 1\n4 0", proof), (24, 10));
        assert_eq!(checked("p cnf 3 1\n1 0 2 0\n", proof), (29, 18));
        assert_eq!(
            check(1, 1, b"p cnf 3 2\n1 2 0 1", proof.as_bytes()),
            (28, 17)
        );
    }
}

#[test]
fn lent_sizes_out_of_range_are_1_before_everything() {
    for (entries, words) in [(0, 1), (1, 0), (1_025, 1), (1, 8_193), (usize::MAX, 5)] {
        assert_eq!(check(entries, words, b"", b"x"), (1, 0));
        assert_eq!(check(entries, words, CNF.as_bytes(), b""), (1, 0));
    }
    assert_eq!(check(1, 1, b"", b""), (21, 0));
}

/// Code and detail in tables of these sizes, over the CNF of 4 clauses and 8 literals.
fn within(entries: usize, words: usize, proof: &str) -> (u32, u64) {
    check(entries, words, CNF.as_bytes(), proof.as_bytes())
}

#[test]
fn no_room_for_the_cnf_is_12_or_13_with_line_0() {
    assert_eq!(within(3, 8, "x"), (12, 0));
    assert_eq!(within(4, 7, "x"), (13, 0));
    // The fourth clause finds no words, the third no entry.
    assert_eq!(within(2, 7, ""), (12, 0));
    assert_eq!(within(3, 5, ""), (13, 0));
    assert_eq!(within(4, 8, ""), (38, 0));
}

#[test]
fn no_room_for_an_added_clause_is_12_then_13() {
    let proof = "5 1 0 1 2 0\n6 0 5 3 4 0";
    assert_eq!(within(4, 9, proof), (12, 1));
    assert_eq!(within(4, 8, proof), (12, 1));
    assert_eq!(within(5, 8, proof), (13, 1));
    // The empty clause's line needs an entry, too.
    assert_eq!(within(5, 9, proof), (12, 2));
    assert_eq!(within(6, 9, proof), (0, 0));
}

#[test]
fn room_of_deleted_clauses_is_used_again() {
    assert_eq!(within(5, 9, "5 1 0 1 2 0\n5 d 1 2 0\n6 0 5 3 4 0"), (0, 0));
    assert_eq!(
        within(5, 9, "5 1 0 1 2 0\n5 d 2 0\n6 1 3 0 5 0\n7 0 6 0"),
        (12, 4)
    );
    assert_eq!(within(4, 8, "5 d 1 0\n6 1 2 3 0 2 0\n"), (13, 2));
    assert_eq!(within(4, 8, "5 d 1 0\n6 2 3 0 2 0\n"), (37, 2));
}

#[test]
fn within_a_line_the_order_of_the_list_decides() {
    // each line has all faults from the one that is told on, whatever stands first in it
    assert_eq!(within(4, 8, "5 9 9 0 -1 77 0 x"), (31, 1));
    assert_eq!(within(4, 8, "1 9 9 0 -1 77 x 0"), (31, 1));
    assert_eq!(within(4, 8, "1 1 1 9 0 77 -1 0"), (32, 1));
    assert_eq!(within(4, 8, "1 1 1 0 77 -1 0"), (33, 1));
    assert_eq!(within(4, 8, "1 1 0 77 -1 0"), (34, 1));
    assert_eq!(within(4, 8, "5 1 0 77 -1 0"), (36, 1));
    assert_eq!(within(4, 8, "5 1 0 77 0"), (12, 1));
    assert_eq!(within(5, 8, "5 1 0 77 0"), (13, 1));
    assert_eq!(within(5, 9, "5 1 0 77 0"), (37, 1));
    assert_eq!(said("5 d 77 x 0"), (31, 1));
    assert_eq!(said("5 d 77 0 0"), (31, 1));
    assert_eq!(said("5 d 77 -1 0"), (31, 1));
}

#[test]
fn lines_have_no_length_limit() {
    let hints = "1 ".repeat(300_000);
    assert_eq!(said(&format!("5 1 0 1 2 {hints}0\n6 0 5 3 4 0")), (0, 0));
    let blanks = " \t\r".repeat(100_000);
    assert_eq!(
        said(&format!("5 1{blanks}0 1 2 0{blanks}\n6 0 5 3 4 0")),
        (0, 0)
    );
}
