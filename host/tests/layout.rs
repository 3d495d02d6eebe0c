//! The layout that the archive, the header and this crate must agree on.

use std::mem::{align_of, offset_of, size_of};
use zahrubel::dimacs::{Cnf, Cursor};
use zahrubel::lrat::Proof;
use zahrubel::{Answer, Carried, Entry, Given, Reader};

#[test]
fn an_entry_is_five_words() {
    assert_eq!((size_of::<Entry>(), align_of::<Entry>()), (20, 4));
    let offsets = [
        offset_of!(Entry, id),
        offset_of!(Entry, place),
        offset_of!(Entry, start),
        offset_of!(Entry, length),
        offset_of!(Entry, witness),
    ];
    assert_eq!(offsets, [0, 4, 8, 12, 16]);
    assert_eq!(size_of::<[Entry; 1_024]>(), 20 * 1_024);
}

#[test]
fn what_is_carried_is_five_words_and_the_stack() {
    assert_eq!(
        (size_of::<Carried>(), align_of::<Carried>()),
        (4 * 1_029, 4)
    );
    let offsets = [
        offset_of!(Carried, vars),
        offset_of!(Carried, highest),
        offset_of!(Carried, count),
        offset_of!(Carried, words),
        offset_of!(Carried, depth),
        offset_of!(Carried, stack),
    ];
    assert_eq!(offsets, [0, 4, 8, 12, 16, 20]);
}

#[test]
fn an_answer_is_two_words_of_64_bits() {
    assert_eq!((size_of::<Answer>(), align_of::<Answer>()), (16, 8));
    assert_eq!(
        (offset_of!(Answer, code), offset_of!(Answer, detail)),
        (0, 8)
    );
}

#[test]
fn a_reader_is_three_words_of_64_bits() {
    assert_eq!((size_of::<Reader>(), align_of::<Reader>()), (24, 8));
    let offsets = [
        offset_of!(Reader, digits),
        offset_of!(Reader, word),
        offset_of!(Reader, spoilt),
    ];
    assert_eq!(offsets, [0, 8, 16]);
}

#[test]
fn what_is_given_is_two_words_of_64_bits() {
    assert_eq!((size_of::<Given>(), align_of::<Given>()), (16, 8));
    assert_eq!(
        (offset_of!(Given, taken), offset_of!(Given, written)),
        (0, 8)
    );
}

#[test]
fn what_a_text_has_is_two_words_of_64_bits() {
    assert_eq!((size_of::<Cnf>(), align_of::<Cnf>()), (16, 8));
    assert_eq!((offset_of!(Cnf, vars), offset_of!(Cnf, clauses)), (0, 8));
}

#[test]
fn a_cursor_is_a_size_and_a_word_of_64_bits() {
    assert_eq!((size_of::<Cursor>(), align_of::<Cursor>()), (16, 8));
    assert_eq!((offset_of!(Cursor, at), offset_of!(Cursor, id)), (0, 8));
}

#[test]
fn what_is_read_of_a_proof_is_words_literals_and_two_sets() {
    assert_eq!((size_of::<Proof>(), align_of::<Proof>()), (1_592, 8));
    let offsets = [
        offset_of!(Proof, lines),
        offset_of!(Proof, value),
        offset_of!(Proof, kind),
        offset_of!(Proof, minus),
        offset_of!(Proof, phase),
        offset_of!(Proof, noted),
        offset_of!(Proof, id),
        offset_of!(Proof, count),
        offset_of!(Proof, proof),
        offset_of!(Proof, over),
        offset_of!(Proof, code),
        offset_of!(Proof, spare),
        offset_of!(Proof, literals),
        offset_of!(Proof, plus),
        offset_of!(Proof, minuses),
    ];
    let words = [16, 20, 24, 28, 32, 36, 40, 44, 48, 52];
    assert_eq!(offsets[..2], [0, 8]);
    assert_eq!(offsets[2..12], words);
    assert_eq!(offsets[12..], [56, 1_080, 1_336]);
}
