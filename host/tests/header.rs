//! C programs over the header and the archive.

mod c;

use c::{compiled, compiled_text, is_there, said, C, CPP};
use zahrubel::{Code, Operation};

#[test]
fn c_answers_the_worked_example_and_reads_rules_and_proofs() {
    let said = said(&compiled(C, "header.c", "header"), Vec::new());
    let lines: Vec<&str> = said.lines().collect();
    let by_frames = ["0 0", "0 0", "0 0", "0 1", "1", "5 1", "0 0", "0 0"];
    let by_lines = [
        "0 0",
        "0000000000000000",
        "0000000000000000",
        "clause 1 2",
        "witness 1",
        "000000000000000100000001",
        "0000000500000001",
        "0000000000000000",
        "0000000000000000",
        "0000000200000000",
    ];
    let by_text = [
        "3 variables, 3 clauses",
        "4 words to byte 24: 0 0",
        "2 words to byte 26: 0 0",
        "3 words to byte 31: 0 0",
        "0 0, last id 3",
        "fault 24, byte 15",
    ];
    let by_proof = ["proof 0 0, 2 variables", "proof 37 2, 2 variables"];
    let in_parts = [
        "part 0 0, more",
        "part 0 0, over",
        "part 37 2, over",
        "part 37 2, over",
    ];
    assert_eq!(
        lines,
        [&by_frames[..], &by_lines, &by_text, &by_proof, &in_parts].concat()
    );
}

/// The example in the header's first comment, as somebody would copy it.
fn example() -> String {
    let header = include_str!("../../include/zahrubel.h");
    let (comment, _) = header.split_once("*/").expect("the first comment");
    let lines = comment.lines().map(|line| line.trim_start_matches(" *"));
    let code = lines.skip_while(|line| !line.starts_with("     #include"));
    let code = code.take_while(|line| line.is_empty() || line.starts_with("     "));
    code.map(|line| format!("{}\n", line.trim_start_matches("     ")))
        .collect()
}

const SAID: &str = "accepted, detail 0\naccepted, detail 0\naccepted, detail 1\nflag 1 is shown\n";

#[test]
fn the_example_of_the_header_runs() {
    assert_eq!(
        said(&compiled_text(C, &example(), "example"), Vec::new()),
        SAID
    );
}

#[test]
fn the_example_of_the_header_is_cpp_too() {
    if is_there(CPP) {
        let program = compiled_text(CPP, &example(), "example_cpp");
        assert_eq!(said(&program, Vec::new()), SAID);
    }
}

/// A name of C for a name of Rust: `NoState` is `ZAHRUBEL_NO_STATE`.
fn c_name(name: &str) -> String {
    let mut found = "ZAHRUBEL".to_string();
    for letter in name.chars() {
        if letter.is_uppercase() {
            found.push('_');
        }
        found.extend(letter.to_uppercase());
    }
    found
}

#[test]
fn the_names_of_c_have_the_numbers_of_rust() {
    let operations = [
        Operation::Add,
        Operation::Learn,
        Operation::Forget,
        Operation::Promote,
        Operation::Drop,
        Operation::Weaken,
        Operation::Restore,
        Operation::Sat,
        Operation::Unsat,
    ];
    let codes = Code::ALL.map(|code| (format!("{code:?}"), code as i32));
    let named = operations.map(|operation| (format!("{operation:?}"), operation as i32));
    let asserts = codes.iter().chain(&named).map(|(name, number)| {
        let name = c_name(name);
        format!("_Static_assert({name} == {number}, \"{name}\");\n")
    });
    let text = format!(
        "#include \"zahrubel.h\"\n{}int main(void) {{ return 0; }}\n",
        asserts.collect::<String>()
    );
    said(&compiled_text(C, &text, "names"), Vec::new());
}
