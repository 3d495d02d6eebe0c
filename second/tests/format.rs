//! The frames of docs/FORMAT.md have the answers that stand beside them.

use second::lines::answers;

const PAGE: &str = include_str!("../../docs/FORMAT.md");

/// A line of a block: in words, the frame's digits, the answer's numbers.
fn row(line: &str) -> (&str, String, Vec<u32>) {
    let mut parts = line
        .split("  ")
        .map(str::trim)
        .filter(|part| !part.is_empty());
    let (Some(words), Some(frame), Some(answer)) = (parts.next(), parts.next(), parts.next())
    else {
        panic!("not three columns: {line}");
    };
    let numbers = answer
        .split(' ')
        .map(|word| word.parse().expect("a number"));
    (words, frame.replace(' ', ""), numbers.collect())
}

fn numbers(answer: &str) -> Vec<u32> {
    let word = |from: usize| u32::from_str_radix(&answer[from..from + 8], 16).expect("digits");
    (0..answer.len()).step_by(8).map(word).collect()
}

#[test]
fn each_frame_has_the_answer_beside_it() {
    let mut frames = 0;
    for block in PAGE.split("```trace\n").skip(1) {
        let (block, _) = block.split_once("```").expect("a closed block");
        let rows: Vec<_> = block.lines().map(row).collect();
        let input: String = rows
            .iter()
            .map(|(_, frame, _)| format!("{frame}\n"))
            .collect();
        let output = String::from_utf8(answers(input.as_bytes())).expect("digits");
        assert_eq!(output.lines().count(), rows.len());
        for ((words, _, expected), answer) in rows.iter().zip(output.lines()) {
            assert_eq!(*expected, numbers(answer), "{words}");
            frames += 1;
        }
    }
    assert!(frames > 30);
}

/// Every operation is shown, and every code but 1, which no line can get, and 12 and 13, which take full tables.
#[test]
fn every_operation_and_code_is_shown() {
    let rows = PAGE.split("```trace\n").skip(1).flat_map(|block| {
        let (block, _) = block.split_once("```").expect("a closed block");
        block.lines().map(row)
    });
    let shown: Vec<_> = rows
        .map(|(_, frame, answer)| (frame[..8].to_string(), answer[0]))
        .collect();
    for operation in 1..=9 {
        assert!(shown
            .iter()
            .any(|(first, _)| *first == format!("{operation:08x}")));
    }
    for code in (0..=13).filter(|code| ![1, 12, 13].contains(code)) {
        assert!(shown.iter().any(|(_, answer)| *answer == code), "{code}");
    }
}
