//! How much stack the exported calls take on the processor at hand.

mod c;

use c::{compiled, said, C};
use second::traces::find_class;

/// The bound that the header gives.
fn bound() -> usize {
    let header = include_str!("../../include/zahrubel.h");
    let name = "#define ZAHRUBEL_STACK_BYTES ";
    let line = header.lines().find_map(|line| line.strip_prefix(name));
    line.expect("the bound").parse().expect("a number")
}

/// Every operation and code, full tables, and room made in them: all that takes a large buffer.
fn trace() -> Vec<u8> {
    let mut trace = include_bytes!("../../examples/every-code.hex").to_vec();
    // Its last line is not closed.
    trace.push(b'\n');
    for name in ["words", "entries", "longest", "groups", "chains"] {
        let class = find_class(name).expect("a class");
        trace.extend(class.trace(1));
    }
    trace
}

#[test]
fn no_call_takes_more_stack_than_the_header_says() {
    let said = said(&compiled(C, "stack.c", "stack"), trace());
    let taken = said.lines().map(|line| {
        let (name, bytes) = line.rsplit_once(' ').expect("a name and a number");
        (name, bytes.parse::<usize>().expect("a number"))
    });
    let taken: Vec<(&str, usize)> = taken.collect();
    assert_eq!(taken.len(), 12, "{taken:?}");
    for (name, bytes) in taken {
        assert!(bytes > 0 && bytes <= bound(), "{name} takes {bytes} bytes");
        println!("{name} takes {bytes} bytes of stack");
    }
}
