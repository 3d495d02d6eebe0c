//! Tens of thousands of calls through the archive, each compared with the second implementation:
//! answer, state spelled and line begun afterwards, buffers, where a clause lies, and every word
//! where nothing may be written.

mod common;

use common::Linked;
use second::lent::damage::DAMAGES;
use second::lent::run::{run, Tally, OUTCOMES};

#[test]
fn the_archive_and_the_second_agree() {
    let mut tally = Tally::default();
    for seed in 0..2_000 {
        if let Err(difference) = run(&mut Linked, seed, &mut tally) {
            panic!("seed {seed}\n{difference}\n{tally}");
        }
    }
    assert!(tally.calls > 80_000, "{tally}");
    for (name, _) in DAMAGES {
        for call in ["step", "give", "clause and witness"] {
            let tried = tally.wrong.contains_key(&(call, name));
            assert!(tried, "never tried: {call}, {name}");
        }
    }
    for name in OUTCOMES {
        assert!(tally.outcomes[name] > 0, "never: {name}");
    }
}
