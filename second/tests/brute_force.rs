//! Demand 3 by brute force over generated small histories.

use second::judge::judge_history;

#[test]
fn demand_3_holds_after_every_step() {
    let mut steps = 0;
    for seed in 0..6_000 {
        let judged = judge_history(seed, |checker| checker);
        assert_eq!(judged.broken, None, "seed {seed}");
        steps += judged.steps;
    }
    assert!(steps > 300_000, "only {steps} steps were judged");
}
