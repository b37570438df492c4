//! What the generator has to be good for: a third of the files pass, and every refusal from 1 to 28 occurs.
use compare::generate::{case, good};
use compare::random::Random;

#[test]
fn a_third_is_accepted_and_every_refusal_occurs() {
    let mut counts = [0usize; 29];
    let mut good = 0;
    for seed in 0..60_000u64 {
        let case = case(seed);
        let number = reference::check(&case.file)
            .err()
            .map_or(0, |r| r.number as usize);
        counts[number] += 1;
        if seed % 3 == 0 {
            assert_eq!(number, 0, "seed {seed} is refused");
            good += 1;
        }
    }
    assert_eq!(good, 20_000);
    for number in 1..=28 {
        assert!(
            counts[number] >= 10,
            "refusal {number} occurs {} times: {counts:?}",
            counts[number]
        );
    }
}

#[test]
fn the_limits_are_reached() {
    let (mut calls, mut ifs, mut loops, mut cost, mut words, mut executables) = (0, 0, 0, 0, 0, 0);
    for seed in 0..20_000u64 {
        let (_, layout) = good(&mut Random::new(seed));
        calls = calls.max(layout.deepest.calls);
        ifs = ifs.max(layout.deepest.ifs);
        loops = loops.max(layout.deepest.loops);
        cost = cost.max(layout.deepest.cost);
        words = words.max(layout.word_count);
        executables = executables.max(layout.executables.len());
    }
    assert_eq!((calls, ifs, loops, executables), (4, 8, 2, 16));
    assert!(cost > 3_900_000 && words > 480, "{cost} {words}");
}
