//! The inputs of the figures are what their names say.
use compare::inputs::{all, Input, BOOLS, INTS};
use reference::{check, report, walk, Refusal};

fn input(name: &str) -> Input {
    let found = all().into_iter().find(|input| input.name == name);
    found.unwrap_or_else(|| panic!("{name} is among the inputs"))
}

fn total(name: &str) -> u32 {
    report(&input(name).file, 0).unwrap().total
}

fn steps(name: &str) -> u32 {
    walk(&input(name).file, 0, &BOOLS, &INTS, &[], &mut []).unwrap()
}

#[test]
fn all_are_accepted_with_their_executables() {
    for input in all() {
        assert_eq!(check(&input.file), Ok(()), "{}", input.name);
        let missing = report(&input.file, input.executables).map_err(|refusal| refusal.number);
        assert_eq!(missing.err(), Some(29), "{}", input.name);
    }
}

#[test]
fn totals_and_steps() {
    // Of an IF and its two parts one part is skipped: 41 of 61 words are fetched in each turn.
    let turns = 256 * 256;
    for (name, most, made) in [
        ("example", 5, 5),
        ("512 plain words", 512, 512),
        ("P10", 3_997_954, 3_997_954),
        ("IFs in two LOOPs", 3_997_954, 41 * turns + 258),
        ("calls over 255 NOPs", 3_840_651, 3_840_651),
        ("calls over jumps to the next word", 3_840_651, 3_840_651),
    ] {
        let sixteen = format!("{name}, 16 executables");
        assert_eq!((total(name), steps(name)), (most, made), "{name}");
        assert_eq!((total(&sixteen), steps(&sixteen)), (most, made), "{name}");
    }
    let far = "calls over jumps to the last word";
    assert_eq!((total(far), steps(far)), (3_840_651, 3_840_651));
}

#[test]
fn large_tables() {
    let constants = input("3,200 constants, 16 executables").file;
    assert_eq!(report(&constants, 15).unwrap().constants, 3_200);
    assert_eq!(constants.len(), 64_000 + 8 + 4 * 16 + 40 + 64 * 16 + 4 + 8);

    // The last label's address lies 12 bytes before the 2,000 names of 16 bytes.
    let mut labels = input("2,000 labels, 16 executables").file;
    let address = labels.len() - 32_000 - 12;
    labels[address] = 2;
    let bad_label = Refusal {
        number: 19,
        place: 1_999,
    };
    assert_eq!(check(&labels), Err(bad_label));
}
