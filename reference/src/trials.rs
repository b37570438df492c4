//! Document 01's trials on the edges, and words taken apart and put together.

use crate::constants::float24;
use crate::words::FIELDS;
use crate::*;

const NOP: u32 = 0x8400_0000;
const END: u32 = 0x8800_0000;
const BREAK: u32 = 0x8000_0000;
const CALL: u32 = 0x24;
const IFU: u32 = 0x27;
const LOOP: u32 = 0x29;
const JMPU: u32 = 0x2D;

/// A format 2 or 3 word with register 0.
fn flow(opcode: u32, target: u32, length: u32) -> u32 {
    opcode << 26 | target << 10 | length
}

/// A library of one executable of type 0, main 0, without table entries.
fn library(words: &[u32], descriptors: &[u32], endmain: u32) -> Vec<u8> {
    let opcodes_end = 40 + 4 * words.len() as u32;
    let descriptors_end = opcodes_end + 8 * descriptors.len() as u32;
    let dvle = 12 + descriptors_end;
    let mut made = vec![u32::from_le_bytes(*b"DVLB"), 1, dvle];
    made.extend([u32::from_le_bytes(*b"DVLP"), 0, 40, words.len() as u32]);
    made.extend([opcodes_end, descriptors.len() as u32, 0, 0, 0, 0]);
    made.extend(words);
    made.extend(descriptors.iter().flat_map(|&descriptor| [descriptor, 15]));
    made.extend([u32::from_le_bytes(*b"DVLE"), 0, 0, endmain, 0x0001_0001, 0]);
    made.extend([0; 10]);
    made.iter().flat_map(|word| word.to_le_bytes()).collect()
}

/// The total, or the number and place of the refusal.
fn total(words: &[u32], endmain: u32) -> Result<u32, (u32, u32)> {
    let report = report(&library(words, &[], endmain), 0);
    report
        .map(|report| report.total)
        .map_err(|refusal| (refusal.number, refusal.place))
}

fn steps(file: &[u8], b3: u8, x: u8) -> Result<u32, Refusal> {
    let mut bools = [0; 16];
    bools[3] = b3;
    walk(file, 0, &bools, &[x; 4], &[], &mut [])
}

#[test]
fn p1_example() {
    let words = [0x4C00_0000, 0x9CC0_0C00, 0x0222_5100, NOP, END];
    let file = library(&words, &[0x0D86_C36F], 5);
    assert_eq!((steps(&file, 1, 0), steps(&file, 0, 0)), (Ok(5), Ok(4)));
    let lines = [
        "0000 4C000000 MOV     o0.xyzw,v0.xyzw",
        "0001 9CC00C00 IFU     b3 0003+00",
        "0002 02225100 ADD     r1.xyzw,c5.xyzw,v2.xyzw",
        "0003 84000000 NOP",
        "0004 88000000 END",
    ];
    let listing: String = lines.iter().map(|line| format!("{line:79}\n")).collect();
    let mut out = [0; 400];
    assert_eq!(list(&file, &mut out), Ok(400));
    assert_eq!(out, listing.as_bytes());
    let record =
        "exe 00 type 0 main 0000 end 0005 in 01 out 01 con 0000 words 0005 most 0000005 \n";
    assert_eq!(summarize(&file, &mut out), Ok(80));
    assert_eq!(&out[..80], record.as_bytes());
}

#[test]
fn p2_loop() {
    let words = [0xA400_0800, NOP, NOP, END];
    assert_eq!(total(&words, 4), Ok(514));
    let file = library(&words, &[], 4);
    assert_eq!((steps(&file, 0, 0), steps(&file, 0, 255)), (Ok(4), Ok(514)));
}

#[test]
fn p3_to_p5_jumps() {
    assert_eq!(total(&[0xB400_0800, NOP, END], 3), Ok(3));
    assert_eq!(total(&[flow(JMPU, 3, 0), NOP, END], 3), Err((26, 0)));
    let into_branch = [flow(JMPU, 3, 0), flow(IFU, 4, 0), NOP, NOP, END];
    assert_eq!(total(&into_branch, 5), Err((26, 0)));
}

#[test]
fn p6_break_in_a_called_region() {
    assert_eq!(
        total(&[flow(LOOP, 1, 0), flow(CALL, 3, 1), END, BREAK], 3),
        Err((23, 3))
    );
}

#[test]
fn p7_to_p9_bounds() {
    assert_eq!(total(&[flow(CALL, 0, 1), END], 2), Err((25, 0)));
    assert_eq!(total(&[flow(IFU, 2, 0), END], 2), Err((28, 1)));
    assert_eq!(total(&[flow(IFU, 1, 0), END], 2), Err((24, 0)));
}

#[test]
fn p10_and_p11_totals() {
    let nested = |nops: usize| {
        let last = nops as u32 + 1;
        let mut words = vec![flow(LOOP, last, 0); 2];
        words.resize(nops + 2, NOP);
        words.push(END);
        total(&words, last + 2)
    };
    assert_eq!(nested(61), Ok(3_997_954));
    assert_eq!(nested(62), Err((27, 63)));
}

#[test]
fn p12_float24() {
    let pattern = |word| float24(word).map(f32::to_bits);
    assert_eq!(pattern(0x3F_0000), Some(0x3F80_0000));
    assert_eq!(pattern(0xBF_0000), Some(0xBF80_0000));
    assert_eq!(pattern(0x3F_8000), Some(0x3FC0_0000));
    assert_eq!(pattern(0x00_0001), None);
    assert_eq!(pattern(0x7F_0000), None);
    assert_eq!(pattern(0x80_0000), Some(0x8000_0000));
    assert_eq!(pattern(0x0100_0000), None);
}

#[test]
fn most_words_and_descriptors() {
    let answer = |words: usize, descriptors: usize| {
        let mut all = vec![NOP; words];
        all[words - 1] = END;
        check(&library(&all, &vec![0; descriptors], words as u32))
    };
    let seven = Err(Refusal {
        number: 7,
        place: 0,
    });
    assert_eq!(answer(512, 128), Ok(()));
    assert_eq!(answer(513, 128), seven);
    assert_eq!(answer(512, 129), seven);
}

#[test]
fn words_apart_and_together() {
    let words: [(u32, u32, [u32; 8]); 14] = [
        (0x82C4_3EF6, 0, [32, 46_415_606, 0, 0, 0, 0, 0, 0]),
        (0x8800_0000, 0, [34, 0, 0, 0, 0, 0, 0, 0]),
        (0x03E4_543D, 1, [0, 61, 8, 69, 0, 31, 0, 0]),
        (0x0222_5100, 1, [0, 0, 2, 37, 0, 17, 0, 0]),
        (0x61AF_763B, 2, [24, 59, 108, 29, 1, 13, 0, 0]),
        (0x16AB_221F, 3, [5, 31, 50, 1, 21, 4, 0, 0]),
        (0x4C00_0000, 3, [19, 0, 0, 0, 0, 0, 0, 0]),
        (0xBBD1_C7A7, 4, [46, 39, 15, 28, 2, 6, 3, 0]),
        (0x8F84_2784, 5, [35, 132, 265, 2, 1, 1, 3, 0]),
        (0x9921_6598, 6, [38, 152, 2137, 4, 1, 0, 0, 0]),
        (0x9CC0_0C00, 6, [39, 0, 3, 3, 0, 0, 0, 0]),
        (0xAC9D_52AD, 7, [43, 0, 1, 0, 1_921_709, 0, 0, 0]),
        (0xE386_B4EF, 8, [56, 15, 7, 45, 3, 2, 3, 0]),
        (0xC255_9A52, 9, [48, 18, 82, 25, 10, 1, 2, 0]),
    ];
    for (word, format, fields) in words {
        assert_eq!(decode(word), Ok(Decoded { format, fields }));
        assert_eq!(encode(format, &fields), Ok(word));
    }
    for opcode in [0x10, 0x11, 0x14, 0x17, 0x1C, 0x1F] {
        assert_eq!(
            decode(opcode << 26),
            Err(Refusal {
                number: 9,
                place: 0
            })
        );
    }
}

#[test]
fn fields_not_to_encode() {
    let bad: [(u32, &[u32]); 8] = [
        (10, &[0; 8]),
        (1, &[0; 7]),
        (1, &[]),
        (1, &[0, 128, 0, 0, 0, 0, 0, 0]),
        (1, &[0, 0, 0, 0, 0, 0, 1, 0]),
        (4, &[47, 0, 0, 0, 0, 0, 0, 0]),
        (3, &[0, 0, 0, 0, 0, 0, 0, 0]),
        (1, &[64, 0, 0, 0, 0, 0, 0, 0]),
    ];
    for (format, fields) in bad {
        assert_eq!(
            encode(format, fields),
            Err(Refusal {
                number: 31,
                place: 0
            })
        );
    }
}

#[test]
fn fields_after_the_eighth() {
    let mut fields = vec![0, 0, 2, 37, 0, 17, 0, 0];
    fields.extend([1, u32::MAX]);
    assert_eq!(encode(1, &fields), Ok(0x0222_5100));
}

/// Each format's fields and its opcode bits fill a word, none twice.
#[test]
fn fields_fill_a_word() {
    for (format, fields) in FIELDS.iter().enumerate() {
        let opcode_bits = [6, 6, 6, 6, 5, 6, 6, 6, 3, 3][format];
        let widths: u32 = fields.iter().map(|&(_, width)| width).sum();
        let covered = fields.iter().fold(0, |all, &(lowest, width)| {
            all | ((1 << width) - 1) << lowest
        });
        assert_eq!(widths + opcode_bits, 32);
        assert_eq!(covered, u32::MAX >> opcode_bits);
    }
}
