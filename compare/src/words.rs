//! Words taken apart and put together by both implementations.
use crate::both::{Both, Difference};
use crate::tally::Tally;
use compare::random::Random;

/// Words for each seed.
const WORDS: usize = 16;

pub fn compare(seed: u64, tally: &mut Tally) -> Result<(), Difference> {
    let both = Both { seed };
    let mut random = Random::new(seed.rotate_left(32));
    for _ in 0..WORDS {
        let word = random.draw() as u32;
        let short = random.below(8);
        decode(both, word, short)?;
        let (format, mut fields) = decode(both, word, 8 + random.below(3))?;
        encode(both, format, &fields)?;
        let format = alter(&mut random, format, &mut fields);
        encode(both, format, &fields)?;
        tally.decoded += 2;
        tally.encoded += 2;
    }
    Ok(())
}

/// Format and fields; of an unknown word whatever encoding is to be tried with.
fn decode(both: Both, word: u32, room: usize) -> Result<(u32, Vec<u32>), Difference> {
    let lent = both.lend(
        format_args!("decode {word:08X} into {room} numbers"),
        room,
        |_| 8,
        |calls, out| calls.decode(word, out),
    )?;
    let format = lent.answer.value().unwrap_or(word % 10);
    Ok((format, lent.elements().to_vec()))
}

fn encode(both: Both, format: u32, fields: &[u32]) -> Result<(), Difference> {
    let call = format_args!("encode format {format} from {fields:X?}");
    both.answer(call, |calls| calls.encode(format, fields))?;
    Ok(())
}

/// Changes one thing: the format, which is answered, the number of fields, or a field, which may become too wide or be
/// none of the format's.
fn alter(random: &mut Random, format: u32, fields: &mut Vec<u32>) -> u32 {
    let any = random.draw() as u32 >> random.below(32);
    match random.below(8) {
        0 => return any,
        1 => return random.below(12) as u32,
        2 => fields.truncate(random.below(9)),
        3 => fields.push(any),
        4 => fields[0] = random.below(66) as u32,
        _ => fields[random.below(8)] = any,
    }
    format
}
