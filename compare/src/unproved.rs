//! The reference, answering in the form of the calls for C.
use crate::calls::{Answer, Calls, Run};
use reference::{Constant, Refusal};

pub struct Reference;

impl Calls for Reference {
    fn check(&self, file: &[u8]) -> Answer {
        answer(reference::check(file).map(|()| 0))
    }

    fn report(&self, file: &[u8], executable: u32, out: &mut [u32]) -> Answer {
        answer(reference::report(file, executable).and_then(|report| {
            let fields = [
                report.shader_type,
                report.main,
                report.endmain,
                report.inputs,
                report.outputs,
                report.constants,
                report.words,
                report.total,
            ];
            write(out, fields, 8)
        }))
    }

    fn list(&self, file: &[u8], out: &mut [u8]) -> Answer {
        answer(reference::list(file, out))
    }

    fn summarize(&self, file: &[u8], out: &mut [u8]) -> Answer {
        answer(reference::summarize(file, out))
    }

    fn walk(&self, file: &[u8], run: Run, fetched: &mut [u16]) -> Answer {
        let Run {
            executable,
            bools,
            ints,
            truth,
        } = run;
        answer(reference::walk(
            file, executable, bools, ints, truth, fetched,
        ))
    }

    fn constant(&self, file: &[u8], executable: u32, n: u32, out: &mut [u32]) -> Answer {
        let found = reference::constant(file, executable, n);
        answer(found.and_then(|constant| {
            let (kind, values) = match constant {
                Constant::Bool(value) => (0, [value.into(), 0, 0, 0]),
                Constant::Bytes(bytes) => (1, bytes.map(u32::from)),
                Constant::Vector(values) => (2, values.map(f32::to_bits)),
            };
            write(out, values, kind)
        }))
    }

    fn decode(&self, word: u32, out: &mut [u32]) -> Answer {
        let found = reference::decode(word);
        answer(found.and_then(|decoded| write(out, decoded.fields, decoded.format)))
    }

    fn encode(&self, format: u32, fields: &[u32]) -> Answer {
        answer(reference::encode(format, fields))
    }
}

fn answer(found: Result<u32, Refusal>) -> Answer {
    match found {
        Ok(value) => Answer(value.into()),
        Err(refusal) => Answer::refusal(refusal.number, refusal.place),
    }
}

/// Writes values to the front of a lent buffer and answers `value`; 30 if the buffer is too short.
fn write<const N: usize>(out: &mut [u32], values: [u32; N], value: u32) -> Result<u32, Refusal> {
    let front = out.first_chunk_mut().ok_or(Refusal {
        number: 30,
        place: 0,
    })?;
    *front = values;
    Ok(value)
}
