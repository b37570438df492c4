//! The rules of document 01 for DVLB shader libraries, written plainly from
//! the documents alone: a reference to compare the proved code with.
//!
//! Nothing here allocates or panics; every answer is a value or a refusal.

mod constants;
mod flow;
mod layout;
mod tables;
mod text;
mod walk;
mod words;

#[cfg(test)]
mod trials;

pub use constants::Constant;
pub use words::{decode, encode, Decoded};

use layout::Library;

/// A number of document 01's table and its place.
#[derive(Clone, Copy, PartialEq, Eq, Debug)]
pub struct Refusal {
    pub number: u32,
    pub place: u32,
}

/// What the report tells of one executable.
#[derive(Clone, Copy, PartialEq, Eq, Debug, Default)]
pub struct Report {
    pub shader_type: u32,
    pub main: u32,
    pub endmain: u32,
    pub inputs: u32,
    pub outputs: u32,
    pub constants: u32,
    pub words: u32,
    pub total: u32,
}

/// Refuses with `number` at `place` unless `good`.
fn demand(good: bool, number: u32, place: usize) -> Result<(), Refusal> {
    if good {
        Ok(())
    } else {
        Err(refusal(number, place))
    }
}

fn refusal(number: u32, place: usize) -> Refusal {
    // Places inside one executable stay under 65,536, as the file's length does.
    Refusal {
        number,
        place: place as u32,
    }
}

/// The whole check: refusals 1 to 28 in document 01's order.
pub fn check(file: &[u8]) -> Result<(), Refusal> {
    Library::accept(file).map(|_| ())
}

/// The report of one executable.
pub fn report(file: &[u8], executable: u32) -> Result<Report, Refusal> {
    Ok(Library::accept(file)?.executable(executable)?.report)
}

/// Writes the listing; answers the bytes written.
pub fn list(file: &[u8], out: &mut [u8]) -> Result<u32, Refusal> {
    text::list(&Library::accept(file)?, out)
}

/// Writes one report record for each executable; answers the bytes written.
pub fn summarize(file: &[u8], out: &mut [u8]) -> Result<u32, Refusal> {
    text::summarize(&Library::accept(file)?, out)
}

/// The one record that both programs write for a refused file.
pub fn refused_record(refusal: Refusal) -> [u8; 80] {
    text::refused(refusal)
}

/// Runs one executable; answers its steps and writes the indices of the
/// fetched words, as many as fit.
pub fn walk(
    file: &[u8],
    executable: u32,
    bools: &[u8],
    ints: &[u8],
    truth: &[u8],
    fetched: &mut [u16],
) -> Result<u32, Refusal> {
    let library = Library::accept(file)?;
    let executable = library.executable(executable)?;
    let (Some(bools), Some(ints)) = (bools.first_chunk(), ints.first_chunk()) else {
        return Err(refusal(30, 0));
    };
    let settings = walk::Settings { bools, ints, truth };
    Ok(walk::run(
        library.words(),
        &executable.report,
        settings,
        fetched,
    ))
}

/// Constant `n` of one executable.
pub fn constant(file: &[u8], executable: u32, n: u32) -> Result<Constant, Refusal> {
    let library = Library::accept(file)?;
    library.constant(library.executable(executable)?, n)
}
