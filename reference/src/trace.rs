//! The trace file: "The file, little-endian: sets (2 bytes), ways (1), rule (1), number of steps n (4); then n codes
//! of 2 bytes (domain, kind); then n arguments of 8 bytes. Its length is 8 + 10 × n."

use crate::geometry::Geometry;
use crate::numbers::Refusal;
use crate::steps::Step;

const HEADER: usize = 8;
const CODE: usize = 2;
const ARGUMENT: usize = 8;
const MOST_STEPS: usize = 4096;

/// By document 02, "10 also covers a file naming more than 256 sets". A call may have more, by `geometry`.
const MOST_SETS: u16 = 256;

/// The length of a file with as many steps as a file may have.
pub const LARGEST_FILE: usize = HEADER + (CODE + ARGUMENT) * MOST_STEPS;

/// What a file of the right form says, whichever sets, ways and rule it names.
#[derive(Debug)]
pub struct Form {
    pub sets: u16,
    pub ways: u8,
    pub rule: u8,
    pub steps: Vec<Step>,
}

impl Form {
    /// Reads a whole file. Number 10: "trace file under 8 bytes, not of its length, or with more than 4,096 steps".
    pub fn read(file: &[u8]) -> Result<Form, Refusal> {
        if file.len() < HEADER {
            return Err(Refusal::TraceFile);
        }
        let (header, body) = file.split_at(HEADER);
        let n = u32::from_le_bytes([header[4], header[5], header[6], header[7]]);
        if n > MOST_STEPS as u32 || body.len() != (CODE + ARGUMENT) * n as usize {
            return Err(Refusal::TraceFile);
        }
        let sets = u16::from_le_bytes([header[0], header[1]]);
        Ok(Form { sets, ways: header[2], rule: header[3], steps: steps(body, n as usize) })
    }

    /// Reads a whole trace file: number 10 also for more sets than a file may name.
    pub fn read_trace(file: &[u8]) -> Result<Form, Refusal> {
        let form = Form::read(file)?;
        if form.sets > MOST_SETS {
            return Err(Refusal::TraceFile);
        }
        Ok(form)
    }

    /// The geometry that it names, or number 1.
    pub fn geometry(&self) -> Result<Geometry, Refusal> {
        Geometry::new(self.sets, self.ways, self.rule)
    }
}

/// What a trace file says that stands, and the geometry that it names.
#[derive(Debug)]
pub struct Trace {
    pub geometry: Geometry,
    pub form: Form,
}

impl Trace {
    /// Reads a whole file. Number 10, of its form or its number of sets, "comes before all others"; then number 1, of
    /// its geometry.
    pub fn read(file: &[u8]) -> Result<Trace, Refusal> {
        let form = Form::read_trace(file)?;
        Ok(Trace { geometry: form.geometry()?, form })
    }
}

/// The n steps of a body of the right length: first all codes, then all arguments.
fn steps(body: &[u8], n: usize) -> Vec<Step> {
    let (codes, arguments) = body.split_at(CODE * n);
    codes
        .chunks_exact(CODE)
        .zip(arguments.chunks_exact(ARGUMENT))
        .map(|(code, argument)| Step {
            domain: code[0],
            kind: code[1],
            argument: u64::from_le_bytes(argument.try_into().expect("8 bytes")),
        })
        .collect()
}
