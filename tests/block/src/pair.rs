//! One block twice: the library's and the reference's. Every call is made on both, and afterwards the number returned,
//! the answer and the whole block must be the same to the byte.

use reference::block;

use crate::census::Census;
use crate::library;

/// Room before the block, so that its place in memory may be any.
pub const SHIFTS: usize = 16;

pub struct Pair {
    shift: usize,
    library: Vec<u8>,
    reference: Vec<u8>,
}

/// A call, as it is shown where the two differ.
#[derive(Clone, Copy, Debug)]
pub enum Call {
    Fresh { sets: u64, ways: u64, rule: u64 },
    Step { domain: u64, kind: u64, argument: u64, room: usize },
}

impl Pair {
    /// The library's block is `shift` bytes into its allocation.
    pub fn new(bytes: &[u8], shift: usize) -> Pair {
        let library = [&[0; SHIFTS][..shift], bytes].concat();
        Pair { shift, library, reference: bytes.to_vec() }
    }

    pub fn bytes(&self) -> &[u8] {
        &self.reference
    }

    /// Overwrites some bytes of both.
    pub fn write(&mut self, from: usize, bytes: &[u8]) {
        self.reference[from..from + bytes.len()].copy_from_slice(bytes);
        self.library[self.shift + from..][..bytes.len()].copy_from_slice(bytes);
    }

    /// Makes a call on both. An answer that is not filled keeps the bytes that it has here.
    pub fn call(&mut self, call: Call, census: &mut Census) -> Result<(), String> {
        let before = self.reference.clone();
        let ours = &mut self.library[self.shift..];
        let (numbers, answers) = match call {
            Call::Fresh { sets, ways, rule } => {
                let number = library::fresh(ours, sets, ways, rule);
                ((number, block::fresh(&mut self.reference, sets, ways, rule)), (vec![], vec![]))
            }
            Call::Step { domain, kind, argument, room } => {
                let mut answers = (vec![0xa5; room], vec![0xa5; room]);
                let number = library::step(ours, domain, kind, argument, &mut answers.0);
                ((number, block::step(&mut self.reference, domain, kind, argument, &mut answers.1)), answers)
            }
        };
        census.take(&call, numbers.1, &answers.1, &before);
        let difference = if numbers.0 != numbers.1 {
            format!("the library returns {}, the reference {}", numbers.0, numbers.1)
        } else if answers.0 != answers.1 {
            format!("the library answers\n  {:?}\nthe reference\n  {:?}", answers.0, answers.1)
        } else if let Some(place) = (0..before.len()).find(|&place| ours[place] != self.reference[place]) {
            let (ours, other) = (ours[place], self.reference[place]);
            format!("byte {place} was {}; the library leaves {ours}, the reference {other}", before[place])
        } else {
            return Ok(());
        };
        let head = &before[..before.len().min(8)];
        Err(format!("{call:?}\non a block of {} bytes with the head {head:?}: {difference}", before.len()))
    }
}
