//! Core selectors, by document 02: "Simulators know cores, not domains. Add a lent list of core records, each with its
//! three selectors CS, DS and ES, at most 32 records and fresh at zero."
//!
//! The cache knows no cores. Where a list is lent, a step through a core is put to the cache as the plain step of the
//! domain that the core's selector names at that moment, and a selector write is done here. "Where no list is lent
//! these kinds stay unknown": the cache is then given the step as it is.

use crate::cache::Cache;
use crate::domains::DOMAINS;
use crate::numbers::Refusal;
use crate::steps::{Answer, Step};

#[cfg(test)]
mod tests;

/// "At most 32 records."
const MOST_CORES: usize = 32;

/// "Kind 40 writes a core's selectors."
const SELECT: u8 = 40;

#[derive(Clone, Copy, PartialEq, Eq, Debug, Default)]
pub struct Core {
    pub cs: u8,
    pub ds: u8,
    pub es: u8,
}

/// "The lister lends 32 records", "fresh at zero".
pub fn fresh() -> [Core; MOST_CORES] {
    [Core::default(); MOST_CORES]
}

/// The step that the cache is given in place of a step: "Kinds 32 to 35 are kinds 0 to 3 with a core in place of the
/// domain: a fetch uses CS, a load or flush DS, a store ES." The domain that it names is the one that the step belongs
/// to. None is for a selector write, and for a core that is not in the list: they "belong to no domain".
pub fn plain(cores: &[Core], step: &Step) -> Option<Step> {
    match step.kind {
        32..=35 => {
            let core = cores.get(usize::from(step.domain))?;
            let (selector, kind) = match step.kind {
                32 => (core.cs, 0),
                33 => (core.ds, 1),
                34 => (core.es, 2),
                _ => (core.ds, 3),
            };
            Some(Step { domain: selector, kind, argument: step.argument })
        }
        SELECT => None,
        _ => Some(*step),
    }
}

/// A selector write, and what it wrote: "from the argument's three low bytes, lowest first, in that order. Its other
/// bytes must be zero, else 5; a selector of 16 or more is 3." If several hold, the order is 11, 3, 5, as 11 is
/// "checked after 2 and before 3".
fn select(cores: &mut [Core], step: &Step) -> Result<Core, Refusal> {
    let core = cores.get_mut(usize::from(step.domain)).ok_or(Refusal::Core)?;
    let [cs, ds, es, others @ ..] = step.argument.to_le_bytes();
    if [cs, ds, es].iter().any(|&selector| usize::from(selector) >= DOMAINS) {
        return Err(Refusal::Domain);
    }
    if others != [0; 5] {
        return Err(Refusal::Argument);
    }
    *core = Core { cs, ds, es };
    Ok(*core)
}

/// What a step does to the list, whatever becomes of it: only a selector write that stands changes a record.
pub fn hand_on(cores: &mut [Core], step: &Step) {
    if step.kind == SELECT {
        let _ = select(cores, step);
    }
}

/// Does one step where a list is lent. "The list is to be changed where the caller lends it."
pub fn step(cache: &mut Cache, cores: &mut [Core], step: &Step) -> Answer {
    step_and_visits(cache, cores, step).0
}

/// Does one step, and gives beside its answer how many ways its lookup visited. Number 11 is "a list too long", for
/// every kind, "or, for these kinds, a core not in it".
pub fn step_and_visits(cache: &mut Cache, cores: &mut [Core], step: &Step) -> (Answer, usize) {
    if cores.len() > MOST_CORES {
        return (Answer::Refused(Refusal::Core), 0);
    }
    if step.kind == SELECT {
        let answer = match select(cores, step) {
            Ok(Core { cs, ds, es }) => Answer::Select { cs, ds, es },
            Err(refusal) => Answer::Refused(refusal),
        };
        return (answer, 0);
    }
    match plain(cores, step) {
        Some(step) => cache.step_and_visits(&step),
        None => (Answer::Refused(Refusal::Core), 0),
    }
}
