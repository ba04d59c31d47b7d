//! The struck-out list of a domain: "the same list in its order, without the accesses and flushes (kinds 0 to 3) that
//! belong to another domain; every other step stays."
//!
//! By document 02, "a step of kinds 32 to 35 belongs to the domain its selector names at that moment; neighbours' are
//! struck out as their kinds 0 to 3 are. Those whose core is not in the list belong to no domain and are kept, as
//! selector writes are." The moment is that of the run with 32 fresh records, which the selector writes alone change.
//!
//! The text has a line for each step that is kept: the two bytes of its code as they stand, and its argument, in
//! decimal. No step is refused by 1 here: a file has the same list with every geometry.

use std::fmt::Write;

use crate::cores::{self, Core};
use crate::steps::Step;
use crate::trace::Form;

/// Writing to a text cannot fail.
const WRITTEN: &str = "text takes every line";

/// The whole text. A file refused by 10 gives nothing.
pub fn of_file(domain: u8, file: &[u8]) -> String {
    match Form::read_trace(file) {
        Ok(form) => of_steps(&struck_out(domain, &mut cores::fresh(), &form.steps)),
        Err(_) => String::new(),
    }
}

fn of_steps(steps: &[Step]) -> String {
    let mut text = String::with_capacity(12 * steps.len());
    for Step { domain, kind, argument } in steps {
        writeln!(text, "{domain} {kind} {argument}").expect(WRITTEN);
    }
    text
}

/// The struck-out list of a domain, for a run that is lent these records.
fn struck_out(domain: u8, cores: &mut [Core], steps: &[Step]) -> Vec<Step> {
    let mut kept = Vec::with_capacity(steps.len());
    for step in steps {
        if !is_neighbours(domain, cores, step) {
            kept.push(*step);
        }
        cores::hand_on(cores, step);
    }
    kept
}

/// Whether a step is an access or a flush that belongs to another domain at this moment.
fn is_neighbours(domain: u8, cores: &[Core], step: &Step) -> bool {
    cores::plain(cores, step).is_some_and(|plain| plain.kind <= 3 && plain.domain != domain)
}

#[cfg(test)]
mod tests {
    use super::*;

    /// The places of the steps that are kept, where each step has its place as its argument.
    fn places_kept(domain: u8, cores: &mut [Core], codes: &[(u8, u8)]) -> Vec<u64> {
        let steps: Vec<Step> =
            (0..).zip(codes).map(|(argument, &(domain, kind))| Step { domain, kind, argument }).collect();
        struck_out(domain, cores, &steps).iter().map(|step| step.argument).collect()
    }

    /// Of all codes, those of kinds 0 to 3 that name another domain go, domains of 16 or more too, and by fresh records
    /// those of kinds 32 to 35 for every domain but 0.
    #[test]
    fn every_code() {
        for domain in 0..16 {
            for kind in 0..=255 {
                let codes: Vec<(u8, u8)> = (0..=255).map(|named| (named, kind)).collect();
                let kept: Vec<u64> = match (kind, domain) {
                    (0..=3, _) => vec![u64::from(domain)],
                    (32..=35, 1..) => (32..256).collect(),
                    _ => (0..256).collect(),
                };
                assert_eq!(places_kept(domain, &mut cores::fresh(), &codes), kept, "kind {kind}, domain {domain}");
            }
        }
    }

    /// A step through a core belongs to the domain of its own selector: CS of a fetch, DS of a load or flush, ES of a
    /// store.
    #[test]
    fn each_selector() {
        let codes = [(2, 32), (2, 33), (2, 34), (2, 35)];
        let of_domain = |domain| {
            let mut cores = [Core { cs: 9, ds: 9, es: 9 }, Core::default(), Core { cs: 4, ds: 5, es: 6 }];
            places_kept(domain, &mut cores, &codes)
        };
        assert_eq!(of_domain(4), [0]);
        assert_eq!(of_domain(5), [1, 3]);
        assert_eq!(of_domain(6), [2]);
        assert_eq!(of_domain(9), []);
    }

    /// With no record no core is in the list, and with one record only core 0 is. Its stored selector of 16 or more
    /// names no chosen domain.
    #[test]
    fn shorter_lists_and_stored_selectors() {
        let codes = [(0, 32), (0, 33), (0, 34), (0, 35), (1, 33), (1, 1), (0, 40), (1, 40)];
        assert_eq!(places_kept(0, &mut [], &codes), [0, 1, 2, 3, 4, 6, 7]);
        assert_eq!(places_kept(1, &mut [], &codes), [0, 1, 2, 3, 4, 5, 6, 7]);
        let mut cores = [Core { cs: 16, ds: 255, es: 1 }];
        assert_eq!(places_kept(0, &mut cores, &codes), [4, 6, 7]);
        let mut cores = [Core { cs: 16, ds: 255, es: 1 }];
        assert_eq!(places_kept(1, &mut cores, &codes), [2, 4, 5, 6, 7]);
    }

    /// The moment is that of the step: a core is domain 0's, then domain 7's, then, after two writes that are refused,
    /// still domain 7's.
    #[test]
    fn a_core_that_changes_hands() {
        let load = |argument| Step { domain: 31, kind: 33, argument };
        let write = |argument| Step { domain: 31, kind: 40, argument };
        let steps =
            [load(0), write(0x00_07_00), load(1), write(0x10_00_00), write(1 << 63), load(2), write(0), load(3)];
        let loads = |domain| -> Vec<u64> {
            let kept = struck_out(domain, &mut cores::fresh(), &steps);
            assert_eq!(kept.iter().filter(|step| step.kind == 40).count(), 4);
            kept.iter().filter(|step| step.kind == 33).map(|step| step.argument).collect()
        };
        assert_eq!(loads(0), [0, 3]);
        assert_eq!(loads(7), [1, 2]);
        assert_eq!(loads(1), []);
    }
}
