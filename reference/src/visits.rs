//! The ways that lookups visit: by document 02, the hit lookup "also answers how many ways it visited". Beside them
//! stand the counts, step by step, where a listing has them at the end.
//!
//! The text of a trace has a line for each step with numbers in decimal: the number of ways that its lookup visited,
//! the domain that the cache took it for and, if that is one of the sixteen, its seven counts after the step, in their
//! order. A step without a lookup has 0 ways: a policy change, a selector write, and a step that is turned down. The
//! domain is the one that the step names or, through a core, the one that the selector names; of a selector write, and
//! of a core that is not in the list, it is 65535, for none. 32 fresh records are lent, as the lister lends them. The
//! last line is `held` and how many lines each of the sixteen domains holds then.

use std::fmt::Write;

use crate::cache::Cache;
use crate::cores;
use crate::domains::DOMAINS;
use crate::trace::Trace;

/// In place of a domain's number, where a step is none of the cache.
const NO_DOMAIN: u16 = 65_535;

/// Writing to a text cannot fail.
const WRITTEN: &str = "text takes every line";

/// The whole text. A refused file gives the one line `refused`; by which number it is refused, its listing says.
pub fn of_file(file: &[u8]) -> String {
    match Trace::read(file) {
        Ok(trace) => of_trace(&trace),
        Err(_) => String::from("refused\n"),
    }
}

fn of_trace(trace: &Trace) -> String {
    let mut text = String::with_capacity(32 * trace.form.steps.len());
    let (mut cache, mut cores) = (Cache::fresh(trace.geometry), cores::fresh());
    for step in &trace.form.steps {
        let domain = cores::plain(&cores, step).map_or(NO_DOMAIN, |plain| u16::from(plain.domain));
        let (_, visited) = cores::step_and_visits(&mut cache, &mut cores, step);
        write!(text, "{visited} {domain}").expect(WRITTEN);
        end_line(&mut text, counts_of(&cache, usize::from(domain)));
    }
    text.push_str("held");
    end_line(&mut text, (0..DOMAINS).map(|domain| cache.held(domain)));
    text
}

/// The counts of a domain in their order; none where there is no such domain.
fn counts_of(cache: &Cache, domain: usize) -> impl Iterator<Item = u32> {
    let counts = (domain < DOMAINS).then(|| cache.domains().counts(domain).in_order());
    counts.into_iter().flatten()
}

/// The rest of a line: these numbers, each after a space.
fn end_line(text: &mut String, numbers: impl Iterator<Item = u32>) {
    for number in numbers {
        write!(text, " {number}").expect(WRITTEN);
    }
    text.push('\n');
}
