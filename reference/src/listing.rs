//! The listing: "It prints in decimal, one space between: first sets, ways, rule and n; then for each step its place
//! from 0, a word and fields". Every line ends in a line feed, the last one too.

use std::fmt::Write;

use crate::cache::Cache;
use crate::cores::{self, Core};
use crate::domains::{Counts, Domains, DOMAINS};
use crate::numbers::Refusal;
use crate::steps::{Answer, Step};
use crate::trace::{Form, Trace};

/// Writing to a text cannot fail.
const WRITTEN: &str = "text takes every line";

/// The whole listing of a trace file. "A file refused by 10 or by 1 gives the one line `refused` and the number." By
/// document 02, "the lister lends 32 records".
pub fn of_file(file: &[u8]) -> String {
    match Trace::read(file) {
        Ok(trace) => of_calls(&trace.form, Some(&mut cores::fresh())),
        Err(refusal) => of_refused(refusal),
    }
}

/// The one line of a file that is refused as a whole.
pub fn of_refused(refusal: Refusal) -> String {
    format!("refused {}\n", refusal.number())
}

/// The listing of the steps of a file, each of them a call, which is lent the list of cores if there is one. The first
/// one gets a fresh cache; with a geometry outside the limits there is none, and number 1 turns all of them down.
pub fn of_calls(form: &Form, mut lent: Option<&mut [Core]>) -> String {
    let mut cache = form.geometry().map(Cache::fresh);
    let mut text = of_steps(form, |step| match (&mut cache, &mut lent) {
        (Err(refusal), _) => Answer::Refused(*refusal),
        (Ok(cache), None) => cache.step(step),
        (Ok(cache), Some(cores)) => cores::step(cache, cores, step),
    });
    if let Ok(cache) = cache {
        domain_lines(&mut text, cache.domains());
    }
    text
}

/// The first line, and those of the steps, which are done one after another: "A refused step does not end the run."
pub fn of_steps(form: &Form, mut done: impl FnMut(&Step) -> Answer) -> String {
    let Form { sets, ways, rule, steps } = form;
    let mut text = String::with_capacity(64 + 32 * steps.len());
    writeln!(text, "{sets} {ways} {rule} {}", steps.len()).expect(WRITTEN);
    for (place, step) in steps.iter().enumerate() {
        step_line(&mut text, place, done(step));
    }
    text
}

/// "`hit` way; `fill` way; `evict` way, tag, dirty (0 or 1); `pass`; `flush` way, dirty; `absent`; `policy` dropped,
/// dirty dropped; `refused` number." By document 02, an accepted selector write "prints `select` and the three
/// selectors".
fn step_line(text: &mut String, place: usize, answer: Answer) {
    match answer {
        Answer::Hit { way } => writeln!(text, "{place} hit {way}"),
        Answer::Fill { way } => writeln!(text, "{place} fill {way}"),
        Answer::Evict { way, tag, dirty } => writeln!(text, "{place} evict {way} {tag} {}", u8::from(dirty)),
        Answer::Pass => writeln!(text, "{place} pass"),
        Answer::Flush { way, dirty } => writeln!(text, "{place} flush {way} {}", u8::from(dirty)),
        Answer::Absent => writeln!(text, "{place} absent"),
        Answer::Policy { dropped, dirty_dropped } => writeln!(text, "{place} policy {dropped} {dirty_dropped}"),
        Answer::Select { cs, ds, es } => writeln!(text, "{place} select {cs} {ds} {es}"),
        Answer::Refused(refusal) => writeln!(text, "{place} refused {}", refusal.number()),
    }
    .expect(WRITTEN);
}

/// "Then each domain whose hit map is not empty, ascending: `domain`, number and five counts." By document 02 there are
/// seven, fills and dropped "at its end and on the domain line".
fn domain_lines(text: &mut String, domains: &Domains) {
    for domain in (0..DOMAINS).filter(|&domain| domains.policy(domain).hit_map != 0) {
        writeln!(text, "domain {domain} {}", of_counts(domains.counts(domain))).expect(WRITTEN);
    }
}

/// The counts of a domain in their order.
pub fn of_counts(counts: &Counts) -> String {
    counts.in_order().map(|count| count.to_string()).join(" ")
}
