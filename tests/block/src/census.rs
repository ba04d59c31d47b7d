//! What came up, by the reference, so that one can see what the agreement is worth.

use std::collections::BTreeMap;
use std::fmt::{self, Display, Formatter};

use crate::pair::Call;

const WORDS: [&str; 8] = ["hit", "fill", "evict", "pass", "flush", "absent", "policy", "refused"];
const RULES: [&str; 3] = ["Tree-PLRU", "NRU", "true LRU"];

/// How often something came up, by its name or number.
type Met<K> = BTreeMap<K, u64>;

#[derive(Default)]
pub struct Census {
    pub fresh: u64,
    pub steps: u64,
    fresh_numbers: Met<u64>,
    words: Met<u64>,
    numbers: Met<u64>,
    policy_numbers: Met<u64>,
    dirty: Met<&'static str>,
    rooms: Met<usize>,
    /// Steps that changed something, by rule, ways and sets.
    rules: Met<u8>,
    ways: Met<u8>,
    sets: Met<u16>,
}

fn add<K: Ord>(met: &mut Met<K>, key: K) {
    *met.entry(key).or_default() += 1;
}

impl Census {
    /// A call, the number that it returned, its answer and the block as it was lent.
    pub fn take(&mut self, call: &Call, number: u64, answer: &[u8], before: &[u8]) {
        match *call {
            Call::Fresh { .. } => {
                self.fresh += 1;
                add(&mut self.fresh_numbers, number);
            }
            Call::Step { kind, room, .. } => {
                self.steps += 1;
                add(&mut self.rooms, room);
                match number {
                    0 => self.take_done(answer, before),
                    _ if kind == 16 => add(&mut self.policy_numbers, number),
                    _ => add(&mut self.numbers, number),
                }
            }
        }
    }

    /// A step that was not refused.
    fn take_done(&mut self, answer: &[u8], before: &[u8]) {
        let field = |i: usize| u64::from_le_bytes(answer[8 * i..][..8].try_into().expect("8 bytes"));
        add(&mut self.words, field(0));
        match field(0) {
            2 if field(3) == 1 => add(&mut self.dirty, "dirty lines evicted"),
            4 if field(2) == 1 => add(&mut self.dirty, "dirty lines flushed"),
            6 if field(2) > 0 => add(&mut self.dirty, "policies dropping dirty lines"),
            6 if field(1) > 0 => add(&mut self.dirty, "policies dropping clean lines alone"),
            _ => {}
        }
        add(&mut self.sets, u16::from_le_bytes([before[0], before[1]]));
        add(&mut self.ways, before[2]);
        add(&mut self.rules, before[3]);
    }
}

/// A line of a census: what came up, and how often.
fn line<K: Copy>(f: &mut Formatter, title: &str, met: &Met<K>, name: impl Fn(K) -> String) -> fmt::Result {
    let entries: Vec<String> = met.iter().map(|(&key, count)| format!("{}: {count}", name(key))).collect();
    writeln!(f, "{title:<28} {}", entries.join(", "))
}

impl Display for Census {
    fn fmt(&self, f: &mut Formatter) -> fmt::Result {
        writeln!(f, "{} fresh calls and {} steps", self.fresh, self.steps)?;
        line(f, "fresh calls, by number", &self.fresh_numbers, |number| number.to_string())?;
        line(f, "steps done, by word", &self.words, |word| WORDS[word as usize].to_string())?;
        line(f, "among them", &self.dirty, String::from)?;
        line(f, "policies refused, by number", &self.policy_numbers, |number| number.to_string())?;
        line(f, "others refused, by number", &self.numbers, |number| number.to_string())?;
        line(f, "steps done, by rule", &self.rules, |rule| RULES[usize::from(rule)].to_string())?;
        line(f, "steps done, by ways", &self.ways, |ways| ways.to_string())?;
        line(f, "steps done, by sets", &self.sets, |sets| sets.to_string())?;
        let other: u64 = self.rooms.iter().filter(|&(&room, _)| room != 32).map(|(_, count)| count).sum();
        writeln!(f, "{:<28} {other}, of {} lengths", "answers not of 32 bytes", self.rooms.len() - 1)
    }
}
