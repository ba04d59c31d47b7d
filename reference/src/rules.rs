//! The replacement rules called alone: "The replacement rules are usable without any cache above them: a word and a map
//! give a victim and the word before its touch; a word, a map and a touched way give a new word."
//!
//! The calls come from a file in the form of a trace file. Its ways and rule are those of the calls; the code of an
//! entry is a fill map, its argument a word. The text has a line `fresh` word; then for each entry `own` word; `victim`
//! way, word; `touch` way, word, for each way and for W; `change` word, `conflict` number, with the map of the entry
//! before, 0 for the first. A refused call has `refused` and its number in place of its values.

use std::fmt::{Display, Write};

use crate::geometry::{Geometry, Rule};
use crate::maps::{all_ways, Map};
use crate::numbers::Refusal;
use crate::replacement::{self, HandOver};
use crate::trace::Trace;
use crate::tree;

/// Writing to a text cannot fail.
const WRITTEN: &str = "text takes every line";

/// The whole text. A file that is refused as a trace file, by 10 or by 1, gives the one line `refused` and the number.
pub fn of_file(file: &[u8]) -> String {
    match Trace::read(file) {
        Ok(trace) => of_entries(&trace),
        Err(refusal) => format!("refused {}\n", refusal.number()),
    }
}

fn of_entries(trace: &Trace) -> String {
    let mut text = format!("fresh {}\n", replacement::fresh_word(&trace.geometry));
    let mut before = 0;
    for entry in &trace.form.steps {
        let map = Map::from_le_bytes([entry.domain, entry.kind]);
        word_lines(&mut text, &trace.geometry, entry.argument, map);
        map_lines(&mut text, &trace.geometry, entry.argument, before, map);
        before = map;
    }
    text
}

/// The lines of the calls with a word and a map.
fn word_lines(text: &mut String, geometry: &Geometry, word: u64, map: Map) {
    let victim = victim(geometry, word, map).map(|(way, word)| format!("{way} {word}"));
    writeln!(text, "own {}", shown(own(geometry, word, map))).expect(WRITTEN);
    writeln!(text, "victim {}", shown(victim)).expect(WRITTEN);
    for way in 0..=geometry.ways {
        writeln!(text, "touch {way} {}", shown(touch(geometry, word, map, way))).expect(WRITTEN);
    }
}

/// The lines of the calls with two maps.
fn map_lines(text: &mut String, geometry: &Geometry, word: u64, old: Map, new: Map) {
    let number = conflict(geometry, old, new).err().map_or(0, Refusal::number);
    writeln!(text, "change {}\nconflict {number}", change(geometry, word, old, new)).expect(WRITTEN);
}

/// What a call gave, or that it is refused.
fn shown<T: Display>(answer: Result<T, Refusal>) -> String {
    match answer {
        Ok(values) => values.to_string(),
        Err(refusal) => format!("refused {}", refusal.number()),
    }
}

/// "Called so, they answer [...] 5 for a map [...] reaching W or higher".
fn fits(geometry: &Geometry, map: Map) -> Result<(), Refusal> {
    if map & !all_ways(geometry.ways) != 0 {
        return Err(Refusal::Argument);
    }
    Ok(())
}

fn own(geometry: &Geometry, word: u64, map: Map) -> Result<u64, Refusal> {
    fits(geometry, map)?;
    Ok(replacement::own(geometry, word, map))
}

/// 5 also "for a victim wanted of an empty map".
fn victim(geometry: &Geometry, word: u64, map: Map) -> Result<(usize, u64), Refusal> {
    fits(geometry, map)?;
    if map == 0 {
        return Err(Refusal::Argument);
    }
    Ok(replacement::victim(geometry, word, map))
}

/// 5 also for a "touched way reaching W or higher". A way that is not in the map is not refused, and leaves the word.
fn touch(geometry: &Geometry, word: u64, map: Map, way: usize) -> Result<u64, Refusal> {
    fits(geometry, map)?;
    if way >= geometry.ways {
        return Err(Refusal::Argument);
    }
    Ok(replacement::touch(geometry, word, map, way))
}

/// The word after a change of fill map; of maps that are refused, "the word is then unchanged".
fn change(geometry: &Geometry, word: u64, old: Map, new: Map) -> u64 {
    match fits(geometry, old | new) {
        Ok(()) => HandOver::between(geometry, old, new).of(word),
        Err(_) => word,
    }
}

/// Whether two domains may have these fill maps: 9 under Tree-PLRU "with a node free for" both.
fn conflict(geometry: &Geometry, map: Map, other: Map) -> Result<(), Refusal> {
    fits(geometry, map | other)?;
    let free = |map| tree::free_nodes(geometry.ways, map);
    if geometry.rule == Rule::TreePlru && free(map) & free(other) != 0 {
        return Err(Refusal::SharedNode);
    }
    Ok(())
}
