//! The reference: the lister and the block of the model, written a second time.
//!
//! The lister, in `main`, reads a trace file from standard input and writes the listing that document 01, "Trace file
//! and listing", defines; with the argument `rules` it writes what the replacement rules called alone give, with
//! `visits` how many ways the lookup of each step visited and for which domain, with that domain's counts after the
//! step, and the lines that the domains hold at the end, with `slices` the listing of its steps as calls, which may have
//! more sets than a trace file, or records and tables that are lent, and with `purge` and a domain the domain's
//! struck-out list. The block, in [`block`], is what C lends. All this was written from document 01 and, for true LRU,
//! the order of work in the lookup, larger slices, touches outside the fill map, core selectors, fills and drops, the
//! block, and the priority encoder, document 02, without packages, so that `tools/compare` can set the lister beside the
//! proved programs, and `tests/block` the block beside the proved library.
//! The rules, [`tree`], [`nru`] and [`lru`], the lookup that counts its visits, `find` in [`cache`], the limits of sets,
//! in [`geometry`] and [`trace`], the core selectors, [`cores`], what is struck out, in [`purge`], the counts of fills
//! and drops, in [`cache`], their number 7, in [`refusals`], [`lent`] and [`block`] were written without a look at their
//! proved code. [`rules`] and `HandOver` in [`replacement`] were not: the source of the crate replacement had been read,
//! for its public calls. Nor was `held` in [`cache`]: whoever wrote it knew how the proved programs count the lines held.
//! Nothing here is proved: where two programs differ, these documents decide which of them is wrong.
//!
//! Each module is one part of document 01, or of document 02 where it says so, and quotes the sentence that it follows.
//! A module uses only modules that stand before it in this list:
//!
//! 1. [`numbers`]: the numbers that turn a step down
//! 2. [`maps`]: maps of ways
//! 3. [`geometry`]: sets, ways, rule; where an address falls
//! 4. [`tree`], [`nru`], [`lru`]: the three replacement rules, none of which uses another
//! 5. [`replacement`]: the rule in use, by the geometry
//! 6. [`steps`]: what a step asks for, and what it may be answered
//! 7. [`domains`]: policies and counts
//! 8. [`refusals`]: when a step is turned down, by the geometry, the domains and the valid maps
//! 9. [`cache`]: the tables, access, flush and policy change
//! 10. [`cores`]: core records; steps through cores, and selector writes
//! 11. [`trace`]: the trace file
//! 12. [`listing`]: the text of a trace
//! 13. [`rules`]: the text of the rules called alone; it does not use `listing`
//! 14. [`visits`]: the text of the ways visited, the counts and the lines held; it uses neither `listing` nor `rules`
//! 15. [`lent`]: the text of calls on lent records and tables, by `listing`; it uses neither `rules` nor `visits`
//! 16. [`slices`]: the text of calls, by `listing` and `lent`; it uses neither `rules` nor `visits`
//! 17. [`purge`]: the text of a struck-out list; it uses none of the texts before it
//! 18. [`block`]: one cache in a lent block of bytes, as C calls it; it uses nothing after `cache` in this list
//!
//! Above them are the program, `main`, and, in tests only, `cases`.
//!
//! What no file and no block can cause is left out: number 2 (the tables are made here, with the right lengths) and the
//! number 1 that the replacement rules answer when they are called alone (a file with such ways or such a rule is
//! refused).

pub mod block;
pub mod cache;
#[cfg(test)]
mod cases;
pub mod cores;
pub mod domains;
pub mod geometry;
pub mod lent;
pub mod listing;
pub mod lru;
pub mod maps;
pub mod nru;
pub mod numbers;
pub mod purge;
pub mod refusals;
pub mod replacement;
pub mod rules;
pub mod slices;
pub mod steps;
pub mod trace;
pub mod tree;
pub mod visits;
