//! "When a step is turned down": "The answer is the number alone and nothing else moves. If several hold, the lowest
//! number is given." The tests below are therefore made in the order of their numbers. They are given the geometry, the
//! domains and, of the tables, the valid maps alone, all of them to read only. Number 11, which by document 02 comes
//! before 3, is asked in `cores`.

use crate::domains::{Domains, Policy, DOMAINS};
use crate::geometry::{Geometry, Rule};
use crate::maps::{all_ways, set_places, Map};
use crate::numbers::Refusal;
use crate::steps::{Kind, Step};
use crate::tree;

/// Whether a step stands: its domain and what it asks for, or the number that turns it down.
pub fn judge(geometry: &Geometry, domains: &Domains, valid: &[Map], step: &Step) -> Result<(usize, Kind), Refusal> {
    let domain = usize::from(step.domain);
    if domain >= DOMAINS {
        return Err(Refusal::Domain);
    }
    let kind = Kind::from_number(step.kind).ok_or(Refusal::Kind)?;
    match kind {
        Kind::Policy => {
            let wanted = judge_argument(geometry, step.argument)?;
            judge_drops(domains, valid, domain, wanted)?;
            judge_maps(geometry, domains, domain, wanted)?;
        }
        Kind::Fetch | Kind::Load | Kind::Store | Kind::Flush => judge_domain(domains, domain)?,
    }
    Ok((domain, kind))
}

/// Numbers 6 and 7, of an access or a flush; by document 02, "7 covers seven counts".
fn judge_domain(domains: &Domains, domain: usize) -> Result<(), Refusal> {
    if domains.policy(domain).hit_map == 0 {
        return Err(Refusal::NoWays);
    }
    if domains.counts(domain).in_order().contains(&u32::MAX) {
        return Err(Refusal::CountSpent);
    }
    Ok(())
}

/// Number 5, of a policy change: the policy that its argument holds.
fn judge_argument(geometry: &Geometry, argument: u64) -> Result<Policy, Refusal> {
    let wanted = Policy::from_argument(argument);
    let too_high = !all_ways(geometry.ways);
    let way_too_high = (wanted.hit_map | wanted.fill_map) & too_high != 0;
    let fill_outside_hit = wanted.fill_map & !wanted.hit_map != 0;
    let high_bit_set = argument >> 32 != 0;
    if way_too_high || fill_outside_hit || high_bit_set {
        return Err(Refusal::Argument);
    }
    Ok(wanted)
}

/// Number 7, of "a policy change, other than a removal, whose drops would carry dropped past the largest count". It may
/// reach the largest count.
fn judge_drops(domains: &Domains, valid: &[Map], domain: usize, wanted: Policy) -> Result<(), Refusal> {
    let is_removal = wanted == Policy::default();
    if !is_removal && domains.counts(domain).dropped.checked_add(drops(domains, valid, domain, wanted)).is_none() {
        return Err(Refusal::CountSpent);
    }
    Ok(())
}

/// How many lines a policy change would drop: the valid lines, in all sets, in ways that are in exactly one of the old
/// and new hit maps. But "dropped is the lines that the domain's own policy changes cleaned": those in ways that it
/// would take from another domain are none of them. Only where 8 holds too are there such ways.
fn drops(domains: &Domains, valid: &[Map], domain: usize, wanted: Policy) -> u32 {
    let in_one = domains.policy(domain).hit_map ^ wanted.hit_map;
    let others_ways = others(domains, domain).fold(0, |ways, other| ways | other.hit_map);
    set_places(valid, in_one & !(wanted.hit_map & others_ways))
}

/// Numbers 8 and 9, of a policy change.
fn judge_maps(geometry: &Geometry, domains: &Domains, domain: usize, wanted: Policy) -> Result<(), Refusal> {
    if others(domains, domain).any(|other| other.hit_map & wanted.hit_map != 0) {
        return Err(Refusal::SharedWay);
    }
    if geometry.rule == Rule::TreePlru {
        let free = tree::free_nodes(geometry.ways, wanted.fill_map);
        if others(domains, domain).any(|other| tree::free_nodes(geometry.ways, other.fill_map) & free != 0) {
            return Err(Refusal::SharedNode);
        }
    }
    Ok(())
}

/// The policies of all domains but this one.
fn others(domains: &Domains, domain: usize) -> impl Iterator<Item = Policy> + '_ {
    (0..DOMAINS).filter(move |&other| other != domain).map(|other| domains.policy(other))
}
