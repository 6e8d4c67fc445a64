//! The edge rules, C9.1 to C9.9; refusals 9 and 10.

use crate::file::{Claim, Edge, File};
use crate::refusal::{Refusal, EDGE_RULE, NO_DOUBLE};

/// C10.9: each edge is judged with those before it.
pub fn check_rules(file: &File) -> Result<(), Refusal> {
    for (number, edge) in file.edges.iter().enumerate() {
        let before = &file.edges[..number];
        if !obeys(file, edge, before) {
            return Err(Refusal::new(EDGE_RULE, edge.place));
        }
    }
    Ok(())
}

/// C9.1, C9.4: only a chain has double edges.
fn obeys(file: &File, edge: &Edge, before: &[Edge]) -> bool {
    match file.claim {
        Claim::Invariance { .. } => !edge.double,
        Claim::WaitFor { .. } => !edge.double && leads_on(edge),
        Claim::Chain { .. } if edge.double => leads_on(edge) && double_obeys(file, edge, before),
        Claim::Chain { .. } => leads_on(edge) && single_obeys(edge, before),
    }
}

/// C9.2, C9.3: not from the goal, and not upward.
fn leads_on(edge: &Edge) -> bool {
    let from_goal = edge.from == 0;
    let upward = edge.to > edge.from;
    !from_goal && !upward
}

/// C9.5, C9.6, C9.7, C9.8, in this order.
fn double_obeys(file: &File, edge: &Edge, before: &[Edge]) -> bool {
    let down = edge.to < edge.from;
    let just = file.transitions[edge.transition].just;
    let second = from_same_node(edge, before).any(|one| one.double && !same_label(one, edge));
    let also_single = from_same_node(edge, before).any(|one| !one.double && same_label(one, edge));
    down && just && !second && !also_single
}

/// C9.8: a single edge's transition has no double edge there; its target may be its own node.
fn single_obeys(edge: &Edge, before: &[Edge]) -> bool {
    let also_double = from_same_node(edge, before).any(|one| one.double && same_label(one, edge));
    !also_double
}

fn from_same_node<'a>(edge: &Edge, before: &'a [Edge]) -> impl Iterator<Item = &'a Edge> {
    let from = edge.from;
    before.iter().filter(move |one| one.from == from)
}

fn same_label(one: &Edge, other: &Edge) -> bool {
    one.transition == other.transition
}

/// C9.9, C10.10: the lowest node of a chain, but for the goal, without a double edge.
pub fn check_doubles(file: &File) -> Result<(), Refusal> {
    let chain = matches!(file.claim, Claim::Chain { .. });
    let mut nodes = 1..file.nodes.len();
    match nodes.find(|node| file.double_transition(*node).is_none()) {
        Some(node) if chain => Err(Refusal::new(NO_DOUBLE, node)),
        _ => Ok(()),
    }
}
