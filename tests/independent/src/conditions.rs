//! The conditions, their order and what each demands of a state (C8).

use crate::evaluate::{assigned, enabled, successors, truth};
use crate::file::{Claim, File, Transition, Truth, Variable};
use crate::states::State;

/// A condition by its kind, with the node and the transition it is about.
#[derive(Clone, Copy, Debug, PartialEq, Eq)]
pub enum Condition {
    Start,
    Entry,
    Cover { node: usize },
    Range { node: usize, transition: usize },
    Step { node: usize, transition: usize },
    Enabling { node: usize, transition: usize },
}

impl Condition {
    /// The number where it is broken: C10.13, C10.14, C10.15, C10.16, C10.17, C10.18.
    pub fn number(&self) -> u8 {
        match self {
            Condition::Start => 13,
            Condition::Entry => 14,
            Condition::Cover { .. } => 15,
            Condition::Range { .. } => 16,
            Condition::Step { .. } => 17,
            Condition::Enabling { .. } => 18,
        }
    }

    /// C12.3: start and entry have no node.
    pub fn node(&self) -> Option<usize> {
        match *self {
            Condition::Start | Condition::Entry => None,
            Condition::Cover { node } => Some(node),
            Condition::Range { node, .. } => Some(node),
            Condition::Step { node, .. } => Some(node),
            Condition::Enabling { node, .. } => Some(node),
        }
    }

    /// C12.3: nor has a cover a transition.
    pub fn transition(&self) -> Option<usize> {
        match *self {
            Condition::Start | Condition::Entry | Condition::Cover { .. } => None,
            Condition::Range { transition, .. } => Some(transition),
            Condition::Step { transition, .. } => Some(transition),
            Condition::Enabling { transition, .. } => Some(transition),
        }
    }
}

impl File {
    /// C8.3, C8.4, C8.5, C8.6: the conditions, as they are numbered. C8.2: node 0 may be a goal.
    pub fn conditions(&self) -> Vec<Condition> {
        let invariance = matches!(self.claim, Claim::Invariance { .. });
        let chain = matches!(self.claim, Claim::Chain { .. });
        let opening = if invariance {
            Condition::Start
        } else {
            Condition::Entry
        };
        let covered = if chain { 1 } else { self.nodes.len() };
        let first = if invariance { 0 } else { 1 };

        let mut list = vec![opening];
        list.extend((0..covered).map(|node| Condition::Cover { node }));
        for node in first..self.nodes.len() {
            self.conditions_of_node(node, &mut list);
        }
        list
    }

    /// C8.6: by transition, range, step, and enabling behind the step of the double transition.
    fn conditions_of_node(&self, node: usize, list: &mut Vec<Condition>) {
        let double = self.double_transition(node);
        for transition in 0..self.transitions.len() {
            list.push(Condition::Range { node, transition });
            list.push(Condition::Step { node, transition });
            if double == Some(transition) {
                list.push(Condition::Enabling { node, transition });
            }
        }
    }

    /// C8.7, C8.8: what opens the diagram, the start for an invariance, else p.
    fn opening(&self) -> &Truth {
        match &self.claim {
            Claim::Invariance { .. } => &self.start,
            Claim::WaitFor { p, .. } | Claim::Chain { p, .. } => p,
        }
    }

    /// C8.9: what a node must imply, its q.
    fn phase(&self, node: usize) -> &Truth {
        match &self.claim {
            Claim::Invariance { q } | Claim::Chain { q, .. } => q,
            Claim::WaitFor { q, .. } => &q[node],
        }
    }

    /// C8.11: where a step may lead, to the node itself or a target. C8.12: by double edges to a
    /// target only.
    fn destinations(&self, node: usize, transition: usize) -> Vec<&Truth> {
        let mut nodes: Vec<usize> = Vec::new();
        let double = self.edges_from(node, transition).any(|edge| edge.double);
        if !double {
            nodes.push(node);
        }
        nodes.extend(self.edges_from(node, transition).map(|edge| edge.to));
        nodes.iter().map(|node| &self.nodes[*node]).collect()
    }
}

/// C8.14: what a condition demands of each state, its expressions looked up once.
pub enum Obligation<'a> {
    /// C8.7, C8.8, C8.9: the premise implies one of the assertions.
    Implication {
        premise: &'a Truth,
        any: Vec<&'a Truth>,
    },
    /// C8.10: node and guard imply all assigned values in range.
    Range {
        node: &'a Truth,
        transition: &'a Transition,
    },
    /// C8.11, C8.12: from the node, each successor satisfies one of these.
    Step {
        node: &'a Truth,
        transition: &'a Transition,
        any: Vec<&'a Truth>,
    },
    /// C8.13: the node implies the transition enabled.
    Enabling {
        node: &'a Truth,
        transition: &'a Transition,
    },
}

impl<'a> Obligation<'a> {
    pub fn of(file: &'a File, condition: Condition) -> Obligation<'a> {
        match condition {
            Condition::Start | Condition::Entry => Obligation::Implication {
                premise: file.opening(),
                any: file.nodes.iter().collect(),
            },
            Condition::Cover { node } => Obligation::Implication {
                premise: &file.nodes[node],
                any: vec![file.phase(node)],
            },
            Condition::Range { node, transition } => Obligation::Range {
                node: &file.nodes[node],
                transition: &file.transitions[transition],
            },
            Condition::Step { node, transition } => Obligation::Step {
                node: &file.nodes[node],
                transition: &file.transitions[transition],
                any: file.destinations(node, transition),
            },
            Condition::Enabling { node, transition } => Obligation::Enabling {
                node: &file.nodes[node],
                transition: &file.transitions[transition],
            },
        }
    }

    /// Whether the condition holds at the state.
    pub fn holds(&self, ranges: &[Variable], state: &State) -> bool {
        match self {
            Obligation::Implication { premise, any } => {
                !truth(premise, state) || satisfies_one(any, state)
            }
            Obligation::Range { node, transition } => {
                let due = truth(node, state) && truth(&transition.guard, state);
                !due || assigned(transition, ranges, state).is_some()
            }
            Obligation::Step {
                node,
                transition,
                any,
            } => {
                let arrives = |next: &State| satisfies_one(any, next);
                !truth(node, state) || successors(transition, ranges, state).iter().all(arrives)
            }
            Obligation::Enabling { node, transition } => {
                !truth(node, state) || enabled(transition, ranges, state)
            }
        }
    }
}

fn satisfies_one(assertions: &[&Truth], state: &State) -> bool {
    assertions.iter().any(|assertion| truth(assertion, state))
}
