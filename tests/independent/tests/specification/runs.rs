//! What files claim of their runs, tried on all runs of a few positions.

use crate::agreement::{changed, examples, Random};
use crate::builder::*;
use independent::{enabled, read, states, successors, truth};
use independent::{Claim, File, State, Transition, Truth};

const POSITIONS: usize = 6;

/// C6.1, C6.2: all runs of so many positions from the state, idling or by a transition at each.
fn runs(file: &File, first: State) -> Vec<Vec<State>> {
    let mut runs = vec![vec![first]];
    for at in 1..POSITIONS {
        let mut longer = Vec::new();
        for run in runs {
            let list = |one| successors(one, &file.variables, &run[at - 1]);
            let mut next: Vec<State> = file.transitions.iter().flat_map(list).collect();
            next.push(run[at - 1]);
            next.sort();
            next.dedup();
            longer.extend(next.iter().map(|next| [&run[..], &[*next]].concat()));
        }
        runs = longer;
    }
    runs
}

/// C6.4: the next state is one of the transition's successors.
fn taken(file: &File, one: &Transition, run: &[State], at: usize) -> bool {
    successors(one, &file.variables, &run[at]).contains(&run[at + 1])
}

/// C6.5, C6.6: whether each just transition is disabled or taken at one of the positions.
fn free(file: &File, run: &[State], from: usize, to: usize) -> bool {
    let disabled = |one, at: usize| !enabled(one, &file.variables, &run[at]);
    let mut just = file.transitions.iter().filter(|one| one.just);
    just.all(|one| (from..to).any(|at| disabled(one, at) || taken(file, one, run, at)))
}

/// C6.6, of a run without end that begins so.
fn k_just(file: &File, run: &[State], k: usize) -> bool {
    (k..run.len()).all(|to| free(file, run, to - k, to))
}

/// C6.5, of the run without end that goes round where the last state was before.
fn just(file: &File, run: &[State]) -> bool {
    let last = run.len() - 1;
    (0..last).any(|from| run[from] == run[last] && free(file, run, from, last))
}

/// C7.2, C7.3, C7.4 from the run's first position: the highest number left is as good as any.
fn waits(run: &[State], q: &[Truth]) -> bool {
    let mut left = q.len();
    let mut waiting = run.iter().take_while(|state| !truth(&q[0], state));
    waiting.all(|state| {
        let number = (1..left.max(1)).rev().find(|one| truth(&q[*one], state));
        left = number.map_or(0, |number| number + 1);
        left > 0
    })
}

/// C7.5, C7.6 from the run's first position.
fn comes(file: &File, run: &[State], q: &Truth) -> bool {
    let within = |end: usize| run[..=end].iter().any(|state| truth(q, state));
    let lowest = file.nodes.iter().position(|node| truth(node, &run[0]));
    let in_time = |k| match lowest {
        Some(r) if r * k < run.len() => !k_just(file, &run[..=r * k], k) || within(r * k),
        Some(_) => true,
        None => false,
    };
    (1..=3).all(in_time) && (!just(file, run) || within(run.len() - 1))
}

/// C7.8.
fn in_range(file: &File, state: &State) -> bool {
    let goals = usize::from(!matches!(file.claim, Claim::Invariance { .. }));
    let fits = |one: &Transition| enabled(one, &file.variables, state);
    let guarded = |one: &&Transition| truth(&one.guard, state);
    let due = file.nodes[goals..].iter().any(|node| truth(node, state));
    !due || file.transitions.iter().filter(guarded).all(fits)
}

/// C7.9: C7.1 or the above, of the run's first position. C7.7: each other one begins a run too.
fn claimed(file: &File, run: &[State]) -> bool {
    in_range(file, &run[0])
        && match &file.claim {
            Claim::Invariance { q } => {
                !truth(&file.start, &run[0]) || run.iter().all(|state| truth(q, state))
            }
            Claim::WaitFor { p, q } => !truth(p, &run[0]) || waits(run, q),
            Claim::Chain { p, q } => !truth(p, &run[0]) || comes(file, run, q),
        }
}

/// C12.11: of all runs, from any state (C6.3). C7.10: one of them begins in a starting state. C5.4:
/// their states are states. Of broken files some claims are false.
#[test]
fn what_accepted_files_claim_is_true() {
    let mut random = Random(3);
    let one_phase = join(&[counter(), idle(0), wait_for(is(0), &[is(0)]), node(is(0))]);
    let files = [examples(), vec![one_phase]].concat();
    let (mut accepted, mut false_claims) = ([0; 4], [0; 4]);
    // Of those, files where a transition has several successors.
    let (mut accepted_picks, mut false_picks) = ([0; 4], [0; 4]);
    for round in 0..40_000 {
        let bytes = changed(files[round % files.len()].clone(), &mut random);
        let file = match read(&bytes) {
            Ok(file) if file.states() <= 6 && file.transitions.len() <= 3 => file,
            _ => continue,
        };
        let all: Vec<State> = states(&file.variables).collect();
        let runs = || all.iter().flat_map(|first| runs(&file, *first));
        let kind = match &file.claim {
            Claim::Invariance { .. } => 0,
            Claim::WaitFor { q, .. } if q.len() == 1 => 1,
            Claim::WaitFor { .. } => 2,
            Claim::Chain { .. } => 3,
        };
        let several = file.transitions.iter().any(|one| one.combinations() > 1);
        if verdict(&bytes).number == 0 {
            accepted[kind] += 1;
            accepted_picks[kind] += usize::from(several);
            assert!(runs().all(|run| claimed(&file, &run)), "{file:?}");
            assert!(runs().any(|run| truth(&file.start, &run[0])), "{file:?}");
            assert!(runs().flatten().all(|state| all.contains(&state)));
        } else if !runs().all(|run| claimed(&file, &run)) {
            false_claims[kind] += 1;
            false_picks[kind] += usize::from(several);
        }
    }
    assert!(accepted.iter().all(|seen| *seen >= 10), "{accepted:?}");
    for several in [accepted_picks, false_picks] {
        let seen = |kind: usize| several[kind] >= 10;
        assert!([0, 2, 3].into_iter().all(seen), "{several:?}");
    }
    assert!(
        false_claims.iter().all(|seen| *seen > 0),
        "{false_claims:?}"
    );
}

/// The runs of two positions, by their second one's value of v.
fn second(file: &File, first: i16) -> Vec<i16> {
    let mut state: State = [0; 12];
    state[0] = first;
    let mut values: Vec<i16> = runs(file, state).iter().map(|run| run[1][0]).collect();
    values.sort();
    values.dedup();
    values
}

/// v in 0..3, and a just transition with this guard that picks low..high.
fn picking(guard: Bytes, low: i16, high: i16) -> File {
    let file = join(&[
        variable(0, 3),
        start(yes()),
        transition(1, guard, &[pick(0, low, high)]),
        invariance(yes()),
        node(yes()),
    ]);
    read(&file).unwrap()
}

/// C6.2, C5.3: a run goes on to any of the successors, or idles.
#[test]
fn a_run_goes_on_to_each_successor() {
    assert_eq!(second(&picking(yes(), 1, 2), 0), [0, 1, 2]);
    assert_eq!(second(&picking(yes(), 1, 2), 1), [1, 2]);
    assert_eq!(second(&picking(yes(), 0, 3), 2), [0, 1, 2, 3]);
    assert_eq!(second(&picking(yes(), 2, 2), 3), [2, 3]);
    assert_eq!(second(&picking(is(1), 2, 3), 0), [0]);
    assert_eq!(second(&picking(is(1), 2, 3), 1), [1, 2, 3]);
}

/// The states with these values of v.
fn run_of(values: &[i16]) -> Vec<State> {
    let state = |value: &i16| {
        let mut state: State = [0; 12];
        state[0] = *value;
        state
    };
    values.iter().map(state).collect()
}

/// C6.4: taken, if the next state is in the list; by idling too, where the state itself is.
#[test]
fn taken_to_any_successor() {
    let file = picking(not(is(0)), 1, 2);
    let at = |from, to| taken(&file, &file.transitions[0], &run_of(&[from, to]), 0);
    for (from, to) in [(1, 1), (1, 2), (2, 1), (2, 2), (3, 1), (3, 2)] {
        assert!(at(from, to), "{from}, {to}");
    }
    // Idling at 3 takes nothing, as 3 can't be picked; at 0 the guard is false.
    for (from, to) in [(3, 3), (1, 3), (1, 0), (0, 0), (0, 1), (0, 2)] {
        assert!(!at(from, to), "{from}, {to}");
    }
}

/// C6.5, C6.6: just by what is picked, whichever value it is.
#[test]
fn just_by_any_successor() {
    let file = picking(not(is(0)), 1, 2);
    for (values, k) in [
        (&[1, 1, 1, 1][..], 1),
        (&[1, 2, 1, 2], 1),
        (&[3, 3, 2, 2], 2),
        (&[3, 3, 3, 1], 3),
        (&[0, 0, 0, 0], 1),
    ] {
        let run = run_of(values);
        let least = (1..4).find(|k| k_just(&file, &run, *k));
        assert_eq!(least, Some(k), "{values:?}");
    }
    assert!(!k_just(&file, &run_of(&[3, 3, 3, 3]), 3));
    assert!(just(&file, &run_of(&[3, 1, 2, 1])));
    assert!(just(&file, &run_of(&[3, 2, 2])));
    assert!(just(&file, &run_of(&[0, 0])));
    assert!(!just(&file, &run_of(&[3, 3])));
}
