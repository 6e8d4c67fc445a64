//! Picks: where they stand, how many combinations they have, which refusals they meet; and what
//! their successors are where a condition is tested.

use super::{field_b, ranges, told};
use crate::compare::{Case, Facts};
use crate::generate::{owners, plain, record, Record};
use independent::{enabled, read, states, successors, truth};
use independent::{Condition, File, Refusal, State, Tested, Transition, Verdict};

const COMBINATIONS: i64 = 4_096;
/// Of files with at most so many tests it is told which successors the steps have.
const LITTLE: usize = 2_000;

/// The files with picks that must come up. A number in front is the refusal; the others are readable.
pub const PICKS: [&str; 55] = [
    "a pick of one value",
    "a pick of its variable's range",
    "a pick of some values of its variable's range",
    "a pick of a value below 0",
    "two picks in a transition",
    "three picks in a transition, or more",
    "picks in another order than their variables",
    "picks in several transitions",
    "a pick before an assignment",
    "a pick between assignments",
    "a pick behind an assignment",
    "an assignment between picks",
    "a picked variable in an assigned value",
    "4,096 combinations of one pick",
    "4,096 combinations of two picks",
    "4,096 combinations of more picks",
    "over 4,096 combinations of several transitions together",
    "22: of one pick",
    "22: of two picks",
    "22: of more picks",
    "22: of 4,097 combinations",
    "22: in the first transition",
    "22: in a later transition",
    "22: in several transitions",
    "22: of a transition whose guard is false",
    "22: and an interval out of bounds",
    "22: and an edge that breaks a rule",
    "22: and a node without a double edge",
    "22: and no start",
    "22: and a broken condition",
    "3: and too many combinations",
    "4: and too many combinations",
    "5: and too many combinations",
    "6: and too many combinations",
    "7: and too many combinations",
    "19: and too many combinations",
    "3: a pick among the variables",
    "3: a pick behind the start",
    "3: a pick behind the property",
    "3: a pick behind a node",
    "3: a pick behind an edge",
    "3: a pick in an expression",
    "3: a number behind a pick",
    "4: a pick below its variable's range",
    "4: a pick above its variable's range",
    "4: a pick from a higher to a lower value of the range",
    "4: a pick of no variable",
    "4: d of a pick",
    "4: byte 7 of a pick",
    "4: field of a pick that sets a variable again",
    "4: field of an assignment that sets a picked variable again",
    "6: a pick behind a pick",
    "6: a pick behind an assignment",
    "6: an assignment behind a pick",
    "6: a pick, with others between",
];

/// The verdicts of files with picks that must come up, for the properties that have them.
pub const PICKED: [(&str, &[usize]); 13] = [
    ("accepted, several successors", &[1, 2, 3]),
    ("accepted, successors of different nodes", &[1, 2, 3]),
    ("accepted, several successors by double edges", &[3]),
    ("accepted, of different nodes by double edges", &[3]),
    ("step broken, the lowest successor fine", &[1, 2, 3]),
    ("step broken, the highest successor fine", &[1, 2, 3]),
    ("step broken, the lowest and highest fine", &[1, 2, 3]),
    ("step broken by one successor of several", &[1, 2, 3]),
    ("step broken by each of several successors", &[1, 2, 3]),
    ("step broken by one that keeps the node, double", &[3]),
    ("range broken beside a pick", &[1, 2, 3]),
    ("enabling broken beside a pick", &[3]),
    ("cover broken, with picks", &[1, 2, 3]),
];

/// The single tests of transitions with picks that must come up.
pub const SINGLES: [&str; 9] = [
    "a step that fails, some successors fine",
    "a step that fails, no successor fine",
    "a step that holds, several successors",
    "a step of over 1,000 successors",
    "a step of 4,096 successors",
    "a step disabled by its guard, with picks that would break it",
    "a step disabled by a value, with picks",
    "an enabling that fails by a value, with picks",
    "a range that fails, with picks",
];

/// A transition's record, and those of its assignments and picks.
struct Sets {
    place: usize,
    sets: Vec<usize>,
}

impl Sets {
    /// All transitions, by the kinds alone.
    fn all(records: &[Record]) -> Vec<Sets> {
        let mut list: Vec<Sets> = Vec::new();
        for (at, record) in records.iter().enumerate() {
            match (record[0], list.last_mut()) {
                (0x05, _) => break,
                (0x03, _) => list.push(Sets {
                    place: at,
                    sets: Vec::new(),
                }),
                (0x04 | 0x08, Some(last)) => last.sets.push(at),
                _ => (),
            }
        }
        list
    }

    fn picks<'a>(&'a self, records: &'a [Record]) -> impl Iterator<Item = &'a Record> {
        let sets = self.sets.iter().map(|&at| &records[at]);
        sets.filter(|one| one[0] == 0x08)
    }

    /// Whether a value that it assigns is of a variable that it picks.
    fn assigns_picked(&self, records: &[Record]) -> bool {
        let picked = |variable| self.picks(records).any(|one| one[1] == variable);
        let assignments = self.sets.iter().filter(|&&at| records[at][0] == 0x04);
        let mut values = assignments.flat_map(|&at| {
            let behind = records[at + 1..].iter();
            behind.take_while(|one| one[0] >= 0x10)
        });
        values.any(|one| one[0] == 0x11 && picked(one[1]))
    }

    fn combinations(&self, records: &[Record]) -> i64 {
        let values = |one: &Record| i64::from(field_c(one)) - i64::from(field_b(one)) + 1;
        let sizes = self.picks(records).map(|one| values(one).max(1));
        sizes.fold(1, i64::saturating_mul)
    }
}

fn field_c(record: &Record) -> i16 {
    i16::from_le_bytes([record[4], record[5]])
}

/// The situations of the file.
pub fn of(records: &[Record], facts: &Facts) -> Vec<&'static str> {
    if !records.iter().any(|one| one[0] == 0x08) {
        return Vec::new();
    }
    let all = Sets::all(records);
    match &facts.reading {
        Ok(_) => readable(records, &all),
        Err(refusal) => [
            refused(records, &all, refusal),
            and_many(records, &all, refusal),
        ]
        .concat(),
    }
}

fn readable(records: &[Record], all: &[Sets]) -> Vec<&'static str> {
    let ranges = ranges(records);
    let picks: Vec<&Record> = all.iter().flat_map(|one| one.picks(records)).collect();
    let ends = |one: &Record| (i64::from(field_b(one)), i64::from(field_c(one)));
    let range = |one: &Record| ranges[usize::from(one[1])];
    let whole = |one: &Record| ends(one) == range(one);
    let one_value = |one: &Record| field_b(one) == field_c(one);
    let counts: Vec<usize> = all.iter().map(|one| one.picks(records).count()).collect();
    let sorted = |one: &Sets| {
        let variables: Vec<u8> = one.picks(records).map(|pick| pick[1]).collect();
        variables.windows(2).all(|pair| pair[0] < pair[1])
    };
    // Whether these kinds stand so in a transition, perhaps with others between.
    let stand = |kinds: &[u8]| {
        all.iter().any(|one| {
            let mut left = one.sets.iter().map(|&at| records[at][0]);
            kinds.iter().all(|kind| left.any(|other| other == *kind))
        })
    };
    let combinations = |one: &Sets| one.combinations(records);
    let most = |picks: std::ops::RangeInclusive<usize>| {
        let mut full = all.iter().filter(|one| combinations(one) == COMBINATIONS);
        full.any(|one| picks.contains(&one.picks(records).filter(|one| !one_value(one)).count()))
    };
    let together = all.iter().map(combinations).fold(1, i64::saturating_mul);
    told(&[
        (
            "a pick of one value",
            picks.iter().any(|one| one_value(one)),
        ),
        (
            "a pick of its variable's range",
            picks.iter().any(|one| whole(one) && !one_value(one)),
        ),
        (
            "a pick of some values of its variable's range",
            picks.iter().any(|one| !whole(one) && !one_value(one)),
        ),
        (
            "a pick of a value below 0",
            picks.iter().any(|one| field_b(one) < 0),
        ),
        ("two picks in a transition", counts.contains(&2)),
        (
            "three picks in a transition, or more",
            counts.iter().any(|&count| count > 2),
        ),
        (
            "picks in another order than their variables",
            !all.iter().all(sorted),
        ),
        (
            "picks in several transitions",
            counts.iter().filter(|&&count| count > 0).count() > 1,
        ),
        ("a pick before an assignment", stand(&[0x08, 0x04])),
        ("a pick between assignments", stand(&[0x04, 0x08, 0x04])),
        ("a pick behind an assignment", stand(&[0x04, 0x08])),
        ("an assignment between picks", stand(&[0x08, 0x04, 0x08])),
        (
            "a picked variable in an assigned value",
            all.iter().any(|one| one.assigns_picked(records)),
        ),
        ("4,096 combinations of one pick", most(1..=1)),
        ("4,096 combinations of two picks", most(2..=2)),
        ("4,096 combinations of more picks", most(3..=12)),
        (
            "over 4,096 combinations of several transitions together",
            together > COMBINATIONS,
        ),
    ])
}

/// The records with picks of one value each.
fn narrowed(records: &[Record]) -> Vec<Record> {
    let narrow = |one: &Record| match one[0] {
        0x08 => record(0x08, one[1], field_b(one), field_b(one), 0),
        _ => *one,
    };
    records.iter().map(narrow).collect()
}

fn refused(records: &[Record], all: &[Sets], refusal: &Refusal) -> Vec<&'static str> {
    let place = refusal.place as usize;
    match refusal.number {
        3 => misplaced(records, place),
        4 => spoilt(records, all, place),
        6 => again(records, all, place),
        22 => too_many(records, all, place),
        _ => Vec::new(),
    }
}

fn too_many(records: &[Record], all: &[Sets], place: usize) -> Vec<&'static str> {
    let many = |one: &&Sets| one.combinations(records) > COMBINATIONS;
    let found: Vec<&Sets> = all.iter().filter(many).collect();
    let picks = found[0].picks(records);
    let picks = picks.filter(|one| field_b(one) < field_c(one)).count();
    let file = narrowed(records).concat();
    let other = read(&file).map_err(|refusal| refusal.number);
    let short = || Facts::of(&file).short();
    let broken = || independent::check(&file, &mut [0; 32]).number >= 13;
    told(&[
        ("22: of one pick", picks == 1),
        ("22: of two picks", picks == 2),
        ("22: of more picks", picks > 2),
        (
            "22: of 4,097 combinations",
            found[0].combinations(records) == COMBINATIONS + 1,
        ),
        ("22: in the first transition", place == all[0].place),
        ("22: in a later transition", place > all[0].place),
        ("22: in several transitions", found.len() > 1),
        (
            "22: of a transition whose guard is false",
            records[place + 1] == plain(0x21),
        ),
        ("22: and an interval out of bounds", other == Err(8)),
        ("22: and an edge that breaks a rule", other == Err(9)),
        ("22: and a node without a double edge", other == Err(10)),
        ("22: and no start", other == Err(20)),
        (
            "22: and a broken condition",
            other.is_ok() && short() && broken(),
        ),
    ])
}

/// A transition with too many combinations in a file that is refused with another number than 22.
fn and_many(records: &[Record], all: &[Sets], refusal: &Refusal) -> Vec<&'static str> {
    let many = |one: &Sets| one.combinations(records) > COMBINATIONS;
    let number = |of| refusal.number == of && all.iter().any(many);
    told(&[
        ("3: and too many combinations", number(3)),
        ("4: and too many combinations", number(4)),
        ("5: and too many combinations", number(5)),
        ("6: and too many combinations", number(6)),
        ("7: and too many combinations", number(7)),
        ("19: and too many combinations", number(19)),
    ])
}

/// A pick where none may stand, or a number behind one.
fn misplaced(records: &[Record], place: usize) -> Vec<&'static str> {
    let kind = |at: usize| records.get(at).map_or(0, |one| one[0]);
    let pick = kind(place) == 0x08;
    let before = &records[..place.min(records.len())];
    let section = before.iter().rev().find(|one| one[0] < 0x10);
    let section = section.map_or(0, |one| one[0]);
    // An expression that isn't complete would own one more record.
    let more = [before, &[plain(0x20)]].concat();
    let open = owners(&more)[before.len()].is_some();
    let begun = before.last().map_or(false, |one| one[0] >= 0x10);
    let whole = begun && !open;
    told(&[
        ("3: a pick among the variables", pick && section == 0x01),
        (
            "3: a pick behind the start",
            pick && section == 0x02 && whole,
        ),
        ("3: a pick behind the property", pick && section == 0x05),
        ("3: a pick behind a node", pick && section == 0x06 && whole),
        ("3: a pick behind an edge", pick && section == 0x07),
        ("3: a pick in an expression", pick && open),
        (
            "3: a number behind a pick",
            before.last().map_or(false, |one| one[0] == 0x08)
                && (0x10..0x20).contains(&kind(place)),
        ),
    ])
}

/// The records before that one in its transition that set the same variable.
fn before(records: &[Record], all: &[Sets], place: usize) -> Vec<usize> {
    let own = all.iter().find(|one| one.sets.contains(&place));
    let sets = own.map_or(&[][..], |one| &one.sets);
    let same = |&at: &usize| at < place && records[at][1] == records[place][1];
    sets.iter().copied().filter(same).collect()
}

fn spoilt(records: &[Record], all: &[Sets], place: usize) -> Vec<&'static str> {
    let at = &records[place];
    let pick = at[0] == 0x08;
    let range = ranges(records).get(usize::from(at[1])).copied();
    let (low, high) = range.unwrap_or((i64::MIN, i64::MAX));
    let [b, c] = [field_b(at), field_c(at)].map(i64::from);
    let known = pick && range.is_some();
    let within = |value| low <= value && value <= high;
    let idle = at[6..] == [0; 2];
    let before = before(records, all, place);
    let picked = before.iter().any(|&one| records[one][0] == 0x08);
    told(&[
        (
            "4: a pick below its variable's range",
            known && idle && b <= c && b < low && c <= high,
        ),
        (
            "4: a pick above its variable's range",
            known && idle && b <= c && low <= b && c > high,
        ),
        (
            "4: a pick from a higher to a lower value of the range",
            known && idle && b > c && within(b) && within(c),
        ),
        ("4: a pick of no variable", pick && idle && !known && b <= c),
        (
            "4: d of a pick",
            known && b <= c && within(b) && within(c) && at[6] != 0 && at[7] == 0,
        ),
        (
            "4: byte 7 of a pick",
            known && b <= c && within(b) && within(c) && at[6] == 0 && at[7] != 0,
        ),
        (
            "4: field of a pick that sets a variable again",
            pick && !before.is_empty(),
        ),
        (
            "4: field of an assignment that sets a picked variable again",
            at[0] == 0x04 && picked,
        ),
    ])
}

fn again(records: &[Record], all: &[Sets], place: usize) -> Vec<&'static str> {
    let pick = records[place][0] == 0x08;
    let before = before(records, all, place);
    let behind = |kind| before.iter().any(|&at| records[at][0] == kind);
    let own = all.iter().find(|one| one.sets.contains(&place));
    let own = own.map_or(&[][..], |one| &one.sets);
    let last = own.iter().take_while(|&&at| at < place).last();
    let next_to = last.map_or(false, |last| before.contains(last));
    told(&[
        ("6: a pick behind a pick", pick && behind(0x08)),
        ("6: a pick behind an assignment", pick && behind(0x04)),
        (
            "6: an assignment behind a pick",
            records[place][0] == 0x04 && behind(0x08),
        ),
        (
            "6: a pick, with others between",
            pick && !before.is_empty() && !next_to,
        ),
    ])
}

// ------------------------------------------------------------------------------ conditions

/// The successors of a state by a transition, and the nodes that they may satisfy, from this node.
struct Step<'a> {
    file: &'a File,
    node: usize,
    successors: Vec<State>,
    targets: Vec<usize>,
    double: bool,
}

impl<'a> Step<'a> {
    fn of(file: &'a File, node: usize, transition: usize, state: &State) -> Step<'a> {
        let one = &file.transitions[transition];
        let double = file.edges_from(node, transition).any(|edge| edge.double);
        let mut targets = vec![node];
        if double {
            targets.clear();
        }
        targets.extend(file.edges_from(node, transition).map(|edge| edge.to));
        Step {
            file,
            node,
            successors: successors(one, &file.variables, state),
            targets,
            double,
        }
    }

    fn satisfies(&self, next: &State, node: usize) -> bool {
        truth(&self.file.nodes[node], next)
    }

    fn fine(&self) -> Vec<bool> {
        let fine = |next: &State| self.targets.iter().any(|&node| self.satisfies(next, node));
        self.successors.iter().map(fine).collect()
    }

    /// Whether no one target is satisfied by all.
    fn apart(&self) -> bool {
        let by_all = |&&node: &&usize| {
            self.successors
                .iter()
                .all(|next| self.satisfies(next, node))
        };
        self.targets.iter().find(by_all).is_none()
    }

    /// Whether one keeps the node and satisfies no target.
    fn keeps(&self) -> bool {
        let fine = self.fine();
        let mut bad = self.successors.iter().zip(fine).filter(|(_, fine)| !fine);
        bad.any(|(next, _)| self.satisfies(next, self.node))
    }
}

fn several(transition: &Transition) -> bool {
    transition.combinations() > 1
}

/// The situations of a verdict about a readable file.
pub fn checked(file: &File, facts: &Facts, verdict: &Verdict) -> Vec<&'static str> {
    if !file.transitions.iter().any(several) {
        return Vec::new();
    }
    let step = || {
        let (node, transition) = (verdict.node.into(), verdict.transition.into());
        Step::of(file, node, transition, &verdict.values)
    };
    let picks = || several(&file.transitions[usize::from(verdict.transition)]);
    match verdict.number {
        0 if facts.tests() <= LITTLE => accepted(file, facts),
        15 => vec!["cover broken, with picks"],
        16 if picks() => vec!["range broken beside a pick"],
        17 if picks() => broken(&step()),
        18 if picks() => vec!["enabling broken beside a pick"],
        _ => Vec::new(),
    }
}

fn accepted(file: &File, facts: &Facts) -> Vec<&'static str> {
    let mut found = [false; 4];
    for condition in &facts.conditions {
        let (node, transition) = match *condition {
            Condition::Step { node, transition } => (node, transition),
            _ => continue,
        };
        if !several(&file.transitions[transition]) {
            continue;
        }
        for state in states(&file.variables) {
            if !truth(&file.nodes[node], &state) {
                continue;
            }
            let step = Step::of(file, node, transition, &state);
            let many = step.successors.len() > 1;
            let apart = many && step.apart();
            found[0] |= many;
            found[1] |= apart;
            found[2] |= many && step.double;
            found[3] |= apart && step.double;
        }
    }
    let names = PICKED.iter().map(|(name, _)| *name).zip(found);
    names
        .filter(|(_, found)| *found)
        .map(|(name, _)| name)
        .collect()
}

fn broken(step: &Step) -> Vec<&'static str> {
    let fine = step.fine();
    let bad = fine.iter().filter(|fine| !**fine).count();
    let (first, last) = (fine.first() == Some(&true), fine.last() == Some(&true));
    told(&[
        ("step broken, the lowest successor fine", first),
        ("step broken, the highest successor fine", last),
        ("step broken, the lowest and highest fine", first && last),
        (
            "step broken by one successor of several",
            bad == 1 && fine.len() > 1,
        ),
        (
            "step broken by each of several successors",
            bad == fine.len() && fine.len() > 1,
        ),
        (
            "step broken by one that keeps the node, double",
            step.double && step.keeps(),
        ),
    ])
}

/// The situations of single tests of a readable file.
pub fn tested(case: &Case, file: &File, facts: &Facts, singles: &[Tested]) -> Vec<&'static str> {
    let mut found = Vec::new();
    for (&(condition, state), tested) in case.singles.iter().zip(singles) {
        if matches!(tested, Tested::Refused { .. }) {
            continue;
        }
        let condition = facts.conditions[condition];
        let (node, transition) = match (condition.node(), condition.transition()) {
            (Some(node), Some(transition)) => (node, transition),
            _ => continue,
        };
        let one = &file.transitions[transition];
        let state = numbered(file, state);
        if several(one) && truth(&file.nodes[node], &state) {
            let fails = *tested == Tested::Fails;
            found.extend(single(file, condition, one, &state, fails));
        }
    }
    found
}

fn single(
    file: &File,
    condition: Condition,
    one: &Transition,
    state: &State,
    fails: bool,
) -> Vec<&'static str> {
    let guard = truth(&one.guard, state);
    let on = enabled(one, &file.variables, state);
    match condition {
        Condition::Step { node, transition } => {
            let step = Step::of(file, node, transition, state);
            let fine = step.fine();
            let count = fine.len();
            told(&[
                (
                    "a step that fails, some successors fine",
                    fails && fine.contains(&true),
                ),
                (
                    "a step that fails, no successor fine",
                    fails && !fine.contains(&true),
                ),
                ("a step that holds, several successors", !fails && count > 1),
                ("a step of over 1,000 successors", count > 1_000),
                ("a step of 4,096 successors", count == 4_096),
                (
                    "a step disabled by its guard, with picks that would break it",
                    !guard && would_break(file, one, &step, state),
                ),
                ("a step disabled by a value, with picks", guard && !on),
            ])
        }
        Condition::Range { .. } if fails => vec!["a range that fails, with picks"],
        Condition::Enabling { .. } if fails && guard => {
            vec!["an enabling that fails by a value, with picks"]
        }
        _ => Vec::new(),
    }
}

/// Whether the step would fail if the guard were true.
fn would_break(file: &File, one: &Transition, step: &Step, state: &State) -> bool {
    let unguarded = Transition {
        guard: independent::Truth::True,
        ..one.clone()
    };
    let list = successors(&unguarded, &file.variables, state);
    let fine = |next: &State| step.targets.iter().any(|&node| step.satisfies(next, node));
    !list.iter().all(fine)
}

/// The state of that number.
fn numbered(file: &File, number: usize) -> State {
    let (mut state, mut left): (State, usize) = ([0; 12], number);
    for (at, range) in file.variables.iter().enumerate().rev() {
        state[at] = (i64::from(range.low) + (left % range.size()) as i64) as i16;
        left /= range.size();
    }
    state
}
