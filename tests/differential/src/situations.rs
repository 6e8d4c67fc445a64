//! What makes a file special: a limit reached or passed by one, refusals that meet. Told from the
//! file and from how it is read. And what makes its verdict special: the tests, the breaking state.

pub mod picks;

use crate::compare::{Case, Facts};
use crate::generate::{
    self, combine, constant, divisors, levels, operands, owners, plain, with_start, Interval,
    Record, KINDS, RECORDS,
};
use independent::{number, read, states, truth};
use independent::{Claim, Condition, File, Number, Pair, Refusal, Tested, Truth, Verdict};

const BOUND: i64 = 1_000_000;
/// A file with a short buffer is checked once more, with room, if it has at most so many tests; and
/// one without a start with another.
const LITTLE: usize = 1_000;
/// Of at most so many states it is told which are starting states.
const FEW: usize = 10_000;

/// The situations that must come up. A number in front is the refusal; files with a limit reached
/// are readable.
pub const SITUATIONS: [&str; 121] = [
    "12 variables",
    "5: variable 13",
    "4: field of variable 13",
    "32 transitions",
    "5: transition 33",
    "4: field of transition 33",
    "32 nodes in an invariance",
    "5: node 33 of an invariance",
    "32 nodes in a chain",
    "5: node 33 of a chain",
    "4: field of node 33",
    "1 node in a wait-for",
    "32 nodes in a wait-for",
    "5: node b + 1 of a wait-for, b under 32",
    "5: node 33 of a wait-for",
    "4: field of node b + 1 of a wait-for",
    "3: one node too few in a wait-for",
    "4: b of a wait-for is 0",
    "4: b of a wait-for is 33",
    "512 edges",
    "5: edge 513",
    "5: edge 513, a repeat",
    "4: field of edge 513",
    "4096 records",
    "2: 4097 records",
    "2: part of record 4097",
    "16 levels",
    "5: level 17, a truth",
    "5: level 17, a number",
    "3: kind at level 17",
    "4: field at level 17",
    "6: an assignment",
    "6: an edge with the same d",
    "6: an edge with another d",
    "1,048,576 states",
    "7: 1,048,577 states",
    "an interval up to 1,000,000",
    "an interval from -1,000,000",
    "8: an interval up to 1,000,001",
    "8: an interval from -1,000,001",
    "3: and a field of the same record",
    "4: and a later record of no kind",
    "5: and a later record of no kind",
    "6: and a later record of no kind",
    "7: and an interval out of bounds",
    "8: and an edge that breaks a rule",
    "9: and a node without a double edge",
    "a quotient in the start",
    "a quotient in a guard",
    "a quotient in an assigned value",
    "a quotient in the property",
    "a quotient in a node",
    "a quotient under an indicator",
    "a remainder in the start",
    "a remainder in a guard",
    "a remainder in an assigned value",
    "a remainder in the property",
    "a remainder in a node",
    "a remainder under an indicator",
    "a quotient of a quotient",
    "a quotient of a remainder",
    "a remainder of a quotient",
    "a remainder of a remainder",
    "a quotient of a number below 0 that is rounded",
    "a remainder of a number below 0 that isn't 0",
    "a quotient by 1",
    "a quotient by 32,767",
    "a remainder by 1",
    "a remainder by 32,767",
    "19: of a quotient",
    "19: of a remainder",
    "19: constant 0",
    "19: constant below 0",
    "19: variable",
    "19: sum, difference or product",
    "19: quotient or remainder",
    "19: indicator",
    "19: and an operand of the divisor that doesn't fit",
    "19: and the file's end for an operand of the divisor",
    "19: and a later record of no kind",
    "19: and a later field",
    "19: and a later level 17",
    "19: and a later repetition",
    "19: and too many states",
    "19: and an interval out of bounds",
    "3: a truth for a divisor",
    "3: no kind for a divisor",
    "3: the file's end for a divisor",
    "4: field of a divisor",
    "4: field of what is no divisor",
    "4: an unknown variable for a divisor",
    "5: level 17, behind it what is no divisor",
    "3: and a later number that is no divisor",
    "4: and a later number that is no divisor",
    "5: and a later number that is no divisor",
    "6: and a later number that is no divisor",
    "a start at the first of several states only",
    "a start at the last of several states only",
    "a start at one state only, between others",
    "20: false",
    "20: a conjunction of truths that some states satisfy",
    "20: a comparison that intervals settle",
    "20: a comparison that intervals leave open",
    "20: over two variables",
    "20: with a quotient or remainder",
    "20: of one state",
    "20: of 1,048,576 states",
    "20: and a broken condition of an invariance",
    "20: and a broken condition of a wait-for",
    "20: and a broken condition of a chain",
    "3: and no start",
    "4: and no start",
    "5: and no start",
    "6: and no start",
    "7: and no start",
    "8: and no start",
    "9: and no start, in an invariance",
    "9: and no start, in a wait-for",
    "9: and no start, in a chain",
    "10: and no start",
    "19: and no start",
];

/// The verdicts without a condition that must come up. A number in front is the refusal.
pub const UNNAMED: [&str; 6] = [
    "accepted, with all tests",
    "refused, no tests",
    "1: no tests, the file else accepted",
    "1: no tests, the file else broken",
    "1: no tests, the file else refused with 20",
    "20: no tests",
];

/// The single tests of files refused with 20 that must come up, for each property.
pub const STARTLESS: [&str; 5] = [
    "of a condition and a state",
    "of too large a condition's number",
    "of too large a state's number",
    "of two too large numbers",
    "that would fail",
];

/// The breaking states that must come up, for each kind of condition.
pub const BREAKING: [&str; 8] = [
    "at state 0",
    "at a later state",
    "at the last of several states",
    "at a higher state too",
    "at a negative value, not at state 0",
    "at a state of another number if the first variable were fastest",
    "where a quotient of a number below 0 is rounded",
    "where a remainder of a number below 0 isn't 0",
];

/// The situations of a verdict that names no condition.
pub fn unnamed(case: &Case, facts: &Facts, verdict: &Verdict) -> Vec<&'static str> {
    let number = verdict.number;
    let all = verdict.tests == facts.tests() as u64;
    let none = verdict.tests == 0;
    let with_room = || independent::check(&case.file, &mut [0; 32]).number;
    let little = facts.reading.is_ok() && facts.tests() <= LITTLE;
    let otherwise = (number == 1 && little).then(with_room);
    let startless = facts.started.is_some();
    told(&[
        ("accepted, with all tests", number == 0 && all),
        ("refused, no tests", number > 0 && none),
        (
            "1: no tests, the file else accepted",
            otherwise == Some(0) && none,
        ),
        (
            "1: no tests, the file else broken",
            otherwise >= Some(13) && none,
        ),
        (
            "1: no tests, the file else refused with 20",
            number == 1 && startless && none,
        ),
        ("20: no tests", number == 20 && none),
    ])
}

/// The situations of the single tests of a file refused with 20.
pub fn startless(case: &Case, facts: &Facts) -> Vec<&'static str> {
    if facts.started.is_none() {
        return Vec::new();
    }
    let started = with_start(&generate::records(&case.file), &[plain(0x20)]).concat();
    let situations = |&(condition, state): &(usize, usize)| {
        let condition_too_large = condition >= facts.conditions.len();
        let state_too_large = state >= facts.states;
        // The start condition holds, as the start is false.
        let other = facts.conditions.get(condition) != Some(&Condition::Start);
        let fails = || independent::single(&started, condition, state) == Tested::Fails;
        told(&[
            (
                "of a condition and a state",
                !condition_too_large && !state_too_large,
            ),
            (
                "of too large a condition's number",
                condition_too_large && !state_too_large,
            ),
            (
                "of too large a state's number",
                !condition_too_large && state_too_large,
            ),
            (
                "of two too large numbers",
                condition_too_large && state_too_large,
            ),
            ("that would fail", other && fails()),
        ])
    };
    case.singles.iter().flat_map(situations).collect()
}

/// The situations of the state that breaks the named condition, if the tests are those up to it. Of
/// other states that break it the single tests tell.
pub fn breaking(
    case: &Case,
    file: &File,
    verdict: &Verdict,
    singles: &[Tested],
) -> Vec<&'static str> {
    let values = || file.variables.iter().zip(verdict.values);
    let (mut state, mut first_fastest, mut weight) = (0, 0, 1);
    for (range, value) in values() {
        let offset = (i32::from(value) - i32::from(range.low)) as usize;
        state = state * range.size() + offset;
        first_fastest += weight * offset;
        weight *= range.size();
    }
    if verdict.tests != u64::from(verdict.at) * file.states() as u64 + state as u64 + 1 {
        return Vec::new();
    }
    let mut tested = case.singles.iter().zip(singles);
    let higher = tested.any(|(&(condition, at), tested)| {
        condition == verdict.at as usize && at > state && *tested == Tested::Fails
    });
    let negative = values().any(|(_, value)| value < 0);
    let [quotient, remainder] = rounded(file, &verdict.values);
    told(&[
        ("at state 0", state == 0),
        ("at a later state", state > 0),
        (
            "at the last of several states",
            state > 0 && state + 1 == file.states(),
        ),
        ("at a higher state too", higher),
        ("at a negative value, not at state 0", state > 0 && negative),
        (
            "at a state of another number if the first variable were fastest",
            first_fastest != state,
        ),
        ("where a quotient of a number below 0 is rounded", quotient),
        ("where a remainder of a number below 0 isn't 0", remainder),
    ])
}

/// Whether in the state a quotient, or a remainder, is that of a number below 0 which isn't a
/// multiple of the divisor.
fn rounded(file: &File, state: &[i16; 12]) -> [bool; 2] {
    let mut divisions = Divisions::default();
    divisions.of_file(file);
    let rounded = |pair: &&Pair| {
        let (left, divisor) = (number(&pair.left, state), number(&pair.right, state));
        left < 0 && left % divisor != 0
    };
    [divisions.quotients, divisions.remainders].map(|pairs| pairs.iter().any(rounded))
}

/// The quotients and remainders of a file.
#[derive(Default)]
struct Divisions<'a> {
    quotients: Vec<&'a Pair>,
    remainders: Vec<&'a Pair>,
}

impl<'a> Divisions<'a> {
    fn of_file(&mut self, file: &'a File) {
        self.of_truth(&file.start);
        for transition in &file.transitions {
            self.of_truth(&transition.guard);
            for assignment in &transition.assignments {
                self.of_number(&assignment.value);
            }
        }
        match &file.claim {
            Claim::Invariance { q } => self.of_truth(q),
            Claim::WaitFor { p, q } => {
                self.of_truth(p);
                q.iter().for_each(|q| self.of_truth(q));
            }
            Claim::Chain { p, q } => {
                self.of_truth(p);
                self.of_truth(q);
            }
        }
        file.nodes.iter().for_each(|node| self.of_truth(node));
    }

    fn of_truth(&mut self, truth: &'a Truth) {
        match truth {
            Truth::True | Truth::False => (),
            Truth::Not(operand) => self.of_truth(operand),
            Truth::And(pair) | Truth::Or(pair) | Truth::Implies(pair) | Truth::Iff(pair) => {
                self.of_truth(&pair.0);
                self.of_truth(&pair.1);
            }
            Truth::Equal(pair) | Truth::Less(pair) | Truth::AtMost(pair) => {
                self.of_number(&pair.0);
                self.of_number(&pair.1);
            }
        }
    }

    fn of_number(&mut self, number: &'a Number) {
        let pair = match number {
            Number::Constant(_) | Number::Variable(_) => return,
            Number::Indicator(truth) => return self.of_truth(truth),
            Number::Sum(pair) | Number::Difference(pair) | Number::Product(pair) => pair,
            Number::Quotient(pair) => {
                self.quotients.push(pair);
                pair
            }
            Number::Remainder(pair) => {
                self.remainders.push(pair);
                pair
            }
        };
        self.of_number(&pair.left);
        self.of_number(&pair.right);
    }
}

/// The file's situations.
pub fn of(file: &[u8], facts: &Facts) -> Vec<&'static str> {
    let records = generate::records(file);
    match &facts.reading {
        Ok(read) => [
            reached(&records, read, facts.states),
            divided(&records, read),
            starting(read, facts.states),
        ]
        .concat(),
        Err(refusal) if refusal.number == 20 => no_start(&records, facts),
        Err(refusal) => [
            refused(file.len(), &records, refusal),
            and_no_start(&records, refusal),
        ]
        .concat(),
    }
}

/// Whether a readable file has one starting state only.
fn starting(read: &File, count: usize) -> Vec<&'static str> {
    let few = if count > FEW { 0 } else { count };
    let all = states(&read.variables).take(few).enumerate();
    let starting = all.filter(|(_, state)| truth(&read.start, state));
    let starting: Vec<usize> = starting.map(|(number, _)| number).take(2).collect();
    let only = |at| count > 1 && starting == [at];
    told(&[
        ("a start at the first of several states only", only(0)),
        (
            "a start at the last of several states only",
            only(count - 1),
        ),
        (
            "a start at one state only, between others",
            starting.len() == 1 && !only(0) && !only(count - 1) && count > 1,
        ),
    ])
}

/// What start no state satisfies, and whether the file has a broken condition besides.
fn no_start(records: &[Record], facts: &Facts) -> Vec<&'static str> {
    let place = generate::start(records).expect("a start");
    let start = &records[place.clone()];
    let kind = start[0][0];
    let owners = owners(records);
    let operand = |number| {
        let first = owners
            .iter()
            .position(|&owner| owner == Some((place.start, number)));
        first.expect("an operand")
    };
    let comparison = (0x27..=0x29).contains(&kind);
    let open = || {
        let found = intervals(records);
        let [left, right] = [0, 1].map(|number| found[operand(number)].expect("a number"));
        match kind {
            0x27 => left.0 <= right.1 && right.0 <= left.1,
            0x28 => left.0 < right.1,
            _ => left.0 <= right.1,
        }
    };
    let satisfied = |truth: &[Record]| read(&with_start(records, truth).concat()).is_ok();
    let both = || {
        let parts = [
            &records[operand(0)..operand(1)],
            &records[operand(1)..place.end],
        ];
        facts.states <= FEW && parts.into_iter().all(satisfied)
    };
    let names = |variable| start.iter().any(|one| one[..2] == [0x11, variable]);
    let broken = |property| facts.property() == property && breaks(records, facts);
    told(&[
        ("20: false", kind == 0x21),
        (
            "20: a conjunction of truths that some states satisfy",
            kind == 0x23 && both(),
        ),
        (
            "20: a comparison that intervals settle",
            comparison && !open(),
        ),
        (
            "20: a comparison that intervals leave open",
            comparison && open(),
        ),
        (
            "20: over two variables",
            (0..12).filter(|&variable| names(variable)).count() == 2,
        ),
        (
            "20: with a quotient or remainder",
            start.iter().any(|one| matches!(one[0], 0x18 | 0x19)),
        ),
        ("20: of one state", facts.states == 1),
        ("20: of 1,048,576 states", facts.states == 1_048_576),
        ("20: and a broken condition of an invariance", broken(1)),
        ("20: and a broken condition of a wait-for", broken(2)),
        ("20: and a broken condition of a chain", broken(3)),
    ])
}

/// Whether a file without a start breaks a condition, if it has few tests. The start condition is
/// true without a start, and so it is with node 0 as the start.
fn breaks(records: &[Record], facts: &Facts) -> bool {
    let node = records.iter().position(|one| one[0] == 0x06);
    let node = &records[node.map_or(0, |node| node + 1)..];
    let end = node.iter().position(|one| one[0] < 0x10);
    let start = match facts.property() {
        1 => node[..end.unwrap_or(node.len())].to_vec(),
        _ => vec![plain(0x20)],
    };
    let file = with_start(records, &start).concat();
    let number = || independent::check(&file, &mut [0; 32]).number;
    facts.conditions.len() * facts.states <= LITTLE && (13..=18).contains(&number())
}

/// Whether no state satisfies the start of a file that is refused with another number than 20. Of
/// more states than there may be that is told of the start false only.
fn and_no_start(records: &[Record], refusal: &Refusal) -> Vec<&'static str> {
    let none = generate::start(records).map_or(false, |place| {
        let claim = [
            [5, 1, 0, 0, 0, 0, 0, 0],
            plain(0x20),
            plain(0x06),
            plain(0x20),
        ];
        let readable = [&records[..place.end], &claim].concat().concat();
        let refused = read(&readable).map_err(|refusal| refusal.number);
        match refusal.number {
            7 => records[place] == [plain(0x21)],
            _ => refused == Err(20),
        }
    });
    let [invariance, wait_for, chain] = [1, 2, 3].map(|a| property(records) == Some(a));
    let number = |of| none && refusal.number == of;
    told(&[
        ("3: and no start", number(3)),
        ("4: and no start", number(4)),
        ("5: and no start", number(5)),
        ("6: and no start", number(6)),
        ("7: and no start", number(7)),
        ("8: and no start", number(8)),
        ("9: and no start, in an invariance", number(9) && invariance),
        ("9: and no start, in a wait-for", number(9) && wait_for),
        ("9: and no start, in a chain", number(9) && chain),
        ("10: and no start", number(10)),
        ("19: and no start", number(19)),
    ])
}

fn reached(records: &[Record], read: &File, states: usize) -> Vec<&'static str> {
    let [invariance, wait_for, chain] = [1, 2, 3].map(|a| property(records) == Some(a));
    let nodes = read.nodes.len();
    let found = intervals(records);
    let ends = |end: fn(Interval) -> i64, at| found.iter().flatten().any(|&one| end(one) == at);
    let deepest = levels(records).into_iter().max();
    told(&[
        ("12 variables", read.variables.len() == 12),
        ("32 transitions", read.transitions.len() == 32),
        ("32 nodes in an invariance", invariance && nodes == 32),
        ("32 nodes in a chain", chain && nodes == 32),
        ("1 node in a wait-for", wait_for && nodes == 1),
        ("32 nodes in a wait-for", wait_for && nodes == 32),
        ("512 edges", read.edges.len() == 512),
        ("4096 records", records.len() == RECORDS),
        ("16 levels", deepest == Some(16)),
        ("1,048,576 states", states == 1_048_576),
        ("an interval up to 1,000,000", ends(|(_, high)| high, BOUND)),
        ("an interval from -1,000,000", ends(|(low, _)| low, -BOUND)),
    ])
}

/// Where a readable file has quotients and remainders, of what and by what.
fn divided(records: &[Record], read: &File) -> Vec<&'static str> {
    let owners = owners(records);
    let kind = |at: usize| records[at][0];
    // The last record of kinds 01 to 08 up to each.
    let mut sections = Vec::new();
    for record in records {
        let last = sections.last().copied().unwrap_or(0);
        sections.push(if record[0] < 0x10 { record[0] } else { last });
    }
    let all = |of| (0..records.len()).filter(move |&at| kind(at) == of);
    let within = |of, section| all(of).any(|at| sections[at] == section);
    let under = |of| {
        all(of).any(|at| {
            let mut above = std::iter::successors(owners[at], |&(owner, _)| owners[owner]);
            above.any(|(owner, _)| kind(owner) == 0x15)
        })
    };
    let over = |of, left| all(of).any(|at| kind(at + 1) == left);
    let divisors = divisors(records);
    let by = |of, value| {
        let owner = |at: usize| owners[at].map(|(owner, _)| kind(owner));
        let found = |&at: &usize| owner(at) == Some(of) && field_b(&records[at]) == value;
        divisors.iter().any(found)
    };
    let first = independent::states(&read.variables).next();
    let [quotient, remainder] = rounded(read, &first.unwrap_or_default());
    told(&[
        ("a quotient in the start", within(0x18, 0x02)),
        ("a quotient in a guard", within(0x18, 0x03)),
        ("a quotient in an assigned value", within(0x18, 0x04)),
        ("a quotient in the property", within(0x18, 0x05)),
        ("a quotient in a node", within(0x18, 0x06)),
        ("a quotient under an indicator", under(0x18)),
        ("a remainder in the start", within(0x19, 0x02)),
        ("a remainder in a guard", within(0x19, 0x03)),
        ("a remainder in an assigned value", within(0x19, 0x04)),
        ("a remainder in the property", within(0x19, 0x05)),
        ("a remainder in a node", within(0x19, 0x06)),
        ("a remainder under an indicator", under(0x19)),
        ("a quotient of a quotient", over(0x18, 0x18)),
        ("a quotient of a remainder", over(0x18, 0x19)),
        ("a remainder of a quotient", over(0x19, 0x18)),
        ("a remainder of a remainder", over(0x19, 0x19)),
        ("a quotient of a number below 0 that is rounded", quotient),
        ("a remainder of a number below 0 that isn't 0", remainder),
        ("a quotient by 1", by(0x18, 1)),
        ("a quotient by 32,767", by(0x18, i16::MAX)),
        ("a remainder by 1", by(0x19, 1)),
        ("a remainder by 32,767", by(0x19, i16::MAX)),
    ])
}

fn refused(length: usize, records: &[Record], refusal: &Refusal) -> Vec<&'static str> {
    let place = refusal.place as usize;
    let at = records.get(place).copied();
    let kind = at.map_or(0, |record| record[0]);
    // How many records of that kind stand before: no expression holds kinds 01 to 08.
    let before = |kind| {
        records
            .iter()
            .take(place)
            .filter(|one| one[0] == kind)
            .count()
    };
    let number = |of| refusal.number == of;
    match refusal.number {
        2 => told(&[
            ("2: 4097 records", length == 8 * (RECORDS + 1)),
            (
                "2: part of record 4097",
                records.len() == RECORDS && length > 8 * RECORDS,
            ),
        ]),
        3..=6 => {
            let [invariance, wait_for, chain] = [1, 2, 3].map(|a| property(records) == Some(a));
            let b = records.iter().find(|one| one[0] == 0x05).map_or(0, field_b);
            let level = levels(records).get(place).copied().unwrap_or(0);
            let repeats = |d: bool| {
                let same = |one: &&Record| at.map_or(false, |at| one[..6] == at[..6]);
                let mut same = records.iter().take(place).filter(same);
                kind == 0x07 && same.any(|one| d == (one[6] == at.map_or(0, |at| at[6])))
            };
            let repeat = repeats(true) || repeats(false);
            let unnamed = |one: &Record| one[7] != 0;
            let no_kind = |one: &Record| !KINDS.contains(&one[0]);
            let unfit_later = records.iter().skip(place + 1).any(no_kind);
            let many = wait_for && before(0x06) == b as usize;
            let divisor = divisor_due(records, place);
            // What stands there is no divisor, whatever its other fields.
            let undue = divisor && at.as_ref().map_or(false, no_divisor);
            let others_zero = at.map_or(false, |at| at[2..] == [0; 6]);
            let undue_later = || {
                let mut later = divisors(records).into_iter().filter(|&one| one > place);
                later.any(|one| records[one][0] < 0x20 && no_divisor(&records[one]))
            };
            let left_of_undue = || {
                let owners = owners(records);
                let owner = owners.get(place).copied().flatten();
                let right = owner.and_then(|(owner, _)| {
                    divisors(records)
                        .into_iter()
                        .find(|&one| owners[one] == Some((owner, 1)))
                });
                right.map_or(false, |one| one > place && no_divisor(&records[one]))
            };
            told(&[
                ("5: variable 13", number(5) && kind == 0x01),
                (
                    "4: field of variable 13",
                    number(4) && kind == 0x01 && before(kind) == 12,
                ),
                ("5: transition 33", number(5) && kind == 0x03),
                (
                    "4: field of transition 33",
                    number(4) && kind == 0x03 && before(kind) == 32,
                ),
                (
                    "5: node 33 of an invariance",
                    number(5) && kind == 0x06 && invariance,
                ),
                ("5: node 33 of a chain", number(5) && kind == 0x06 && chain),
                (
                    "4: field of node 33",
                    number(4) && kind == 0x06 && before(kind) == 32,
                ),
                (
                    "5: node b + 1 of a wait-for, b under 32",
                    number(5) && kind == 0x06 && wait_for && b < 32,
                ),
                (
                    "5: node 33 of a wait-for",
                    number(5) && kind == 0x06 && wait_for && b == 32,
                ),
                (
                    "4: field of node b + 1 of a wait-for",
                    number(4) && kind == 0x06 && many,
                ),
                (
                    "3: one node too few in a wait-for",
                    number(3) && wait_for && level == 0 && before(0x06) + 1 == b as usize,
                ),
                (
                    "4: b of a wait-for is 0",
                    number(4) && kind == 0x05 && wait_for && b == 0,
                ),
                (
                    "4: b of a wait-for is 33",
                    number(4) && kind == 0x05 && wait_for && b == 33,
                ),
                ("5: edge 513", number(5) && kind == 0x07),
                ("5: edge 513, a repeat", number(5) && repeat),
                (
                    "4: field of edge 513",
                    number(4) && kind == 0x07 && before(kind) == 512,
                ),
                ("5: level 17, a truth", number(5) && kind >= 0x20),
                (
                    "5: level 17, a number",
                    number(5) && (0x10..0x20).contains(&kind),
                ),
                ("3: kind at level 17", number(3) && level == 17),
                ("4: field at level 17", number(4) && level == 17),
                ("6: an assignment", number(6) && kind == 0x04),
                ("6: an edge with the same d", number(6) && repeats(true)),
                ("6: an edge with another d", number(6) && repeats(false)),
                (
                    "3: and a field of the same record",
                    number(3) && at.as_ref().map_or(false, unnamed),
                ),
                ("4: and a later record of no kind", number(4) && unfit_later),
                ("5: and a later record of no kind", number(5) && unfit_later),
                ("6: and a later record of no kind", number(6) && unfit_later),
                (
                    "3: a truth for a divisor",
                    number(3) && divisor && (0x20..0x2a).contains(&kind),
                ),
                (
                    "3: no kind for a divisor",
                    number(3) && divisor && at.as_ref().map_or(false, no_kind),
                ),
                (
                    "3: the file's end for a divisor",
                    number(3) && divisor && at.is_none(),
                ),
                ("4: field of a divisor", number(4) && divisor && !undue),
                ("4: field of what is no divisor", number(4) && undue),
                (
                    "4: an unknown variable for a divisor",
                    number(4) && divisor && kind == 0x11 && others_zero,
                ),
                (
                    "5: level 17, behind it what is no divisor",
                    number(5) && left_of_undue(),
                ),
                (
                    "3: and a later number that is no divisor",
                    number(3) && undue_later(),
                ),
                (
                    "4: and a later number that is no divisor",
                    number(4) && undue_later(),
                ),
                (
                    "5: and a later number that is no divisor",
                    number(5) && undue_later(),
                ),
                (
                    "6: and a later number that is no divisor",
                    number(6) && undue_later(),
                ),
            ])
        }
        7 => {
            let sizes = ranges(records)
                .into_iter()
                .map(|(low, high)| high - low + 1);
            let passing: i64 = sizes.take(place + 1).product();
            let out = |(low, high): &Interval| *low < -BOUND || *high > BOUND;
            told(&[
                ("7: 1,048,577 states", passing == 1_048_577),
                (
                    "7: and an interval out of bounds",
                    intervals(records).iter().flatten().any(out),
                ),
            ])
        }
        8 => {
            let (low, high) = intervals(records)[place].unwrap_or((0, 0));
            // The rules that one edge breaks by itself.
            let chain = property(records) == Some(3);
            let invariance = property(records) == Some(1);
            let breaks = |one: &Record| {
                let double = one[6] == 1;
                let goal = [one[2], one[3]] == [0, 0];
                one[0] == 0x07 && (double && !chain || goal && !invariance)
            };
            told(&[
                ("8: an interval up to 1,000,001", high == BOUND + 1),
                ("8: an interval from -1,000,001", low == -BOUND - 1),
                (
                    "8: and an edge that breaks a rule",
                    records.iter().any(breaks),
                ),
            ])
        }
        9 => {
            let nodes = records.iter().filter(|one| one[0] == 0x06).count();
            let has_double = |node: usize| {
                let from_it = |one: &&Record| one[0] == 0x07 && field_b(one) == node as i16;
                records.iter().filter(from_it).any(|edge| edge[6] == 1)
            };
            let lacks = !(1..nodes).all(has_double);
            told(&[(
                "9: and a node without a double edge",
                property(records) == Some(3) && lacks,
            )])
        }
        19 => refused_divisor(records, place),
        _ => Vec::new(),
    }
}

/// A divisor that is no constant above 0, and what else the file would be refused with.
fn refused_divisor(records: &[Record], place: usize) -> Vec<&'static str> {
    let at = &records[place];
    let kind = at[0];
    let owner = owners(records)[place].map(|(owner, _)| records[owner][0]);
    let later = &records[place + 1..];
    // What its first operand must be.
    let fits = |one: &Record| match kind {
        0x15 => (0x20..0x2a).contains(&one[0]),
        _ => KINDS.contains(&one[0]) && (0x10..0x20).contains(&one[0]),
    };
    let unfit = operands(kind) > 0 && later.first().map_or(false, |one| !fits(one));
    let states: i64 = ranges(records)
        .into_iter()
        .map(|(low, high)| high - low + 1)
        .fold(1, i64::saturating_mul);
    let out = |(low, high): &Interval| *low < -BOUND || *high > BOUND;
    told(&[
        ("19: of a quotient", owner == Some(0x18)),
        ("19: of a remainder", owner == Some(0x19)),
        ("19: constant 0", kind == 0x10 && field_b(at) == 0),
        ("19: constant below 0", kind == 0x10 && field_b(at) < 0),
        ("19: variable", kind == 0x11),
        (
            "19: sum, difference or product",
            (0x12..=0x14).contains(&kind),
        ),
        ("19: quotient or remainder", matches!(kind, 0x18 | 0x19)),
        ("19: indicator", kind == 0x15),
        ("19: and an operand of the divisor that doesn't fit", unfit),
        (
            "19: and the file's end for an operand of the divisor",
            operands(kind) > 0 && later.is_empty(),
        ),
        (
            "19: and a later record of no kind",
            later.iter().any(|one| !KINDS.contains(&one[0])),
        ),
        ("19: and a later field", later.iter().any(|one| one[7] != 0)),
        (
            "19: and a later level 17",
            levels(records)[place + 1..].contains(&17),
        ),
        ("19: and a later repetition", repeats_behind(records, place)),
        ("19: and too many states", states > 1_048_576),
        (
            "19: and an interval out of bounds",
            intervals(records).iter().flatten().any(out),
        ),
    ])
}

/// Whether a divisor must stand there.
fn divisor_due(records: &[Record], place: usize) -> bool {
    let before = &records[..place.min(records.len())];
    divisors(&[before, &[constant(1)]].concat()).contains(&place)
}

fn no_divisor(record: &Record) -> bool {
    record[0] != 0x10 || field_b(record) <= 0
}

/// Whether a record behind that place sets a variable again, or repeats an edge.
fn repeats_behind(records: &[Record], place: usize) -> bool {
    (place + 1..records.len()).any(|at| {
        let one = &records[at];
        let before = records[..at].iter().rev();
        match one[0] {
            0x04 | 0x08 => {
                let mut transition = before.take_while(|other| other[0] != 0x03);
                transition.any(|other| matches!(other[0], 0x04 | 0x08) && other[1] == one[1])
            }
            0x07 => before
                .take_while(|other| other[0] == 0x07)
                .any(|other| other[..6] == one[..6]),
            _ => false,
        }
    })
}

fn told(list: &[(&'static str, bool)]) -> Vec<&'static str> {
    let found = list.iter().filter(|(_, found)| *found);
    found.map(|(name, _)| *name).collect()
}

fn field_b(record: &Record) -> i16 {
    i16::from_le_bytes([record[2], record[3]])
}

/// The property's a.
fn property(records: &[Record]) -> Option<u8> {
    let property = records.iter().find(|record| record[0] == 0x05)?;
    Some(property[1])
}

fn ranges(records: &[Record]) -> Vec<Interval> {
    let variables = records.iter().take_while(|record| record[0] == 0x01);
    let high = |record: &Record| i16::from_le_bytes([record[4], record[5]]);
    variables
        .map(|record| (field_b(record).into(), high(record).into()))
        .collect()
}

/// The interval of each record that is a number; from the last record to the first, so that
/// operands come before what they belong to.
fn intervals(records: &[Record]) -> Vec<Option<Interval>> {
    let ranges = ranges(records);
    let mut found = vec![None; records.len()];
    // The intervals of expressions not yet used as operands, the last one the leftmost.
    let mut stack: Vec<Option<Interval>> = Vec::new();
    for (record, found) in records.iter().zip(&mut found).rev() {
        let kind = record[0];
        if kind < 0x10 {
            stack.clear();
            continue;
        }
        let mut operand = || stack.pop().flatten();
        *found = match kind {
            0x10 => Some((field_b(record).into(), field_b(record).into())),
            0x11 => ranges.get(usize::from(record[1])).copied(),
            0x12..=0x14 | 0x18 | 0x19 => match (operand(), operand()) {
                (_, Some((..=0, _))) if kind > 0x14 => None,
                (Some(left), Some(right)) => {
                    let (low, high) = combine(kind, left, right);
                    // Twice the bound is as far out as more, and nothing overflows.
                    let [low, high] = [low, high].map(|end| end.clamp(-2 * BOUND, 2 * BOUND));
                    Some((low, high))
                }
                _ => None,
            },
            _ => {
                for _ in 0..operands(kind) {
                    operand();
                }
                (kind == 0x15).then_some((0, 1))
            }
        };
        stack.push(*found);
    }
    found
}
