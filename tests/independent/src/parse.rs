//! Reading the records into a [`File`]. C11.2: refusals 3 to 6 and 19, in order, record by record.

use crate::file::{Assignment, Claim, Edge, File, Number, Pair, Pick, Transition, Truth, Variable};
use crate::records::*;
use crate::refusal::{Refusal, DIVISOR, FIELD, KIND, LIMIT, REPEAT};

const MOST_VARIABLES: usize = 12;
const MOST_TRANSITIONS: usize = 32;
const MOST_NODES: usize = 32;
const MOST_PHASES: i16 = 32;
const MOST_EDGES: usize = 512;
const MOST_LEVELS: usize = 16;

/// C1.5: the sections, in their order.
pub fn parse(file: &[u8]) -> Result<File, Refusal> {
    let mut parser = Parser::new(file);
    let variables = parser.variables()?;
    let start = parser.start()?;
    let transitions = parser.transitions()?;
    let claim = parser.property()?;
    let nodes = parser.nodes(&claim)?;
    let edges = parser.edges(transitions.len(), nodes.len())?;
    parser.end()?;
    Ok(File {
        variables,
        start,
        transitions,
        claim,
        nodes,
        edges,
    })
}

struct Parser<'a> {
    file: &'a [u8],
    /// The number of the record to be read next.
    at: usize,
    /// The variables, known once they are read.
    variables: Vec<Variable>,
}

impl<'a> Parser<'a> {
    fn new(file: &'a [u8]) -> Parser<'a> {
        Parser {
            file,
            at: 0,
            variables: Vec::new(),
        }
    }

    // The refusals, each placed at the record to be read next.

    fn demand(&self, met: bool, number: u8) -> Result<(), Refusal> {
        if met {
            Ok(())
        } else {
            Err(Refusal::new(number, self.at))
        }
    }

    /// C10.3: the kind can stand there.
    fn fits(&self, met: bool) -> Result<(), Refusal> {
        self.demand(met, KIND)
    }

    /// C10.4: the fields have values that are allowed.
    fn fields(&self, met: bool) -> Result<(), Refusal> {
        self.demand(met, FIELD)
    }

    /// C10.5: not one past a limit. C11.3: tried behind the two above.
    fn within(&self, met: bool) -> Result<(), Refusal> {
        self.demand(met, LIMIT)
    }

    /// C10.6: neither a variable set again, nor an edge repeated.
    fn fresh(&self, met: bool) -> Result<(), Refusal> {
        self.demand(met, REPEAT)
    }

    /// C10.19: a constant above 0. C11.2: tried behind 3, 4 and 5.
    fn divides(&self, met: bool) -> Result<(), Refusal> {
        self.demand(met, DIVISOR)
    }

    // The records.

    /// The record to be read next. C10.3: where the file ends, the place is how many there are.
    fn record(&self) -> Result<Record, Refusal> {
        let record = Record::at(self.file, self.at);
        record.ok_or(Refusal::new(KIND, self.at))
    }

    /// The record to be read next, if it is there and of that kind.
    fn optional(&self, kind: u8) -> Option<Record> {
        let record = Record::at(self.file, self.at)?;
        (record.kind == kind).then_some(record)
    }

    /// The record to be read next, which must be of that kind.
    fn required(&self, kind: u8) -> Result<Record, Refusal> {
        let record = self.record()?;
        self.fits(record.kind == kind)?;
        Ok(record)
    }

    fn advance(&mut self) {
        self.at += 1;
    }

    /// C1.5: nothing stands behind the edges.
    fn end(&self) -> Result<(), Refusal> {
        self.fits(Record::at(self.file, self.at).is_none())
    }

    // The file's parts, in file order.

    /// C1.6.
    fn variables(&mut self) -> Result<Vec<Variable>, Refusal> {
        let mut variables = Vec::new();
        self.required(VARIABLE)?;
        while let Some(record) = self.optional(VARIABLE) {
            self.fields(record.zero_except(&[Field::B, Field::C]) && record.b <= record.c)?;
            self.within(variables.len() < MOST_VARIABLES)?;
            self.advance();
            variables.push(Variable {
                low: record.b,
                high: record.c,
            });
        }
        self.variables = variables.clone();
        Ok(variables)
    }

    /// C1.7.
    fn start(&mut self) -> Result<Truth, Refusal> {
        let record = self.required(START)?;
        self.fields(record.zero_except(&[]))?;
        self.advance();
        self.truth(1)
    }

    /// C1.8, C5.5.
    fn transitions(&mut self) -> Result<Vec<Transition>, Refusal> {
        let mut transitions = Vec::new();
        while let Some(record) = self.optional(TRANSITION) {
            self.fields(record.zero_except(&[Field::A]) && record.a <= 1)?;
            self.within(transitions.len() < MOST_TRANSITIONS)?;
            let place = self.at;
            self.advance();
            let guard = self.truth(1)?;
            let (assignments, picks) = self.assignments_and_picks()?;
            transitions.push(Transition {
                place,
                just: record.a == 1,
                guard,
                assignments,
                picks,
            });
        }
        Ok(transitions)
    }

    /// C1.8: assignments and picks in any order. C1.17: each variable is set once.
    fn assignments_and_picks(&mut self) -> Result<(Vec<Assignment>, Vec<Pick>), Refusal> {
        let mut assignments: Vec<Assignment> = Vec::new();
        let mut picks: Vec<Pick> = Vec::new();
        loop {
            let assigned = |variable| assignments.iter().any(|one| one.variable == variable);
            let picked = |variable| picks.iter().any(|one| one.variable == variable);
            if let Some(record) = self.optional(ASSIGNMENT) {
                let variable = self.assigned_variable(record)?;
                self.fresh(!assigned(variable) && !picked(variable))?;
                self.advance();
                let value = self.number(1)?;
                assignments.push(Assignment { variable, value });
            } else if let Some(record) = self.optional(PICK) {
                let pick = self.pick(record)?;
                self.fresh(!picked(pick.variable) && !assigned(pick.variable))?;
                self.advance();
                picks.push(pick);
            } else {
                return Ok((assignments, picks));
            }
        }
    }

    /// C1.9, C1.15.
    fn assigned_variable(&self, record: Record) -> Result<usize, Refusal> {
        let variable = usize::from(record.a);
        let known = variable < self.variables.len();
        self.fields(record.zero_except(&[Field::A]) && known)?;
        Ok(variable)
    }

    /// C1.16, C1.15: the pick, its fields allowed.
    fn pick(&self, record: Record) -> Result<Pick, Refusal> {
        self.fields(record.zero_except(&[Field::A, Field::B, Field::C]))?;
        let variable = usize::from(record.a);
        self.fields(variable < self.variables.len())?;
        let (low, high) = (record.b, record.c);
        let range = self.variables[variable];
        self.fields(low <= high)?;
        self.fields(range.low <= low && high <= range.high)?;
        Ok(Pick {
            variable,
            low,
            high,
        })
    }

    /// C1.10, C1.12.
    fn property(&mut self) -> Result<Claim, Refusal> {
        let record = self.required(PROPERTY)?;
        // C1.4: b is zero but in a wait-for.
        let allowed = match record.a {
            1 | 3 => record.zero_except(&[Field::A]),
            2 => record.zero_except(&[Field::A, Field::B]) && phases_allowed(record.b),
            _ => false,
        };
        self.fields(allowed)?;
        self.advance();
        match record.a {
            1 => self.invariance(),
            2 => self.wait_for(record.b),
            _ => self.chain(),
        }
    }

    fn invariance(&mut self) -> Result<Claim, Refusal> {
        let q = self.truth(1)?;
        Ok(Claim::Invariance { q })
    }

    fn wait_for(&mut self, phases: i16) -> Result<Claim, Refusal> {
        let p = self.truth(1)?;
        let q: Result<Vec<Truth>, Refusal> = (0..phases).map(|_| self.truth(1)).collect();
        Ok(Claim::WaitFor { p, q: q? })
    }

    fn chain(&mut self) -> Result<Claim, Refusal> {
        let p = self.truth(1)?;
        let q = self.truth(1)?;
        Ok(Claim::Chain { p, q })
    }

    /// C1.13: a wait-for has as many as phases. One too many is 5; C11.4: one too few is 3.
    fn nodes(&mut self, claim: &Claim) -> Result<Vec<Truth>, Refusal> {
        let (least, most) = match claim {
            Claim::WaitFor { q, .. } => (q.len(), q.len()),
            Claim::Invariance { .. } | Claim::Chain { .. } => (1, MOST_NODES),
        };
        let mut nodes = Vec::new();
        while let Some(record) = self.optional(NODE) {
            self.fields(record.zero_except(&[]))?;
            self.within(nodes.len() < most)?;
            self.advance();
            nodes.push(self.truth(1)?);
        }
        self.fits(nodes.len() >= least)?;
        Ok(nodes)
    }

    /// C1.14.
    fn edges(&mut self, transitions: usize, nodes: usize) -> Result<Vec<Edge>, Refusal> {
        let mut edges: Vec<Edge> = Vec::new();
        while let Some(record) = self.optional(EDGE) {
            let edge = self.edge(record, transitions, nodes)?;
            self.within(edges.len() < MOST_EDGES)?;
            self.fresh(!edges.iter().any(|before| repeats(&edge, before)))?;
            self.advance();
            edges.push(edge);
        }
        Ok(edges)
    }

    /// C1.15: the edge, its fields allowed.
    fn edge(&self, record: Record, transitions: usize, nodes: usize) -> Result<Edge, Refusal> {
        self.fields(record.last == 0 && record.d <= 1)?;
        let transition = usize::from(record.a);
        self.fields(transition < transitions)?;
        let (from, to) = match (usize::try_from(record.b), usize::try_from(record.c)) {
            (Ok(from), Ok(to)) => (from, to),
            _ => return Err(Refusal::new(FIELD, self.at)),
        };
        self.fields(from < nodes)?;
        self.fields(to < nodes)?;
        Ok(Edge {
            place: self.at,
            transition,
            from,
            to,
            double: record.d == 1,
        })
    }

    // C2.1: expressions, each record before its operands. C2.12: the outermost is at level 1.

    /// C2.2, C2.11: of this sort, or refused with 3.
    fn truth(&mut self, level: usize) -> Result<Truth, Refusal> {
        let record = self.record()?;
        self.fits((TRUE..=AT_MOST).contains(&record.kind))?;
        self.fields(record.zero_except(&[]))?;
        self.within(level <= MOST_LEVELS)?;
        self.advance();
        Ok(match record.kind {
            TRUE => Truth::True,
            FALSE => Truth::False,
            NOT => Truth::Not(Box::new(self.truth(level + 1)?)),
            AND => Truth::And(self.truths(level + 1)?),
            OR => Truth::Or(self.truths(level + 1)?),
            IMPLIES => Truth::Implies(self.truths(level + 1)?),
            IFF => Truth::Iff(self.truths(level + 1)?),
            EQUAL => Truth::Equal(self.numbers(level + 1)?),
            LESS => Truth::Less(self.numbers(level + 1)?),
            _ => Truth::AtMost(self.numbers(level + 1)?),
        })
    }

    fn truths(&mut self, level: usize) -> Result<Box<(Truth, Truth)>, Refusal> {
        let left = self.truth(level)?;
        let right = self.truth(level)?;
        Ok(Box::new((left, right)))
    }

    fn numbers(&mut self, level: usize) -> Result<Box<(Number, Number)>, Refusal> {
        let left = self.number(level)?;
        let right = self.number(level)?;
        Ok(Box::new((left, right)))
    }

    /// C2.2, C2.11, C1.15: the record to be read next, which must begin a number.
    fn number_record(&self, level: usize) -> Result<Record, Refusal> {
        let record = self.record()?;
        self.fits(begins_number(record.kind))?;
        let variable = usize::from(record.a);
        self.fields(match record.kind {
            CONSTANT => record.zero_except(&[Field::B]),
            VALUE => record.zero_except(&[Field::A]) && variable < self.variables.len(),
            _ => record.zero_except(&[]),
        })?;
        self.within(level <= MOST_LEVELS)?;
        Ok(record)
    }

    fn number(&mut self, level: usize) -> Result<Number, Refusal> {
        let place = self.at;
        let record = self.number_record(level)?;
        self.advance();
        Ok(match record.kind {
            CONSTANT => Number::Constant(i32::from(record.b)),
            VALUE => Number::Variable(usize::from(record.a)),
            SUM => Number::Sum(self.pair(place, level + 1)?),
            DIFFERENCE => Number::Difference(self.pair(place, level + 1)?),
            PRODUCT => Number::Product(self.pair(place, level + 1)?),
            QUOTIENT => Number::Quotient(self.division(place, level + 1)?),
            REMAINDER => Number::Remainder(self.division(place, level + 1)?),
            _ => Number::Indicator(Box::new(self.truth(level + 1)?)),
        })
    }

    fn pair(&mut self, place: usize, level: usize) -> Result<Box<Pair>, Refusal> {
        let left = self.number(level)?;
        let right = self.number(level)?;
        Ok(Box::new(Pair { place, left, right }))
    }

    fn division(&mut self, place: usize, level: usize) -> Result<Box<Pair>, Refusal> {
        let left = self.number(level)?;
        let right = self.divisor(level)?;
        Ok(Box::new(Pair { place, left, right }))
    }

    /// C2.15: a constant above 0. C11.2: any other number is refused before its operands are read.
    fn divisor(&mut self, level: usize) -> Result<Number, Refusal> {
        let record = self.number_record(level)?;
        self.divides(record.kind == CONSTANT && record.b > 0)?;
        self.number(level)
    }
}

/// C2.3, C2.4, C2.5, C2.6, C2.14: the kinds of the numbers.
fn begins_number(kind: u8) -> bool {
    matches!(kind, CONSTANT..=INDICATOR | QUOTIENT | REMAINDER)
}

/// C1.11, C11.5: outside of 1..32 the field is refused, not the limit.
fn phases_allowed(b: i16) -> bool {
    (1..=MOST_PHASES).contains(&b)
}

/// C10.6: alike in transition, source and target, whether single or double.
fn repeats(edge: &Edge, before: &Edge) -> bool {
    let same_transition = edge.transition == before.transition;
    same_transition && edge.from == before.from && edge.to == before.to
}
