//! A file as a data structure: what reading yields.

/// C1.6: a variable's range, both ends included.
#[derive(Clone, Copy, Debug, PartialEq, Eq)]
pub struct Variable {
    pub low: i16,
    pub high: i16,
}

impl Variable {
    /// C4.3: how many values the range has.
    pub fn size(&self) -> usize {
        (i32::from(self.high) - i32::from(self.low) + 1) as usize
    }
}

/// C2.3, C2.4, C2.5, C2.6, C2.14: a number expression.
#[derive(Clone, Debug, PartialEq, Eq)]
pub enum Number {
    Constant(i32),
    Variable(usize),
    Sum(Box<Pair>),
    Difference(Box<Pair>),
    Product(Box<Pair>),
    Indicator(Box<Truth>),
    Quotient(Box<Pair>),
    Remainder(Box<Pair>),
}

/// The operands of a sum, difference, product, quotient or remainder, and the number of its record.
/// C2.15: the right one of a quotient or remainder is a constant above 0.
#[derive(Clone, Debug, PartialEq, Eq)]
pub struct Pair {
    pub place: usize,
    pub left: Number,
    pub right: Number,
}

/// C2.7, C2.8, C2.9, C2.10: a truth expression.
#[derive(Clone, Debug, PartialEq, Eq)]
pub enum Truth {
    True,
    False,
    Not(Box<Truth>),
    And(Box<(Truth, Truth)>),
    Or(Box<(Truth, Truth)>),
    Implies(Box<(Truth, Truth)>),
    Iff(Box<(Truth, Truth)>),
    Equal(Box<(Number, Number)>),
    Less(Box<(Number, Number)>),
    AtMost(Box<(Number, Number)>),
}

/// C1.9.
#[derive(Clone, Debug, PartialEq, Eq)]
pub struct Assignment {
    pub variable: usize,
    pub value: Number,
}

/// C1.16: a variable, and the values that it may take, both ends included.
#[derive(Clone, Copy, Debug, PartialEq, Eq)]
pub struct Pick {
    pub variable: usize,
    pub low: i16,
    pub high: i16,
}

/// C1.8, and the number of its record; C5.5: whether it is just. Assignments and picks are in file
/// order each; C1.17: no two are for one variable.
#[derive(Clone, Debug, PartialEq, Eq)]
pub struct Transition {
    pub place: usize,
    pub just: bool,
    pub guard: Truth,
    pub assignments: Vec<Assignment>,
    pub picks: Vec<Pick>,
}

impl Transition {
    /// C5.3: how many combinations its picks have, 1 without a pick. C10.22 multiplies so too.
    pub fn combinations(&self) -> usize {
        let values = |pick: &Pick| (i32::from(pick.high) - i32::from(pick.low) + 1) as usize;
        self.picks.iter().map(values).fold(1, usize::saturating_mul)
    }
}

/// C1.10, C1.12: the property, by what it claims.
#[derive(Clone, Debug, PartialEq, Eq)]
pub enum Claim {
    Invariance { q: Truth },
    WaitFor { p: Truth, q: Vec<Truth> },
    Chain { p: Truth, q: Truth },
}

/// C1.14: an edge, and the number of its record.
#[derive(Clone, Copy, Debug, PartialEq, Eq)]
pub struct Edge {
    pub place: usize,
    pub transition: usize,
    pub from: usize,
    pub to: usize,
    pub double: bool,
}

/// C1.5: a file, its parts in file order; the nodes are their assertions.
#[derive(Clone, Debug, PartialEq, Eq)]
pub struct File {
    pub variables: Vec<Variable>,
    pub start: Truth,
    pub transitions: Vec<Transition>,
    pub claim: Claim,
    pub nodes: Vec<Truth>,
    pub edges: Vec<Edge>,
}

impl File {
    /// C4.3: the number of states.
    pub fn states(&self) -> usize {
        self.variables.iter().map(Variable::size).product()
    }

    /// The edges from a node labelled with a transition.
    pub fn edges_from(&self, node: usize, transition: usize) -> impl Iterator<Item = &Edge> {
        let labelled = move |edge: &&Edge| edge.from == node && edge.transition == transition;
        self.edges.iter().filter(labelled)
    }

    /// The transition of the node's double edges, if it has any. C9.7: there is one at most.
    pub fn double_transition(&self, node: usize) -> Option<usize> {
        let mut doubles = self.edges.iter().filter(|edge| edge.double);
        let edge = doubles.find(|edge| edge.from == node)?;
        Some(edge.transition)
    }
}
