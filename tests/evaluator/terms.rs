//! Questions as trees.

/// A name: 0 to 255 in a typed question, any number in a tree that is being rewritten.
pub type Name = u32;

/// "Monoids, with the value over nothing", and request E1's "monoid 8, min". The first three are also
/// the collections.
#[derive(Clone, Copy, Debug, PartialEq, Eq)]
pub enum Monoid {
    List,
    Bag,
    Set,
    Sum,
    Max,
    Some,
    All,
    Min,
}

impl Monoid {
    /// The monoid of a byte: "1 list, 2 bag, 3 set .. 4 sum .. 5 max .. 6 some .. 7 all"; E1: "Add
    /// monoid 8, min".
    pub fn of_byte(byte: u8) -> Option<Monoid> {
        match byte {
            1 => Some(Monoid::List),
            2 => Some(Monoid::Bag),
            3 => Some(Monoid::Set),
            4 => Some(Monoid::Sum),
            5 => Some(Monoid::Max),
            6 => Some(Monoid::Some),
            7 => Some(Monoid::All),
            8 => Some(Monoid::Min),
            _ => None,
        }
    }

    pub fn is_collection(self) -> bool {
        matches!(self, Monoid::List | Monoid::Bag | Monoid::Set)
    }

    /// "set, max, some or all": the monoids that do not see repeats. E1: min has "max's .. generators
    /// and rule for "some" conditions".
    pub fn ignores_repeats(self) -> bool {
        matches!(
            self,
            Monoid::Set | Monoid::Max | Monoid::Min | Monoid::Some | Monoid::All
        )
    }

    /// The word of the plan's lines; E1: "print it as "min"".
    pub fn word(self) -> &'static str {
        match self {
            Monoid::List => "list",
            Monoid::Bag => "bag",
            Monoid::Set => "set",
            Monoid::Sum => "sum",
            Monoid::Max => "max",
            Monoid::Some => "some",
            Monoid::All => "all",
            Monoid::Min => "min",
        }
    }
}

/// "6 plus, 7 minus, 8 times, 9 equal, 10 less, 11 and, 12 or".
#[derive(Clone, Copy, Debug, PartialEq, Eq)]
pub enum Operation {
    Plus,
    Minus,
    Times,
    Equal,
    Less,
    And,
    Or,
}

impl Operation {
    /// The operation of a record kind.
    pub fn of_kind(kind: u16) -> Option<Operation> {
        match kind {
            6 => Some(Operation::Plus),
            7 => Some(Operation::Minus),
            8 => Some(Operation::Times),
            9 => Some(Operation::Equal),
            10 => Some(Operation::Less),
            11 => Some(Operation::And),
            12 => Some(Operation::Or),
            _ => None,
        }
    }

    /// The word of the plan's lines.
    pub fn word(self) -> &'static str {
        match self {
            Operation::Plus => "+",
            Operation::Minus => "-",
            Operation::Times => "*",
            Operation::Equal => "=",
            Operation::Less => "<",
            Operation::And => "and",
            Operation::Or => "or",
        }
    }
}

#[derive(Clone, Debug, PartialEq, Eq)]
pub enum Term {
    Number(i32),
    Truth(bool),
    Name(Name),
    Field(u8, Box<Term>),
    Record(Vec<Term>),
    Binary(Operation, Box<Term>, Box<Term>),
    Not(Box<Term>),
    /// Request E2's "kind 19, three terms: a truth, then two numbers or two truths".
    Choice(Box<Term>, Box<Term>, Box<Term>),
    /// Request E4's "Kind 21 holds one byte of calendar and one number term".
    Open(u8, Box<Term>),
    Comprehension(Box<Comprehension>),
    Table(u8),
}

#[derive(Clone, Debug, PartialEq, Eq)]
pub struct Comprehension {
    pub monoid: Monoid,
    pub qualifiers: Vec<Qualifier>,
    pub head: Term,
}

#[derive(Clone, Debug, PartialEq, Eq)]
pub enum Qualifier {
    Generator(Name, Term),
    Binding(Name, Term),
    Condition(Term),
}

impl Qualifier {
    pub fn term(&self) -> &Term {
        match self {
            Qualifier::Generator(_, term) | Qualifier::Binding(_, term) => term,
            Qualifier::Condition(term) => term,
        }
    }
}

impl Term {
    /// The terms directly below this one, left to right; a comprehension's are those of its
    /// qualifiers and then its head.
    pub fn below(&self) -> Vec<&Term> {
        match self {
            Term::Number(_) | Term::Truth(_) | Term::Name(_) | Term::Table(_) => Vec::new(),
            Term::Field(_, inner) | Term::Not(inner) | Term::Open(_, inner) => {
                vec![inner.as_ref()]
            }
            Term::Record(fields) => fields.iter().collect(),
            Term::Binary(_, left, right) => vec![left.as_ref(), right.as_ref()],
            Term::Choice(truth, first, second) => {
                vec![truth.as_ref(), first.as_ref(), second.as_ref()]
            }
            Term::Comprehension(inner) => {
                let mut terms: Vec<&Term> = inner.qualifiers.iter().map(Qualifier::term).collect();
                terms.push(&inner.head);
                terms
            }
        }
    }

    /// Whether a comprehension stands in this term.
    pub fn holds_comprehension(&self) -> bool {
        matches!(self, Term::Comprehension(_))
            || self.below().into_iter().any(Term::holds_comprehension)
    }

    /// Whether this term mentions the name.
    pub fn mentions(&self, name: Name) -> bool {
        matches!(self, Term::Name(other) if *other == name)
            || self.below().into_iter().any(|term| term.mentions(name))
    }
}
