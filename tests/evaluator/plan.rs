//! "The plan": made from the normal form, and its lines.

use std::collections::HashMap;

use super::budget::{Stop, FAULT};
use super::terms::{Comprehension, Monoid, Name, Operation, Qualifier, Term};

/// A term of the plan: "no condition or head in it has a comprehension, a name or a table".
#[derive(Clone, Debug, PartialEq, Eq)]
pub enum PlanTerm {
    Number(i32),
    Truth(bool),
    /// "$n is place n".
    Place(usize),
    Field(u8, Box<PlanTerm>),
    Record(Vec<PlanTerm>),
    Binary(Operation, Box<PlanTerm>, Box<PlanTerm>),
    Not(Box<PlanTerm>),
    Choice(Box<PlanTerm>, Box<PlanTerm>, Box<PlanTerm>),
    Open(u8, Box<PlanTerm>),
}

/// What a join or an outer ranges over.
#[derive(Clone, Copy, Debug, PartialEq, Eq)]
pub enum Source {
    Table(u8),
    /// ""unit", a table of one row of no columns".
    Unit,
}

#[derive(Clone, Debug, PartialEq, Eq)]
pub enum Operator {
    One,
    Join {
        source: Source,
        condition: PlanTerm,
    },
    Outer {
        source: Source,
        condition: PlanTerm,
    },
    Nest {
        kept: usize,
        monoid: Monoid,
        head: PlanTerm,
        condition: PlanTerm,
    },
    Reduce {
        monoid: Monoid,
        head: PlanTerm,
        condition: PlanTerm,
    },
}

/// "This is the question's plan, and the only one".
pub fn make_plan(form: &Comprehension) -> Result<Vec<Operator>, Stop> {
    let mut planner = Planner {
        operators: vec![Operator::One],
        places: HashMap::new(),
        width: 0,
    };
    let (head, condition) = planner.comprehension(form, Role::Outermost)?;
    planner.operators.push(Operator::Reduce {
        monoid: form.monoid,
        head,
        condition,
    });
    Ok(planner.operators)
}

#[derive(Clone, Copy, PartialEq, Eq)]
enum Role {
    Outermost,
    Inner,
}

struct Planner {
    operators: Vec<Operator>,
    /// The place of each generator planned so far.
    places: HashMap<Name, usize>,
    /// Places of the stream's rows.
    width: usize,
}

impl Planner {
    /// Plans the generators and the inner comprehensions; answers the head and the condition of
    /// the nest or reduce.
    fn comprehension(
        &mut self,
        inner: &Comprehension,
        role: Role,
    ) -> Result<(PlanTerm, PlanTerm), Stop> {
        self.generators(inner, role)?;
        let mut conditions = Vec::new();
        for condition in conditions_of(inner).filter(|term| term.holds_comprehension()) {
            conditions.push(self.term(condition)?);
        }
        let head = self.term(&inner.head)?;
        Ok((head, joined_by_and(conditions)))
    }

    /// "Each generator of the outermost comprehension is a join"; "outer for each generator" of
    /// an inner one.
    fn generators(&mut self, inner: &Comprehension, role: Role) -> Result<(), Stop> {
        let generators = generators_of(inner)?;
        for (position, (name, source)) in generators.iter().enumerate() {
            if let Some(name) = name {
                self.places.insert(*name, self.width);
            }
            self.width = self.width.saturating_add(1);
            let mut conditions = Vec::new();
            for condition in conditions_of(inner).filter(|term| !term.holds_comprehension()) {
                if generator_for(condition, &generators) == position {
                    conditions.push(self.term(condition)?);
                }
            }
            let (source, condition) = (*source, joined_by_and(conditions));
            self.operators.push(match role {
                Role::Outermost => Operator::Join { source, condition },
                Role::Inner => Operator::Outer { source, condition },
            });
        }
        Ok(())
    }

    /// A term of the plan; "each inner comprehension ... left to right, is planned on the
    /// stream", and "its value takes its place in the term".
    fn term(&mut self, term: &Term) -> Result<PlanTerm, Stop> {
        Ok(match term {
            Term::Number(number) => PlanTerm::Number(*number),
            Term::Truth(truth) => PlanTerm::Truth(*truth),
            Term::Name(name) => PlanTerm::Place(*self.places.get(name).ok_or(FAULT)?),
            Term::Field(index, inner) => PlanTerm::Field(*index, Box::new(self.term(inner)?)),
            Term::Record(fields) => {
                let fields = fields.iter().map(|field| self.term(field));
                PlanTerm::Record(fields.collect::<Result<Vec<_>, Stop>>()?)
            }
            Term::Binary(operation, left, right) => {
                let left = Box::new(self.term(left)?);
                PlanTerm::Binary(*operation, left, Box::new(self.term(right)?))
            }
            Term::Not(inner) => PlanTerm::Not(Box::new(self.term(inner)?)),
            // E2: "Comprehensions inside it are planned in written order", all of them.
            Term::Choice(truth, first, second) => {
                let truth = Box::new(self.term(truth)?);
                let first = Box::new(self.term(first)?);
                PlanTerm::Choice(truth, first, Box::new(self.term(second)?))
            }
            Term::Open(calendar, minute) => PlanTerm::Open(*calendar, Box::new(self.term(minute)?)),
            Term::Comprehension(inner) => self.nest(inner)?,
            Term::Table(_) => return Err(FAULT),
        })
    }

    /// "outer for each generator, its own inner ones, nest": the value's place is k.
    fn nest(&mut self, inner: &Comprehension) -> Result<PlanTerm, Stop> {
        let kept = self.width;
        let (head, condition) = self.comprehension(inner, Role::Inner)?;
        self.operators.push(Operator::Nest {
            kept,
            monoid: inner.monoid,
            head,
            condition,
        });
        self.width = kept.saturating_add(1);
        Ok(PlanTerm::Place(kept))
    }
}

/// The generators in written order; "a comprehension without generators is planned as if it had
/// one, over "unit"".
fn generators_of(inner: &Comprehension) -> Result<Vec<(Option<Name>, Source)>, Stop> {
    let mut generators = Vec::new();
    for qualifier in &inner.qualifiers {
        match qualifier {
            Qualifier::Generator(name, Term::Table(number)) => {
                generators.push((Some(*name), Source::Table(*number)));
            }
            Qualifier::Condition(_) => {}
            _ => return Err(FAULT),
        }
    }
    if generators.is_empty() {
        generators.push((None, Source::Unit));
    }
    Ok(generators)
}

fn conditions_of(inner: &Comprehension) -> impl Iterator<Item = &Term> {
    inner
        .qualifiers
        .iter()
        .filter_map(|qualifier| match qualifier {
            Qualifier::Condition(term) => Some(term),
            _ => None,
        })
}

/// "A condition free of comprehensions goes to the last generator of its comprehension that it
/// mentions, else the first."
fn generator_for(condition: &Term, generators: &[(Option<Name>, Source)]) -> usize {
    let mentioned = |(name, _): &(Option<Name>, Source)| match name {
        Some(name) => condition.mentions(*name),
        None => false,
    };
    generators.iter().rposition(mentioned).unwrap_or(0)
}

/// "several are joined by "and", leftmost innermost"; "no condition is true".
fn joined_by_and(conditions: Vec<PlanTerm>) -> PlanTerm {
    let joined = conditions
        .into_iter()
        .reduce(|left, right| PlanTerm::Binary(Operation::And, Box::new(left), Box::new(right)));
    joined.unwrap_or(PlanTerm::Truth(true))
}

/// The plan's lines "from "one" to "reduce" with byte 10 after each".
pub fn lines_of(plan: &[Operator]) -> String {
    plan.iter()
        .map(|operator| line_of(operator) + "\n")
        .collect()
}

/// "join and outer give table (or unit) and condition; nest gives k, monoid, head, condition;
/// reduce the last three".
fn line_of(operator: &Operator) -> String {
    match operator {
        Operator::One => "one".to_string(),
        Operator::Join { source, condition } => {
            format!("join {} {}", word_of_source(*source), text_of(condition))
        }
        Operator::Outer { source, condition } => {
            format!("outer {} {}", word_of_source(*source), text_of(condition))
        }
        Operator::Nest {
            kept,
            monoid,
            head,
            condition,
        } => {
            format!(
                "nest {} {} {} {}",
                kept,
                monoid.word(),
                text_of(head),
                text_of(condition)
            )
        }
        Operator::Reduce {
            monoid,
            head,
            condition,
        } => {
            format!(
                "reduce {} {} {}",
                monoid.word(),
                text_of(head),
                text_of(condition)
            )
        }
    }
}

fn word_of_source(source: Source) -> String {
    match source {
        Source::Table(number) => number.to_string(),
        Source::Unit => "unit".to_string(),
    }
}

/// "terms are prefix: . (field, index first), rec, +, -, *, =, <, and, or, not; numbers decimal,
/// truths true or false"; E2: a choice "prints as (if c a b)"; E4: "Kind 21 prints as (open n e)".
fn text_of(term: &PlanTerm) -> String {
    match term {
        PlanTerm::Number(number) => number.to_string(),
        PlanTerm::Truth(truth) => truth.to_string(),
        PlanTerm::Place(place) => format!("${place}"),
        PlanTerm::Field(index, inner) => format!("(. {} {})", index, text_of(inner)),
        PlanTerm::Record(fields) => {
            let fields: String = fields
                .iter()
                .map(|field| format!(" {}", text_of(field)))
                .collect();
            format!("(rec{fields})")
        }
        PlanTerm::Binary(operation, left, right) => {
            format!(
                "({} {} {})",
                operation.word(),
                text_of(left),
                text_of(right)
            )
        }
        PlanTerm::Not(inner) => format!("(not {})", text_of(inner)),
        PlanTerm::Choice(truth, first, second) => {
            format!(
                "(if {} {} {})",
                text_of(truth),
                text_of(first),
                text_of(second)
            )
        }
        PlanTerm::Open(calendar, minute) => format!("(open {calendar} {})", text_of(minute)),
    }
}
