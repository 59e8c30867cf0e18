//! "Bound of a number", and refusal 28.

use std::collections::HashMap;

use super::budget::{Stop, FAULT};
use super::tables::{Table, Tables};
use super::terms::{Comprehension, Monoid, Name, Operation, Qualifier, Term};

/// "28: a number in the normal form with bound over 2^62."
const GREATEST: u128 = 1 << 62;

/// Judges each number of a normal form.
pub fn check_bounds(form: &Comprehension, tables: &Tables) -> Result<(), Stop> {
    let mut bounds = Bounds {
        tables,
        ranges: HashMap::new(),
    };
    bounds.of_comprehension(form).map(|_| ())
}

struct Bounds<'a> {
    tables: &'a Tables,
    /// The tables that the generators met so far range over. Each has a number of its own, so one map
    /// serves all scopes.
    ranges: HashMap<Name, &'a Table>,
}

impl Bounds<'_> {
    /// The bound of a number, or nothing for a term that is no number.
    fn of(&mut self, term: &Term) -> Result<Option<u128>, Stop> {
        let bound = match term {
            Term::Comprehension(inner) => return self.of_comprehension(inner),
            // "a constant its magnitude"
            Term::Number(number) => Some(u128::from(number.unsigned_abs())),
            Term::Field(index, inner) => Some(self.of_cell(*index, inner)?),
            Term::Binary(operation, left, right) => self.of_binary(*operation, left, right)?,
            Term::Choice(truth, first, second) => self.of_choice(truth, first, second)?,
            Term::Truth(_) | Term::Name(_) | Term::Table(_) => None,
            // A truth has no bound, its minute has one (E4).
            Term::Record(_) | Term::Not(_) | Term::Open(_, _) => {
                for part in term.below() {
                    self.of(part)?;
                }
                None
            }
        };
        within(bound)
    }

    /// "a cell 2^31"; E5: "the bound rule" uses the column's bound "for 2^31". In normal form each
    /// field left is a cell of the row that a generator's name stands for.
    fn of_cell(&self, index: u8, row: &Term) -> Result<u128, Stop> {
        let Term::Name(name) = row else {
            return Err(FAULT);
        };
        let table = self.ranges.get(name).ok_or(FAULT)?;
        let bound = table.bounds.get(usize::from(index)).ok_or(FAULT)?;
        Ok(u128::from(*bound))
    }

    /// "plus and minus the sum; times the product". A bound that does not fit is the greatest there
    /// is, and over 2^62 all the same.
    fn of_binary(
        &mut self,
        operation: Operation,
        left: &Term,
        right: &Term,
    ) -> Result<Option<u128>, Stop> {
        let (left, right) = (self.of(left)?, self.of(right)?);
        Ok(match operation {
            Operation::Plus | Operation::Minus => {
                Some(left.ok_or(FAULT)?.saturating_add(right.ok_or(FAULT)?))
            }
            Operation::Times => Some(left.ok_or(FAULT)?.saturating_mul(right.ok_or(FAULT)?)),
            _ => None,
        })
    }

    /// E2: "Its bound is the larger one", of the two numbers. Numbers in the truth and in both others
    /// are judged by themselves, whatever the truth; a choice of truths has no bound.
    fn of_choice(
        &mut self,
        truth: &Term,
        first: &Term,
        second: &Term,
    ) -> Result<Option<u128>, Stop> {
        self.of(truth)?;
        match (self.of(first)?, self.of(second)?) {
            (Some(first), Some(second)) => Ok(Some(first.max(second))),
            (None, None) => Ok(None),
            _ => Err(FAULT),
        }
    }

    /// "max its head's; sum its head's times 1,024 for each generator", however many rows there are;
    /// E1: "The bound of a max is still its head's", and min has "max's bound".
    fn of_comprehension(&mut self, inner: &Comprehension) -> Result<Option<u128>, Stop> {
        let mut times: u128 = 1;
        for qualifier in &inner.qualifiers {
            match qualifier {
                Qualifier::Generator(name, term) => {
                    self.range(*name, term)?;
                    times = times.saturating_mul(1024);
                }
                Qualifier::Binding(_, term) | Qualifier::Condition(term) => {
                    self.of(term)?;
                }
            }
        }
        let head = self.of(&inner.head)?;
        within(match inner.monoid {
            Monoid::Sum => Some(head.ok_or(FAULT)?.saturating_mul(times)),
            Monoid::Max | Monoid::Min => head,
            _ => None,
        })
    }

    /// "Every generator left ranges over a table."
    fn range(&mut self, name: Name, term: &Term) -> Result<(), Stop> {
        let Term::Table(number) = term else {
            return Err(FAULT);
        };
        let table = self.tables.get(number).ok_or(FAULT)?;
        self.ranges.insert(name, table);
        Ok(())
    }
}

fn within(bound: Option<u128>) -> Result<Option<u128>, Stop> {
    match bound {
        Some(bound) if bound > GREATEST => Err(Stop::Refused(28)),
        _ => Ok(bound),
    }
}
