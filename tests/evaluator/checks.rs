//! The checks on the question as typed: refusals 24, 25, 42 and 26, "each over the whole question".

use std::collections::{HashMap, HashSet};
use std::rc::Rc;

use super::budget::Stop;
use super::terms::{Comprehension, Monoid, Name, Operation, Qualifier, Term};
use super::Lent;

/// "24: a name out of scope or bound twice."
pub fn check_names(question: &Comprehension) -> Result<(), Stop> {
    let mut names = Names {
        bound: HashSet::new(),
        in_scope: Vec::new(),
    };
    names.comprehension(question)
}

struct Names {
    /// "Each name is bound at most once in a question."
    bound: HashSet<Name>,
    in_scope: Vec<Name>,
}

impl Names {
    /// "A name holds from the end of its qualifier to the end of its comprehension."
    fn comprehension(&mut self, inner: &Comprehension) -> Result<(), Stop> {
        let outside = self.in_scope.len();
        for qualifier in &inner.qualifiers {
            self.term(qualifier.term())?;
            match qualifier {
                Qualifier::Generator(name, _) | Qualifier::Binding(name, _) => self.bind(*name)?,
                Qualifier::Condition(_) => {}
            }
        }
        self.term(&inner.head)?;
        self.in_scope.truncate(outside);
        Ok(())
    }

    fn bind(&mut self, name: Name) -> Result<(), Stop> {
        if !self.bound.insert(name) {
            return Err(Stop::Refused(24));
        }
        self.in_scope.push(name);
        Ok(())
    }

    fn term(&mut self, term: &Term) -> Result<(), Stop> {
        match term {
            Term::Name(name) if !self.in_scope.contains(name) => Err(Stop::Refused(24)),
            Term::Comprehension(inner) => self.comprehension(inner),
            _ => term
                .below()
                .into_iter()
                .try_for_each(|part| self.term(part)),
        }
    }
}

/// Types are shared, so that a type of many leaves stays small.
enum Type {
    Number,
    Truth,
    Record(Vec<Rc<Type>>),
    Collection(Monoid, Rc<Type>),
}

/// "25: a type, field or table that does not fit."
const MISFIT: Stop = Stop::Refused(25);

/// 25 over the whole question; E4: "42, a calendar not lent, after 25 in a question"; then "26: a
/// generator its monoid may not have".
pub fn check_types(question: &Comprehension, lent: &Lent) -> Result<(), Stop> {
    let mut types = Types::new(lent);
    types.comprehension(question)?;
    if types.not_lent {
        return Err(Stop::Refused(42));
    }
    if types.forbidden {
        return Err(Stop::Refused(26));
    }
    Ok(())
}

/// E6: whether an accepted question gives "a bag of records (ship, draught), all numbers"; a table's row of two
/// columns is such a record.
pub fn gives_ships(question: &Comprehension, lent: &Lent) -> Result<bool, Stop> {
    let mut types = Types::new(lent);
    let found = types.comprehension(question)?;
    let Type::Collection(Monoid::Bag, element) = found.as_ref() else {
        return Ok(false);
    };
    let Type::Record(fields) = element.as_ref() else {
        return Ok(false);
    };
    Ok(fields.len() == 2 && fields.iter().all(|field| number(field).is_ok()))
}

struct Types<'a> {
    lent: &'a Lent,
    /// Each name is bound once, so one map serves all scopes.
    names: HashMap<Name, Rc<Type>>,
    /// Whether some calendar is not lent.
    not_lent: bool,
    /// Whether some generator may not stand in its monoid.
    forbidden: bool,
}

impl<'a> Types<'a> {
    fn new(lent: &'a Lent) -> Types<'a> {
        Types {
            lent,
            names: HashMap::new(),
            not_lent: false,
            forbidden: false,
        }
    }

    fn comprehension(&mut self, inner: &Comprehension) -> Result<Rc<Type>, Stop> {
        for qualifier in &inner.qualifiers {
            self.qualifier(inner.monoid, qualifier)?;
        }
        let head = self.term(&inner.head)?;
        type_of_comprehension(inner.monoid, head)
    }

    /// "conditions take truths", "a generator takes a collection".
    fn qualifier(&mut self, monoid: Monoid, qualifier: &Qualifier) -> Result<(), Stop> {
        let found = self.term(qualifier.term())?;
        match qualifier {
            Qualifier::Condition(_) => truth(&found),
            Qualifier::Binding(name, _) => {
                self.names.insert(*name, found);
                Ok(())
            }
            Qualifier::Generator(name, _) => {
                let Type::Collection(collection, element) = found.as_ref() else {
                    return Err(MISFIT);
                };
                self.forbidden |= !may_stand(*collection, monoid);
                self.names.insert(*name, element.clone());
                Ok(())
            }
        }
    }

    fn term(&mut self, term: &Term) -> Result<Rc<Type>, Stop> {
        match term {
            Term::Number(_) => Ok(Rc::new(Type::Number)),
            Term::Truth(_) => Ok(Rc::new(Type::Truth)),
            Term::Name(name) => self.names.get(name).cloned().ok_or(MISFIT),
            Term::Field(index, inner) => self.field(*index, inner),
            Term::Record(fields) => {
                let types = fields.iter().map(|field| self.term(field));
                Ok(Rc::new(Type::Record(
                    types.collect::<Result<Vec<_>, Stop>>()?,
                )))
            }
            Term::Binary(operation, left, right) => self.binary(*operation, left, right),
            Term::Not(inner) => {
                let found = self.term(inner)?;
                truth(&found)?;
                Ok(found)
            }
            Term::Choice(truth, first, second) => self.choice(truth, first, second),
            Term::Open(calendar, minute) => self.open_minute(*calendar, minute),
            Term::Comprehension(inner) => self.comprehension(inner),
            Term::Table(number) => self.table(*number),
        }
    }

    /// "field takes a record".
    fn field(&mut self, index: u8, inner: &Term) -> Result<Rc<Type>, Stop> {
        let found = self.term(inner)?;
        let Type::Record(fields) = found.as_ref() else {
            return Err(MISFIT);
        };
        fields.get(usize::from(index)).cloned().ok_or(MISFIT)
    }

    /// "Arithmetic, equal and less take numbers; and, or, not and conditions take truths".
    fn binary(
        &mut self,
        operation: Operation,
        left: &Term,
        right: &Term,
    ) -> Result<Rc<Type>, Stop> {
        let (left, right) = (self.term(left)?, self.term(right)?);
        let takes = match operation {
            Operation::And | Operation::Or => truth,
            _ => number,
        };
        takes(&left)?;
        takes(&right)?;
        Ok(Rc::new(match operation {
            Operation::Plus | Operation::Minus | Operation::Times => Type::Number,
            _ => Type::Truth,
        }))
    }

    /// E2: "a truth, then two numbers or two truths": nothing else fits.
    fn choice(&mut self, decides: &Term, first: &Term, second: &Term) -> Result<Rc<Type>, Stop> {
        truth(self.term(decides)?.as_ref())?;
        let (first, second) = (self.term(first)?, self.term(second)?);
        match (first.as_ref(), second.as_ref()) {
            (Type::Number, Type::Number) | (Type::Truth, Type::Truth) => Ok(first),
            _ => Err(MISFIT),
        }
    }

    /// E4: "one byte of calendar and one number term, and is true when": a truth.
    fn open_minute(&mut self, calendar: u8, minute: &Term) -> Result<Rc<Type>, Stop> {
        number(self.term(minute)?.as_ref())?;
        self.not_lent |= !self.lent.calendars.is_lent(u64::from(calendar));
        Ok(Rc::new(Type::Truth))
    }

    /// A table is a collection of records of as many numbers as it has columns. E9: "naming an absent
    /// number is 25", whichever of 0 to 255 it is.
    fn table(&self, number: u8) -> Result<Rc<Type>, Stop> {
        let table = self.lent.tables.get(&number).ok_or(MISFIT)?;
        let row = table.bounds.iter().map(|_| Rc::new(Type::Number)).collect();
        Ok(Rc::new(Type::Collection(
            table.collection,
            Rc::new(Type::Record(row)),
        )))
    }
}

fn number(found: &Type) -> Result<(), Stop> {
    match found {
        Type::Number => Ok(()),
        _ => Err(MISFIT),
    }
}

fn truth(found: &Type) -> Result<(), Stop> {
    match found {
        Type::Truth => Ok(()),
        _ => Err(MISFIT),
    }
}

/// "Sum and max have number heads, some and all truth heads, the collections any head." Min is max's
/// mirror (E1), so its head is a number too.
fn type_of_comprehension(monoid: Monoid, head: Rc<Type>) -> Result<Rc<Type>, Stop> {
    match monoid {
        Monoid::Sum | Monoid::Max | Monoid::Min => number(&head).map(|()| head),
        Monoid::Some | Monoid::All => truth(&head).map(|()| head),
        Monoid::List | Monoid::Bag | Monoid::Set => Ok(Rc::new(Type::Collection(monoid, head))),
    }
}

/// "A generator over a bag may not stand in a list; one over a set only in set, max, some or
/// all"; E1: min has "max's .. generators".
fn may_stand(collection: Monoid, monoid: Monoid) -> bool {
    match collection {
        Monoid::Bag => monoid != Monoid::List,
        Monoid::Set => monoid.ignores_repeats(),
        _ => true,
    }
}
