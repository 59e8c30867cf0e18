//! "Normal form": the six rules "applied until none applies", and refusal 27.
//!
//! The rules give one result whichever is applied first. They are applied here from the outside
//! inwards and from left to right, so that a term that is dropped in the end is never worked on.
//! A bound name is replaced where it is met; each replacement is a copy whose own names are made
//! new, so that nothing is captured.

use std::collections::{BTreeMap, HashMap, VecDeque};

use super::budget::{Budget, Stop, FAULT};
use super::tables::Tables;
use super::terms::{Comprehension, Monoid, Name, Operation, Qualifier, Term};

/// Terms copied and rules applied before the evaluator gives up.
const STEPS: u64 = 1_000_000;

/// "27: a normal form over 512 nodes".
const MOST_NODES: usize = 512;

/// The normal form of a question that passed 24 to 26, its generators renumbered.
pub fn normal_form(question: &Comprehension, tables: &Tables) -> Result<Comprehension, Stop> {
    let collections = tables
        .iter()
        .map(|(number, table)| (*number, table.collection));
    let mut rewriting = Rewriting {
        collections: collections.collect(),
        bound: HashMap::new(),
        next_name: 256,
        finished: 0,
        budget: Budget::new(STEPS, "too many rewriting steps"),
    };
    let form = rewriting.comprehension(question.clone())?;
    if nodes_of(&form) > MOST_NODES {
        return Err(Stop::Refused(27));
    }
    Ok(renumbered(&form))
}

struct Rewriting {
    /// By the table's number.
    collections: BTreeMap<u8, Monoid>,
    /// The terms of the bound names met so far.
    bound: HashMap<Name, Term>,
    next_name: Name,
    /// Nodes that no rule can change or drop any more.
    finished: usize,
    budget: Budget,
}

impl Rewriting {
    fn comprehension(&mut self, inner: Comprehension) -> Result<Comprehension, Stop> {
        self.finish(1)?;
        let mut waiting: VecDeque<Qualifier> = inner.qualifiers.into();
        let mut qualifiers = Vec::new();
        while let Some(qualifier) = waiting.pop_front() {
            self.budget.spend(1)?;
            match qualifier {
                // Rule 1: the binding goes, its term stands for the name.
                Qualifier::Binding(name, term) => {
                    self.bound.insert(name, term);
                }
                Qualifier::Generator(name, term) => {
                    qualifiers.extend(self.generator(name, term, &mut waiting)?);
                }
                Qualifier::Condition(term) => {
                    qualifiers.extend(self.condition(inner.monoid, term, &mut waiting)?);
                }
            }
        }
        let head = self.term(inner.head)?;
        Ok(Comprehension {
            monoid: inner.monoid,
            qualifiers,
            head,
        })
    }

    /// Rule 5: "a generator over a comprehension gives way to that comprehension's qualifiers,
    /// its name standing for the head". Answers the generator where it stays.
    fn generator(
        &mut self,
        name: Name,
        term: Term,
        waiting: &mut VecDeque<Qualifier>,
    ) -> Result<Option<Qualifier>, Stop> {
        match self.outermost(term, Place::OfGenerator)? {
            Term::Comprehension(inner) => {
                waiting.push_front(Qualifier::Binding(name, inner.head));
                put_in_front(waiting, inner.qualifiers);
                Ok(None)
            }
            // "Every generator left ranges over a table."
            Term::Table(number) => {
                self.finish(2)?;
                Ok(Some(Qualifier::Generator(name, Term::Table(number))))
            }
            _ => Err(FAULT),
        }
    }

    /// Rules 4 and 6. Answers the condition where it stays.
    fn condition(
        &mut self,
        monoid: Monoid,
        term: Term,
        waiting: &mut VecDeque<Qualifier>,
    ) -> Result<Option<Qualifier>, Stop> {
        match self.outermost(term, Place::Elsewhere)? {
            // "an "and" condition becomes two"
            Term::Binary(Operation::And, left, right) => {
                waiting.push_front(Qualifier::Condition(*right));
                waiting.push_front(Qualifier::Condition(*left));
                Ok(None)
            }
            // "a condition that is a "some" comprehension, directly in set, max, some or all,
            // gives way to its qualifiers and then its head as a condition"; in min too (E1)
            Term::Comprehension(inner)
                if inner.monoid == Monoid::Some && monoid.ignores_repeats() =>
            {
                waiting.push_front(Qualifier::Condition(inner.head));
                put_in_front(waiting, inner.qualifiers);
                Ok(None)
            }
            stays => {
                self.finish(1)?;
                Ok(Some(Qualifier::Condition(self.parts(stays)?)))
            }
        }
    }

    /// A term in normal form.
    fn term(&mut self, term: Term) -> Result<Term, Stop> {
        let term = self.outermost(term, Place::Elsewhere)?;
        self.parts(term)
    }

    /// Applies rules 1, 2 and 3 at the root of a term until none applies there.
    fn outermost(&mut self, term: Term, place: Place) -> Result<Term, Stop> {
        let mut term = term;
        loop {
            self.budget.spend(1)?;
            term = match term {
                // Rule 1: "a bound name is replaced by its term".
                Term::Name(name) => match self.bound.get(&name).cloned() {
                    Some(bound) => self.copy(&bound, &mut HashMap::new())?,
                    None => return Ok(Term::Name(name)),
                },
                // Rule 2: "a field of a record becomes that term".
                Term::Field(index, inner) => match self.outermost(*inner, Place::Elsewhere)? {
                    Term::Record(fields) => {
                        fields.into_iter().nth(usize::from(index)).ok_or(FAULT)?
                    }
                    stays => return Ok(Term::Field(index, Box::new(stays))),
                },
                Term::Table(number) if place == Place::Elsewhere => self.table(number)?,
                stays => return Ok(stays),
            }
        }
    }

    /// Rule 3: "a table that is not a generator's term becomes the comprehension of its own
    /// collection whose one generator ranges over it and whose head is that generator's name".
    fn table(&mut self, number: u8) -> Result<Term, Stop> {
        let monoid = *self.collections.get(&number).ok_or(FAULT)?;
        let name = self.new_name();
        Ok(Term::Comprehension(Box::new(Comprehension {
            monoid,
            qualifiers: vec![Qualifier::Generator(name, Term::Table(number))],
            head: Term::Name(name),
        })))
    }

    /// Brings the parts of a term to normal form, no rule applying at its root.
    fn parts(&mut self, term: Term) -> Result<Term, Stop> {
        if let Term::Comprehension(inner) = term {
            return Ok(Term::Comprehension(Box::new(self.comprehension(*inner)?)));
        }
        self.finish(1)?;
        Ok(match term {
            Term::Field(index, inner) => Term::Field(index, Box::new(self.term(*inner)?)),
            Term::Record(fields) => {
                let fields = fields.into_iter().map(|field| self.term(field));
                Term::Record(fields.collect::<Result<Vec<_>, Stop>>()?)
            }
            Term::Binary(operation, left, right) => {
                let left = Box::new(self.term(*left)?);
                Term::Binary(operation, left, Box::new(self.term(*right)?))
            }
            Term::Not(inner) => Term::Not(Box::new(self.term(*inner)?)),
            // No rule is about a choice: it stays, whatever its truth, also as a condition (E2).
            Term::Choice(truth, first, second) => {
                let truth = Box::new(self.term(*truth)?);
                let first = Box::new(self.term(*first)?);
                Term::Choice(truth, first, Box::new(self.term(*second)?))
            }
            Term::Open(calendar, minute) => Term::Open(calendar, Box::new(self.term(*minute)?)),
            single => single,
        })
    }

    /// Counts nodes that stay; ends early once there are certainly too many.
    fn finish(&mut self, nodes: usize) -> Result<(), Stop> {
        self.finished = self.finished.saturating_add(nodes);
        if self.finished > MOST_NODES {
            return Err(Stop::Refused(27));
        }
        Ok(())
    }

    fn new_name(&mut self) -> Name {
        let name = self.next_name;
        self.next_name = self.next_name.saturating_add(1);
        name
    }

    /// A copy whose own names are new; the map takes old names to new ones.
    fn copy(&mut self, term: &Term, names: &mut HashMap<Name, Name>) -> Result<Term, Stop> {
        self.budget.spend(1)?;
        Ok(match term {
            Term::Number(_) | Term::Truth(_) | Term::Table(_) => term.clone(),
            Term::Name(name) => Term::Name(names.get(name).copied().unwrap_or(*name)),
            Term::Field(index, inner) => Term::Field(*index, Box::new(self.copy(inner, names)?)),
            Term::Record(fields) => {
                let fields = fields.iter().map(|field| self.copy(field, names));
                Term::Record(fields.collect::<Result<Vec<_>, Stop>>()?)
            }
            Term::Binary(operation, left, right) => {
                let left = Box::new(self.copy(left, names)?);
                Term::Binary(*operation, left, Box::new(self.copy(right, names)?))
            }
            Term::Not(inner) => Term::Not(Box::new(self.copy(inner, names)?)),
            Term::Choice(truth, first, second) => {
                let truth = Box::new(self.copy(truth, names)?);
                let first = Box::new(self.copy(first, names)?);
                Term::Choice(truth, first, Box::new(self.copy(second, names)?))
            }
            Term::Open(calendar, minute) => {
                Term::Open(*calendar, Box::new(self.copy(minute, names)?))
            }
            Term::Comprehension(inner) => {
                let qualifiers = inner.qualifiers.iter();
                let qualifiers = qualifiers.map(|qualifier| self.copy_qualifier(qualifier, names));
                let qualifiers = qualifiers.collect::<Result<Vec<_>, Stop>>()?;
                let head = self.copy(&inner.head, names)?;
                let monoid = inner.monoid;
                Term::Comprehension(Box::new(Comprehension {
                    monoid,
                    qualifiers,
                    head,
                }))
            }
        })
    }

    fn copy_qualifier(
        &mut self,
        qualifier: &Qualifier,
        names: &mut HashMap<Name, Name>,
    ) -> Result<Qualifier, Stop> {
        self.budget.spend(1)?;
        let term = self.copy(qualifier.term(), names)?;
        Ok(match qualifier {
            Qualifier::Generator(name, _) => Qualifier::Generator(self.rename(*name, names), term),
            Qualifier::Binding(name, _) => Qualifier::Binding(self.rename(*name, names), term),
            Qualifier::Condition(_) => Qualifier::Condition(term),
        })
    }

    fn rename(&mut self, name: Name, names: &mut HashMap<Name, Name>) -> Name {
        let new = self.new_name();
        names.insert(name, new);
        new
    }
}

/// Where a term stands, as far as rule 3 asks.
#[derive(Clone, Copy, PartialEq, Eq)]
enum Place {
    OfGenerator,
    Elsewhere,
}

fn put_in_front(waiting: &mut VecDeque<Qualifier>, qualifiers: Vec<Qualifier>) {
    for qualifier in qualifiers.into_iter().rev() {
        waiting.push_front(qualifier);
    }
}

/// "each term, comprehension and qualifier being one, copies counted".
pub fn nodes_of(inner: &Comprehension) -> usize {
    let mut nodes = nodes_of_term(&inner.head).saturating_add(1);
    for qualifier in &inner.qualifiers {
        nodes = nodes
            .saturating_add(1)
            .saturating_add(nodes_of_term(qualifier.term()));
    }
    nodes
}

fn nodes_of_term(term: &Term) -> usize {
    match term {
        Term::Comprehension(inner) => nodes_of(inner),
        _ => term
            .below()
            .into_iter()
            .map(nodes_of_term)
            .fold(1, usize::saturating_add),
    }
}

/// "Generators are renumbered from 0 in written order."
fn renumbered(form: &Comprehension) -> Comprehension {
    renumbered_below(form, &mut HashMap::new())
}

fn renumbered_below(inner: &Comprehension, names: &mut HashMap<Name, Name>) -> Comprehension {
    let mut qualifiers = Vec::new();
    for qualifier in &inner.qualifiers {
        let qualifier = match qualifier {
            Qualifier::Generator(name, term) => {
                let number = Name::try_from(names.len()).unwrap_or(Name::MAX);
                names.insert(*name, number);
                Qualifier::Generator(number, term.clone())
            }
            Qualifier::Binding(name, term) => {
                Qualifier::Binding(*name, renumbered_term(term, names))
            }
            Qualifier::Condition(term) => Qualifier::Condition(renumbered_term(term, names)),
        };
        qualifiers.push(qualifier);
    }
    let head = renumbered_term(&inner.head, names);
    Comprehension {
        monoid: inner.monoid,
        qualifiers,
        head,
    }
}

fn renumbered_term(term: &Term, names: &mut HashMap<Name, Name>) -> Term {
    match term {
        Term::Name(name) => Term::Name(names.get(name).copied().unwrap_or(*name)),
        Term::Field(index, inner) => Term::Field(*index, Box::new(renumbered_term(inner, names))),
        Term::Record(fields) => Term::Record(
            fields
                .iter()
                .map(|field| renumbered_term(field, names))
                .collect(),
        ),
        Term::Binary(operation, left, right) => {
            let left = Box::new(renumbered_term(left, names));
            Term::Binary(*operation, left, Box::new(renumbered_term(right, names)))
        }
        Term::Not(inner) => Term::Not(Box::new(renumbered_term(inner, names))),
        Term::Choice(truth, first, second) => {
            let truth = Box::new(renumbered_term(truth, names));
            let first = Box::new(renumbered_term(first, names));
            Term::Choice(truth, first, Box::new(renumbered_term(second, names)))
        }
        Term::Open(calendar, minute) => {
            Term::Open(*calendar, Box::new(renumbered_term(minute, names)))
        }
        Term::Comprehension(inner) => Term::Comprehension(Box::new(renumbered_below(inner, names))),
        Term::Number(_) | Term::Truth(_) | Term::Table(_) => term.clone(),
    }
}

/// Whether none of the six rules applies anywhere, and each generator ranges over a table: the
/// test of a normal form that does not look at how it was reached.
pub fn no_rule_applies(inner: &Comprehension) -> bool {
    let qualifier_is_normal = |qualifier: &Qualifier| match qualifier {
        Qualifier::Binding(_, _) => false,
        Qualifier::Generator(_, term) => matches!(term, Term::Table(_)),
        Qualifier::Condition(term) => condition_is_normal(inner.monoid, term),
    };
    inner.qualifiers.iter().all(qualifier_is_normal) && term_is_normal(&inner.head)
}

fn condition_is_normal(monoid: Monoid, term: &Term) -> bool {
    let gives_way = match term {
        Term::Binary(Operation::And, _, _) => true,
        Term::Comprehension(inner) => inner.monoid == Monoid::Some && monoid.ignores_repeats(),
        _ => false,
    };
    !gives_way && term_is_normal(term)
}

fn term_is_normal(term: &Term) -> bool {
    match term {
        Term::Table(_) => false,
        Term::Field(_, inner) if matches!(inner.as_ref(), Term::Record(_)) => false,
        Term::Comprehension(inner) => no_rule_applies(inner),
        _ => term.below().into_iter().all(term_is_normal),
    }
}
