//! What a run over many inputs counts and prints, and whether it ended well: one that compared
//! nothing, or never came to an outcome that there is, has shown nothing.

use std::collections::BTreeMap;
use std::fmt::Debug;
use std::process::ExitCode;
use std::time::Duration;

use super::forms::{forms, forms_of, forms_without_calendars};
use super::generate::Input;

/// Inputs that are written out where they differ; further ones are counted.
const MOST_SHOWN: u64 = 10;

/// Of so many inputs at most one may be skipped.
const SKIPPED_OF: u64 = 100;

/// An input by its seed and index.
pub type Place = (u64, u64);

/// Outcomes are numbers, or what a program prints for them.
#[derive(Default)]
pub struct Tally<Outcome = u64> {
    name: &'static str,
    /// The outcomes that there are.
    known: Vec<Outcome>,
    /// How often each outcome was given.
    given: BTreeMap<Outcome, u64>,
    /// How often each form stood in an answered question, where that is counted.
    forms: BTreeMap<&'static str, u64>,
    /// Inputs that were not compared, by the reason.
    skipped: BTreeMap<&'static str, u64>,
    /// The longest call and its input.
    slowest: (Duration, Place),
    pub inputs: u64,
    /// Inputs at which something differs.
    differences: u64,
}

impl<Outcome: Debug + Default + Ord> Tally<Outcome> {
    pub fn new(name: &'static str, known: Vec<Outcome>) -> Tally<Outcome> {
        Tally {
            name,
            known,
            ..Tally::default()
        }
    }

    /// A run over questions, in which every form must be answered.
    pub fn of_questions(name: &'static str, known: Vec<Outcome>) -> Tally<Outcome> {
        Tally {
            forms: forms().map(|form| (form, 0)).collect(),
            ..Tally::new(name, known)
        }
    }

    /// The same where no calendar is lent, so that no open minute is answered.
    pub fn without_calendars(name: &'static str, known: Vec<Outcome>) -> Tally<Outcome> {
        Tally {
            forms: forms_without_calendars().map(|form| (form, 0)).collect(),
            ..Tally::new(name, known)
        }
    }

    /// Counts the forms of a question that was answered, and of its data.
    pub fn answered(&mut self, data: &[u8], question: &[u8]) {
        for form in forms_of(data, question) {
            *self.forms.entry(form).or_default() += 1;
        }
    }

    pub fn gave(&mut self, outcome: Outcome) {
        *self.given.entry(outcome).or_default() += 1;
    }

    pub fn called(&mut self, outcome: Outcome, taken: Duration, place: Place) {
        self.gave(outcome);
        self.slowest = self.slowest.max((taken, place));
    }

    pub fn skip(&mut self, reason: &'static str) {
        *self.skipped.entry(reason).or_default() += 1;
    }

    /// Counts a difference and writes it out, in one piece.
    pub fn differs(&mut self, lines: &[&str]) {
        self.differences += 1;
        if self.differences <= MOST_SHOWN {
            println!("{}: {}", self.name, lines.join("\n  "));
        }
    }

    /// The same for a made input.
    pub fn input_differs(&mut self, (seed, index): Place, input: &Input, what: &str) {
        self.differs(&[
            &format!("input {index} of seed {seed} ({:?})", input.family),
            what,
            &format!("data {}", hex(&input.data)),
            &format!("calendars {}", hex(&input.calendars)),
            &format!("question {}", hex(&input.question)),
            &format!("tariff {}, table {}", hex(&input.tariff), input.table),
        ]);
    }

    pub fn merge(&mut self, other: Tally<Outcome>) {
        for (outcome, calls) in other.given {
            *self.given.entry(outcome).or_default() += calls;
        }
        for (form, questions) in other.forms {
            *self.forms.entry(form).or_default() += questions;
        }
        for (reason, inputs) in other.skipped {
            *self.skipped.entry(reason).or_default() += inputs;
        }
        self.slowest = self.slowest.max(other.slowest);
        self.inputs += other.inputs;
        self.differences += other.differences;
    }

    /// What was counted, and whether the run ended well; where it did not, why.
    fn ended_well(&self) -> bool {
        println!("  outcomes: {:?}", self.given);
        if !self.forms.is_empty() {
            println!("  answered: {:?}", self.forms);
        }
        println!("  skipped: {:?}", self.skipped);
        let (longest, (seed, index)) = self.slowest;
        if !longest.is_zero() {
            println!(
                "  longest call: {} us, input {index} of seed {seed}",
                longest.as_micros()
            );
        }
        println!(
            "{}: {} inputs, {} differences",
            self.name, self.inputs, self.differences
        );
        let faults = self.faults();
        for fault in &faults {
            println!("{}: FAILED, {fault}", self.name);
        }
        faults.is_empty()
    }

    fn faults(&self) -> Vec<String> {
        let mut faults = Vec::new();
        let skipped: u64 = self.skipped.values().sum();
        if self.differences > 0 {
            faults.push("something differs".to_string());
        }
        if self.inputs <= skipped {
            faults.push("nothing was compared".to_string());
        }
        if skipped * SKIPPED_OF > self.inputs {
            faults.push(format!("more than one input in {SKIPPED_OF} was skipped"));
        }
        let missing = |outcome: &&Outcome| !self.given.contains_key(outcome);
        let never_given: Vec<_> = self.known.iter().filter(missing).collect();
        if !never_given.is_empty() {
            faults.push(format!("never given: {never_given:?}"));
        }
        let unanswered = self.forms.iter().filter(|(_, count)| **count == 0);
        let unanswered: Vec<_> = unanswered.map(|(form, _)| form).collect();
        if !unanswered.is_empty() {
            faults.push(format!("never answered: {unanswered:?}"));
        }
        let other = |outcome: &&Outcome| !self.known.contains(outcome);
        let unheard_of: Vec<_> = self.given.keys().filter(other).collect();
        if !unheard_of.is_empty() {
            faults.push(format!("no outcome that there is: {unheard_of:?}"));
        }
        faults
    }
}

/// Prints all tallies; success where each ended well.
pub fn exit_code<'a, Outcome>(tallies: impl IntoIterator<Item = &'a Tally<Outcome>>) -> ExitCode
where
    Outcome: Debug + Default + Ord + 'a,
{
    let ends: Vec<bool> = tallies.into_iter().map(Tally::ended_well).collect();
    if ends.into_iter().all(|well| well) {
        ExitCode::SUCCESS
    } else {
        ExitCode::FAILURE
    }
}

pub fn hex(bytes: &[u8]) -> String {
    bytes.iter().map(|byte| format!("{byte:02x}")).collect()
}
