//! Counts what the generated inputs reach, and tests the evaluator against itself on the way:
//! loops and plan must agree, no rule may apply to a normal form, with each column declared 2^31
//! nothing but 28 may change, and with the records in another order, the tables in the other kind, or
//! the calendars' windows in other words, nothing at all.
//!
//! Arguments: seed (default 1), count of inputs (default 20,000).

use std::collections::BTreeMap;
use std::process::ExitCode;
use std::time::Instant;

use evaluator::{by_loops, by_plan, check, normal_form_holds, plan_lines, Unknown};
use harness::arguments;
use harness::by_column::other_kind;
use harness::calendars::{in_other_words, without_windows};
use harness::columns::widened;
use harness::generate::{generate, Family, Input};
use harness::held::{inputs_of, Held};
use harness::lent::SCRATCH;
use harness::open::NUMBERS;
use harness::record_order::other_order;
use harness::tally::{exit_code, Place, Tally};

fn main() -> ExitCode {
    let [seed, count] = arguments("seed, count of inputs", [1, 20_000]);
    let start = Instant::now();
    let mut histogram = Histogram {
        tally: Tally::of_questions("histogram", NUMBERS.to_vec()),
        families: BTreeMap::new(),
        lengths: BTreeMap::new(),
        set_shorter: 0,
        max_below_0: 0,
        min_above_0: 0,
        by_bounds: 0,
        reordered: 0,
        turned: 0,
        reworded: 0,
        by_hours: 0,
        offered: 0,
    };
    inputs_of(seed, count, &mut [&mut histogram]);
    let seconds = start.elapsed().as_secs_f64();
    histogram.print();
    println!(
        "seconds for 10,000 inputs: {:.2}",
        seconds * 10_000.0 / (count.max(1) as f64)
    );
    exit_code([&histogram.tally])
}

struct Histogram {
    /// The checker's numbers.
    tally: Tally,
    families: BTreeMap<Family, BTreeMap<u32, u64>>,
    /// Accepted questions by the length of their answer: up to 1, 2 to 9, 10 to 99, more.
    lengths: BTreeMap<&'static str, u64>,
    set_shorter: u64,
    /// Questions that are a max or min whose value would not be so if 0 were among the heads.
    max_below_0: u64,
    min_above_0: u64,
    /// Questions that would be refused if each column were declared 2^31.
    by_bounds: u64,
    /// Inputs whose records have another order.
    reordered: u64,
    /// Inputs whose tables have another kind.
    turned: u64,
    /// Inputs whose calendars have other words.
    reworded: u64,
    /// Questions that have another answer over calendars without windows.
    by_hours: u64,
    offered: u64,
}

impl Held for Histogram {
    fn input(&mut self, place: Place, input: &Input) {
        if *input != generate(place.0, place.1) {
            self.fault(place, input, "the generator is not deterministic");
        }
        if let Err(unknown) = self.add(place, input) {
            self.tally.skip(unknown.0);
            if unknown.is_fault() {
                self.fault(place, input, unknown.0);
            }
        }
    }

    fn tally(&mut self) -> &mut Tally {
        &mut self.tally
    }
}

impl Histogram {
    /// Up to the first call at which the evaluator gives up.
    fn add(&mut self, place: Place, input: &Input) -> Result<(), Unknown> {
        let (number, _) = check(&input.data, &input.calendars, &input.question, SCRATCH)?;
        self.tally.gave(u64::from(number));
        let numbers = self.families.entry(input.family).or_default();
        *numbers.entry(number).or_default() += 1;
        if number == 0 {
            self.answers(place, input)?;
        }
        if let Some(other) = other_order(place, &input.data) {
            self.reordered += 1;
            if !same_over(input, &other, &input.calendars)? {
                self.fault(place, input, "the records' order shows");
            }
        }
        if let Some(other) = other_kind(place, &input.data) {
            self.turned += 1;
            if !same_over(input, &other, &input.calendars)? {
                self.fault(place, input, "the tables' kind shows");
            }
        }
        if let Some(other) = in_other_words(place, &input.calendars) {
            self.reworded += 1;
            if !same_over(input, &input.data, &other)? {
                self.fault(place, input, "the calendars' words show");
            }
        }
        Ok(())
    }

    fn answers(&mut self, place: Place, input: &Input) -> Result<(), Unknown> {
        let Input {
            data,
            calendars,
            question,
            ..
        } = input;
        if normal_form_holds(data, calendars, question) != Ok(true) {
            self.fault(place, input, "a rule applies to the normal form");
        }
        let lines = plan_lines(data, calendars, question, SCRATCH, usize::MAX);
        if !matches!(lines, Ok((0, _))) {
            self.fault(place, input, "no plan");
        }
        let loops = by_loops(data, calendars, question, SCRATCH, u64::MAX)?;
        let plan = by_plan(data, calendars, question, SCRATCH, u64::MAX)?;
        if loops.words != plan.words || loops.length > loops.greatest {
            self.fault(place, input, "loops and plan differ");
        }
        self.tally.answered(data, question);
        *self.lengths.entry(class_of(loops.length)).or_default() += 1;
        self.set_shorter += u64::from(loops.length < loops.greatest);
        // The monoid's byte is the first of the question's content.
        match (question.get(4), loops.words.first()) {
            (Some(5), Some(word)) => self.max_below_0 += u64::from(*word < 0),
            (Some(8), Some(word)) => self.min_above_0 += u64::from(*word > 0),
            _ => {}
        }
        self.offered = self.offered.max(plan.offered);
        let wide = widened(data);
        match by_plan(&wide, calendars, question, SCRATCH, u64::MAX)? {
            refused if refused.number == 28 => self.by_bounds += 1,
            same if same == plan => {}
            _ => self.fault(place, input, "bounds change an answer"),
        }
        let closed = without_windows(calendars);
        let at_no_hour = by_plan(data, &closed, question, SCRATCH, u64::MAX)?;
        self.by_hours += u64::from(at_no_hour != plan);
        Ok(())
    }

    fn fault(&mut self, place: Place, input: &Input, what: &str) {
        self.tally.input_differs(place, input, what);
    }

    fn print(&self) {
        println!("family: number x inputs");
        for (family, numbers) in &self.families {
            let counts: Vec<String> = numbers
                .iter()
                .map(|(number, count)| format!("{number} x {count}"))
                .collect();
            println!("  {family:?}: {}", counts.join(", "));
        }
        println!("answer lengths: {:?}", self.lengths);
        println!("answers shorter than G: {}", self.set_shorter);
        println!(
            "max below 0: {}, min above 0: {}",
            self.max_below_0, self.min_above_0
        );
        println!("accepted by their bounds alone: {}", self.by_bounds);
        println!("in another order of the records: {}", self.reordered);
        println!("with tables in the other kind: {}", self.turned);
        println!("with calendars in other words: {}", self.reworded);
        println!("answers by open hours: {}", self.by_hours);
        println!("most rows offered: {}", self.offered);
    }
}

/// Whether number, words and plan are the same over the other data and calendars.
fn same_over(input: &Input, data: &[u8], calendars: &[u8]) -> Result<bool, Unknown> {
    let question = &input.question;
    let plan_of =
        |data: &[u8], hours: &[u8]| plan_lines(data, hours, question, SCRATCH, usize::MAX);
    let words_of = |data: &[u8], hours: &[u8]| by_loops(data, hours, question, SCRATCH, u64::MAX);
    let (first, hours) = (&input.data, &input.calendars);
    Ok(plan_of(data, calendars)? == plan_of(first, hours)?
        && words_of(data, calendars)? == words_of(first, hours)?)
}

fn class_of(length: u64) -> &'static str {
    match length {
        0..=1 => "1",
        2..=9 => "2 to 9",
        10..=99 => "10 to 99",
        _ => "over 99",
    }
}
