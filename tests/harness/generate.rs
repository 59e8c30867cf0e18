//! Inputs for the open calls: the same data and question for the same seed and index.

use super::by_column::of_either_kind;
use super::calendars::{broken_calendars, Calendars};
use super::nodes::{Node, Stored, ALL, BAG, SOME};
use super::numbers::Numbers;
use super::random::Random;
use super::tariffs::{broken_tariff, random_ships, Tariff};
use super::tugs::random_tugs;
use super::typed::{random_tables, Size, Type, Writer};
use super::{breaks, chains, choices, columns, doublings, extremes, hours, limits, tall};

/// What an input was made to be. What it is, only an evaluator can tell.
#[derive(Clone, Copy, Debug, PartialEq, Eq, PartialOrd, Ord)]
pub enum Family {
    WellTyped,
    ForbiddenGenerator,
    BrokenMeaning,
    BrokenRecord,
    BrokenBytes,
    BrokenData,
    BeyondBounds,
    BrokenNumbers,
    BrokenCalendars,
    Levels,
    Records,
    Bytes,
    Nodes,
    Bounds,
    Rows,
    Doubling,
    Chain,
    Extreme,
    Choice,
    Columns,
    Tall,
    Hours,
    Ships,
    Outages,
}

/// One input of the calls, with the family it belongs to.
#[derive(Clone, Debug, PartialEq, Eq)]
pub struct Input {
    pub family: Family,
    pub data: Vec<u8>,
    pub calendars: Vec<u8>,
    pub question: Vec<u8>,
    pub tariff: Vec<u8>,
    /// The number of the table whose rows may be out.
    pub table: u64,
}

/// Families with their weights, of 1,000.
const FAMILIES: [(Family, usize); 24] = [
    (Family::WellTyped, 145),
    (Family::ForbiddenGenerator, 40),
    (Family::BrokenMeaning, 110),
    (Family::BrokenRecord, 60),
    (Family::BrokenBytes, 70),
    (Family::BrokenData, 60),
    (Family::BeyondBounds, 20),
    (Family::BrokenNumbers, 20),
    (Family::BrokenCalendars, 20),
    (Family::Levels, 25),
    (Family::Records, 20),
    (Family::Bytes, 20),
    (Family::Nodes, 20),
    (Family::Bounds, 30),
    (Family::Rows, 5),
    (Family::Doubling, 50),
    (Family::Chain, 40),
    (Family::Extreme, 50),
    (Family::Choice, 40),
    (Family::Columns, 40),
    (Family::Tall, 15),
    (Family::Hours, 40),
    (Family::Ships, 40),
    (Family::Outages, 20),
];

/// The input of an index.
pub fn generate(seed: u64, index: u64) -> Input {
    let mut random = Random::new(seed, index);
    let position = random.weighted(&FAMILIES.map(|(_, weight)| weight));
    let family = FAMILIES
        .get(position)
        .map_or(Family::WellTyped, |(family, _)| *family);
    of_family(random, family)
}

/// The same where every other input is of that family.
pub fn often_of(family: Family, seed: u64, index: u64) -> Input {
    match index % 2 {
        0 => generate(seed, index),
        _ => of_family(Random::new(seed, index), family),
    }
}

fn of_family(mut random: Random, family: Family) -> Input {
    let made = Made::random(&mut random, family);
    let (data, question) = made.input_of(&mut random, family);
    let calendars = match family {
        Family::BrokenCalendars => broken_calendars(&mut random),
        // Now and then fewer are lent than the question was made for.
        _ if random.chance(3) => made.calendars.fewer(&mut random).bytes(),
        _ => made.calendars.bytes(),
    };
    let tariff = match random.chance(6) {
        true => broken_tariff(&mut random, &made.tariff),
        false => made.tariff.bytes(),
    };
    Input {
        family,
        data,
        calendars,
        question,
        tariff,
        table: made.table(&mut random),
    }
}

/// Questions over the same tables and calendars; now and then one is broken.
pub fn questions(seed: u64, index: u64, count: usize) -> Vec<Input> {
    let mut random = Random::new(seed, index);
    let made = Made::random(&mut random, Family::WellTyped);
    let mut question = || Input {
        family: Family::WellTyped,
        data: made.data(),
        calendars: made.calendars.bytes(),
        question: made.broken_or_whole(&mut random, 5),
        tariff: made.tariff.bytes(),
        table: made.numbers.of(0),
    };
    (0..count).map(|_| question()).collect()
}

/// Tables of either kind, their numbers, calendars and a tariff.
struct Made {
    numbers: Numbers,
    tables: Vec<Stored>,
    calendars: Calendars,
    tariff: Tariff,
}

impl Made {
    fn random(random: &mut Random, family: Family) -> Made {
        let (numbers, tables) = (Numbers::random(random), random_tables(random));
        Made {
            numbers,
            tables: of_either_kind(random, tables),
            calendars: match family {
                Family::Hours if random.chance(95) => Calendars::some(random),
                _ => Calendars::random(random),
            },
            tariff: Tariff::random(random),
        }
    }

    /// Data and question.
    fn input_of(&self, random: &mut Random, family: Family) -> (Vec<u8>, Vec<u8>) {
        let (numbers, tables) = (self.numbers, &self.tables);
        let lent = !self.calendars.0.is_empty();
        match family {
            Family::WellTyped => (self.data(), self.question(random, false).bytes()),
            Family::ForbiddenGenerator => (self.data(), self.question(random, true).bytes()),
            Family::BrokenMeaning => {
                let mut question = self.question(random, false);
                for _ in 0..random.between(1, 2) {
                    breaks::break_meaning(random, &mut question);
                }
                (self.data(), question.bytes())
            }
            Family::BrokenRecord => {
                let mut question = self.question(random, false);
                breaks::break_record(random, &mut question);
                (self.data(), question.bytes())
            }
            Family::BrokenBytes => (self.data(), self.broken_bytes(random)),
            Family::BrokenData => {
                let question = self.broken_or_whole(random, 30);
                (breaks::broken_data(random, numbers, tables), question)
            }
            Family::BeyondBounds => {
                let question = self.broken_or_whole(random, 30);
                (breaks::beyond_bounds(random, numbers, tables), question)
            }
            Family::BrokenNumbers => {
                let question = self.broken_or_whole(random, 30);
                (breaks::broken_numbers(random, numbers, tables), question)
            }
            // Refusals of the data come before 41, those of the question behind it.
            Family::BrokenCalendars => {
                let question = self.broken_or_whole(random, 30);
                match random.below(5) {
                    0 => (breaks::broken_data(random, numbers, tables), question),
                    1 => (self.data(), limits::of_bytes(random)),
                    _ => (self.data(), question),
                }
            }
            Family::Levels => {
                let question = perhaps_broken(random, |random| limits::of_levels(random, lent));
                (self.data(), question)
            }
            Family::Records => (self.data(), perhaps_broken(random, limits::of_records)),
            Family::Bytes => (self.data(), limits::of_bytes(random)),
            Family::Nodes => (self.data(), limits::of_nodes(random, lent).bytes()),
            Family::Bounds => perhaps_changed(random, numbers, limits::of_bounds),
            Family::Rows => perhaps_changed(random, numbers, limits::of_rows),
            Family::Doubling => perhaps_changed(random, numbers, doublings::random_doubling),
            Family::Chain => perhaps_changed(random, numbers, chains::random_chain),
            Family::Extreme => perhaps_changed(random, numbers, extremes::random_extreme),
            Family::Choice => perhaps_changed(random, numbers, choices::random_choice),
            Family::Columns => perhaps_changed(random, numbers, columns::random_columns),
            Family::Tall => perhaps_changed(random, numbers, tall::random_tall),
            Family::Hours => perhaps_changed(random, numbers, |random| {
                hours::random_hours(random, &self.calendars)
            }),
            Family::Outages if random.chance(40) => (self.data(), self.truth(random).bytes()),
            Family::Outages => perhaps_changed(random, numbers, random_tugs),
            Family::Ships if random.chance(40) => (self.data(), self.ships(random).bytes()),
            Family::Ships => {
                perhaps_changed(random, numbers, |random| random_ships(random, &self.tariff))
            }
        }
    }

    fn data(&self) -> Vec<u8> {
        self.numbers.data(&self.tables)
    }

    /// A well-typed question over the tables.
    fn question(&self, random: &mut Random, lawless: bool) -> Node {
        let size = Size::random(random);
        let question = Writer::new(random, &self.tables, &self.calendars, size, lawless).question();
        self.numbers.renamed(question)
    }

    /// A well-typed question that gives a bag of records of two numbers.
    fn ships(&self, random: &mut Random) -> Node {
        let size = Size::random(random);
        let ship = Type::Record(vec![Type::Number, Type::Number]);
        let mut writer = Writer::new(random, &self.tables, &self.calendars, size, false);
        let question = writer.question_of(BAG, &ship);
        self.numbers.renamed(question)
    }

    /// A well-typed question that is true or false.
    fn truth(&self, random: &mut Random) -> Node {
        let size = Size::random(random);
        let monoid = random.one_of(&[SOME, ALL], ALL);
        let mut writer = Writer::new(random, &self.tables, &self.calendars, size, false);
        let question = writer.question_of(monoid, &Type::Truth);
        self.numbers.renamed(question)
    }

    /// The number of a table, most often one of the first, which there are; now and then of none.
    fn table(&self, random: &mut Random) -> u64 {
        let place = random.one_of(&[0, 0, 0, 0, 1, 1, 2, 3, 5, 7], 0);
        match random.below(20) {
            0 => random.one_of(&[8, 255, 256, 1 << 32, u64::MAX], 8),
            _ => self.numbers.of(place),
        }
    }

    fn broken_bytes(&self, random: &mut Random) -> Vec<u8> {
        let mut bytes = self.question(random, false).bytes();
        for _ in 0..random.between(1, 2) {
            breaks::break_bytes(random, &mut bytes);
        }
        bytes
    }

    fn broken_or_whole(&self, random: &mut Random, percent: usize) -> Vec<u8> {
        if random.chance(percent) {
            return self.broken_bytes(random);
        }
        self.question(random, false).bytes()
    }
}

/// A question at a limit, sometimes with broken bytes: the order of 22 and 23.
fn perhaps_broken(random: &mut Random, make: impl Fn(&mut Random) -> Node) -> Vec<u8> {
    let mut bytes = make(random).bytes();
    if random.chance(25) {
        breaks::break_bytes(random, &mut bytes);
    }
    bytes
}

/// A question over its own tables, sometimes with one name, type or generator changed.
fn perhaps_changed(
    random: &mut Random,
    numbers: Numbers,
    make: impl Fn(&mut Random) -> (Vec<Stored>, Node),
) -> (Vec<u8>, Vec<u8>) {
    let (tables, question) = make(random);
    let mut question = numbers.renamed(question);
    if random.chance(10) {
        breaks::break_meaning(random, &mut question);
    }
    let tables = of_either_kind(random, tables);
    (numbers.data(&tables), question.bytes())
}
