//! E6: "Pilotage dues on an answer": a tariff read from its record, with refusal 44, and what it charges for the
//! ships and draughts of an answer, with 46.

use super::budget::{Stop, FAULT};
use super::tables::{first_record, four_unsigned_bytes};

/// "a tariff, a record of kind 22".
const KIND: u16 = 22;

/// "Rates and minimum are at most 10,000,000."
const GREATEST_CENTS: u32 = 10_000_000;

/// "44, a tariff outside these ranges or this layout".
const NO_TARIFF: Stop = Stop::Refused(44);

/// "each an upper draught in centimetres, rising strictly, and a rate in cents per metre begun".
struct Step {
    upper: u32,
    rate: u32,
}

pub struct Tariff {
    steps: Vec<Step>,
    minimum: u32,
}

/// "one byte of steps (1 to 16); the steps ..; a minimum charge in cents; each number four unsigned bytes". The
/// tariff is this record: nothing stands behind it.
pub fn read_tariff(bytes: &[u8]) -> Result<Tariff, Stop> {
    let record = first_record(bytes).ok_or(NO_TARIFF)?;
    if record.kind != KIND || !record.rest.is_empty() {
        return Err(NO_TARIFF);
    }
    let tariff = of_content(record.content).ok_or(NO_TARIFF)?;
    let rising = tariff
        .steps
        .windows(2)
        .all(|two| two[0].upper < two[1].upper);
    let mut cents = tariff.steps.iter().map(|step| step.rate);
    let in_range = cents.all(|rate| rate <= GREATEST_CENTS) && tariff.minimum <= GREATEST_CENTS;
    if !rising || !in_range {
        return Err(NO_TARIFF);
    }
    Ok(tariff)
}

fn of_content(content: &[u8]) -> Option<Tariff> {
    let (count, numbers) = content.split_first()?;
    let count = usize::from(*count);
    if !(1..=16).contains(&count) || numbers.len() != 8 * count + 4 {
        return None;
    }
    let (steps, minimum) = numbers.split_at(8 * count);
    let step = |step: &[u8]| {
        let (upper, rate) = step.split_at(4);
        Some(Step {
            upper: four_unsigned_bytes(upper)?,
            rate: four_unsigned_bytes(rate)?,
        })
    };
    Some(Tariff {
        steps: steps.chunks_exact(8).map(step).collect::<Option<_>>()?,
        minimum: four_unsigned_bytes(minimum)?,
    })
}

impl Tariff {
    /// "The rate is that of the first step whose upper draught is not below the ship's; metres begun are the
    /// draught divided by 100, rounded up; the charge is the greater of rate times metres and minimum." "46, a
    /// draught below 0 or above the last step".
    fn charge(&self, draught: i64) -> Result<i64, Stop> {
        let draught = u64::try_from(draught).map_err(|_| Stop::Refused(46))?;
        let first = self
            .steps
            .iter()
            .find(|step| u64::from(step.upper) >= draught);
        let rate = first.ok_or(Stop::Refused(46))?.rate;
        let cents = u64::from(rate) * draught.div_ceil(100);
        i64::try_from(cents.max(u64::from(self.minimum))).map_err(|_| FAULT)
    }

    /// "takes a question giving a bag of records (ship, draught) .. and writes the bag (ship, cents)": of the
    /// words of the one those of the other, ascending as a bag is written.
    pub fn dues(&self, words: &[i64]) -> Result<Vec<i64>, Stop> {
        let (count, rows) = words.split_first().ok_or(FAULT)?;
        let charged = |row: &[i64]| match row {
            [ship, draught] => Ok((*ship, self.charge(*draught)?)),
            _ => Err(FAULT),
        };
        let mut dues = rows
            .chunks(2)
            .map(charged)
            .collect::<Result<Vec<_>, Stop>>()?;
        dues.sort();
        let pairs = dues.iter().flat_map(|(ship, cents)| [*ship, *cents]);
        Ok([*count].into_iter().chain(pairs).collect())
    }
}
