//! Values, their comparison, the monoids over them, and the answer's words.

use std::cmp::Ordering;
use std::rc::Rc;

use super::budget::{Budget, Stop, FAULT};
use super::calendars::Calendars;
use super::terms::{Monoid, Operation};

/// A value. Parts are shared, so that a value of many words may stay small.
#[derive(Clone, Debug)]
pub enum Value {
    Number(i128),
    /// A number over 127 bits. Nothing more is known of it; an answer never depends on one.
    Beyond,
    Truth(bool),
    Record(Rc<Parts>),
    /// The elements as they are written: a bag ascending, a set ascending without repeats.
    Collection(Rc<Parts>),
}

#[derive(Debug)]
pub struct Parts {
    pub values: Vec<Value>,
    /// Words that the whole value takes.
    words: u64,
    /// Whether a number over 127 bits is in it.
    beyond: bool,
}

const BEYOND: Stop = Stop::Unknown("a number over 127 bits");

impl Value {
    pub fn record(values: Vec<Value>) -> Value {
        let words = words_of(&values);
        let beyond = values.iter().any(Value::beyond);
        Value::Record(Rc::new(Parts {
            values,
            words,
            beyond,
        }))
    }

    fn collection(values: Vec<Value>) -> Value {
        let words = words_of(&values).saturating_add(1);
        let beyond = values.iter().any(Value::beyond);
        Value::Collection(Rc::new(Parts {
            values,
            words,
            beyond,
        }))
    }

    /// A number, or nothing where it is over 127 bits.
    fn number(&self) -> Result<Option<i128>, Stop> {
        match self {
            Value::Number(number) => Ok(Some(*number)),
            Value::Beyond => Ok(None),
            _ => Err(FAULT),
        }
    }

    fn known_number(&self) -> Result<i128, Stop> {
        self.number()?.ok_or(BEYOND)
    }

    fn beyond(&self) -> bool {
        match self {
            Value::Number(_) | Value::Truth(_) => false,
            Value::Beyond => true,
            Value::Record(parts) | Value::Collection(parts) => parts.beyond,
        }
    }

    pub fn truth(&self) -> Result<bool, Stop> {
        match self {
            Value::Truth(truth) => Ok(*truth),
            _ => Err(FAULT),
        }
    }

    pub fn field(&self, index: u8) -> Result<Value, Stop> {
        match self {
            Value::Record(parts) => parts.values.get(usize::from(index)).cloned().ok_or(FAULT),
            _ => Err(FAULT),
        }
    }

    pub fn elements(&self) -> Result<Rc<Parts>, Stop> {
        match self {
            Value::Collection(parts) => Ok(parts.clone()),
            _ => Err(FAULT),
        }
    }

    /// Words of the value: "a number one word; a truth 0 or 1; a record its fields in turn; a
    /// collection its count, then its elements".
    pub fn words(&self) -> u64 {
        match self {
            Value::Number(_) | Value::Beyond | Value::Truth(_) => 1,
            Value::Record(parts) | Value::Collection(parts) => parts.words,
        }
    }
}

fn words_of(values: &[Value]) -> u64 {
    values.iter().map(Value::words).fold(0, u64::saturating_add)
}

/// A table row: a record of its cells.
pub fn row_value(cells: &[i32]) -> Value {
    Value::record(
        cells
            .iter()
            .map(|cell| Value::Number(i128::from(*cell)))
            .collect(),
    )
}

/// "Two values are compared field by field, element by element: numbers by size, false first,
/// records by the first differing field, collections by fewer elements first and then the first
/// differing element."
pub fn compare(left: &Value, right: &Value) -> Ordering {
    match (left, right) {
        (Value::Number(left), Value::Number(right)) => left.cmp(right),
        (Value::Truth(left), Value::Truth(right)) => left.cmp(right),
        (Value::Record(left), Value::Record(right)) => compare_parts(&left.values, &right.values),
        (Value::Collection(left), Value::Collection(right)) => {
            let fewer = left.values.len().cmp(&right.values.len());
            fewer.then_with(|| compare_parts(&left.values, &right.values))
        }
        // Values of two types are never compared; an order by kind keeps this one total.
        _ => rank(left).cmp(&rank(right)),
    }
}

fn compare_parts(left: &[Value], right: &[Value]) -> Ordering {
    let differing = left
        .iter()
        .zip(right)
        .map(|(left, right)| compare(left, right));
    let first = differing
        .into_iter()
        .find(|order| *order != Ordering::Equal);
    first.unwrap_or_else(|| left.len().cmp(&right.len()))
}

fn rank(value: &Value) -> u8 {
    match value {
        Value::Number(_) | Value::Beyond => 0,
        Value::Truth(_) => 1,
        Value::Record(_) => 2,
        Value::Collection(_) => 3,
    }
}

/// The monoid over the heads, in order. "1 list, 2 bag, 3 set (empty); 4 sum (0); .. 6 some (false);
/// 7 all (true)"; max and min as E1 has them.
pub fn over(monoid: Monoid, heads: Vec<Value>, budget: &mut Budget) -> Result<Value, Stop> {
    match monoid {
        Monoid::List => Ok(Value::collection(heads)),
        Monoid::Bag => Ok(Value::collection(ascending(heads, budget)?)),
        Monoid::Set => {
            let mut values = ascending(heads, budget)?;
            values.dedup_by(|later, kept| compare(later, kept) == Ordering::Equal);
            Ok(Value::collection(values))
        }
        Monoid::Sum | Monoid::Max | Monoid::Min => {
            let numbers = heads.iter().map(Value::number);
            let numbers = numbers.collect::<Result<Vec<_>, Stop>>()?;
            let known: Option<Vec<i128>> = numbers.into_iter().collect();
            let total = known.and_then(|known| over_numbers(monoid, &known));
            Ok(number_of(total))
        }
        Monoid::Some | Monoid::All => {
            let mut total = monoid == Monoid::All;
            for head in &heads {
                let head = head.truth()?;
                total = if monoid == Monoid::All {
                    total && head
                } else {
                    total || head
                };
            }
            Ok(Value::Truth(total))
        }
    }
}

/// The sum, or nothing where it is over 127 bits. E1: "max over at least one qualifying row is the
/// greatest head; over none it is 0", and min has "the mirrored rule": the least head, over none 0.
/// There is one head for each qualifying row: for each run through all qualifiers, or for each row of
/// a stream without a pad that meets the condition.
fn over_numbers(monoid: Monoid, heads: &[i128]) -> Option<i128> {
    match monoid {
        Monoid::Max => Some(heads.iter().max().copied().unwrap_or(0)),
        Monoid::Min => Some(heads.iter().min().copied().unwrap_or(0)),
        _ => heads
            .iter()
            .try_fold(0, |total: i128, head| total.checked_add(*head)),
    }
}

/// Sorts by the comparison above; whether it can be made, and what it may cost, is asked first.
fn ascending(values: Vec<Value>, budget: &mut Budget) -> Result<Vec<Value>, Stop> {
    if values.len() <= 1 {
        return Ok(values);
    }
    if values.iter().any(Value::beyond) {
        return Err(BEYOND);
    }
    let rounds = u64::from(usize::BITS.saturating_sub(values.len().leading_zeros()));
    budget.spend(words_of(&values).saturating_mul(rounds))?;
    let mut values = values;
    values.sort_by(compare);
    Ok(values)
}

/// The operations of two terms, "over unbounded whole numbers".
pub fn apply(operation: Operation, left: &Value, right: &Value) -> Result<Value, Stop> {
    Ok(match operation {
        Operation::Plus | Operation::Minus | Operation::Times => {
            number_of(arithmetic(operation, left.number()?, right.number()?))
        }
        Operation::Equal => Value::Truth(left.known_number()? == right.known_number()?),
        Operation::Less => Value::Truth(left.known_number()? < right.known_number()?),
        Operation::And => Value::Truth(left.truth()? && right.truth()?),
        Operation::Or => Value::Truth(left.truth()? || right.truth()?),
    })
}

/// E4: kind 21 "is true when that minute lies in a window of its weekday. Minutes outside the years are
/// not open", those over 127 bits among them.
pub fn open_at(calendars: &Calendars, calendar: u8, minute: &Value) -> Result<Value, Stop> {
    let open = match minute.number()? {
        Some(minute) => calendars.is_open(u64::from(calendar), minute)?,
        None => false,
    };
    Ok(Value::Truth(open))
}

fn arithmetic(operation: Operation, left: Option<i128>, right: Option<i128>) -> Option<i128> {
    match operation {
        Operation::Plus => left?.checked_add(right?),
        Operation::Minus => left?.checked_sub(right?),
        _ => left?.checked_mul(right?),
    }
}

fn number_of(number: Option<i128>) -> Value {
    number.map_or(Value::Beyond, Value::Number)
}

/// "The answer is signed 64-bit words".
pub fn written(value: &Value, budget: &mut Budget) -> Result<Vec<i64>, Stop> {
    budget.spend(value.words())?;
    let mut words = Vec::new();
    write(value, &mut words)?;
    Ok(words)
}

fn write(value: &Value, words: &mut Vec<i64>) -> Result<(), Stop> {
    match value {
        Value::Number(number) => words.push(i64::try_from(*number).map_err(|_| FAULT)?),
        Value::Beyond => return Err(FAULT),
        Value::Truth(truth) => words.push(i64::from(*truth)),
        Value::Record(parts) => write_all(&parts.values, words)?,
        Value::Collection(parts) => {
            words.push(i64::try_from(parts.values.len()).map_err(|_| FAULT)?);
            write_all(&parts.values, words)?;
        }
    }
    Ok(())
}

fn write_all(values: &[Value], words: &mut Vec<i64>) -> Result<(), Stop> {
    values.iter().try_for_each(|value| write(value, words))
}
