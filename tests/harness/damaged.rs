//! What is lent to portions, changed in between (document 02, E7): "only safety and an end are
//! promised". Questions at two seats are begun, and before each portion words of scratch, the data, the
//! calendars, the answer buffer or a length is another one. Fences around all that is lent must stay; every other
//! call is made on heap blocks of exactly the lent lengths, so that valgrind sees a step outside. A
//! question that is then begun over what is left must end as it does alone.

use std::time::Instant;

use super::calls::{self, Portioned};
use super::generate::{generate, questions, Input};
use super::lent::{Lent, SCRATCH};
use super::offers::most_offers;
use super::open::{CHECK, MOST_ROWS, PLAN, PORTIONS};
use super::random::Random;
use super::seat::{MOST_OFFERS, UNFINISHED};
use super::tally::{Place, Tally};
use super::ways::{agree, Way, OTHER};

/// Questions that are made to find two that are accepted.
const TRIED: u64 = 8;

/// Portions of a round.
const PORTIONS_MADE: usize = 16;

/// In the tally: an answer in a buffer whose words were changed since its question was begun. No refusal
/// has the number.
const OVER_CHANGED: u64 = 2;

pub struct Damage {
    seats: [Seat; 2],
    alone: Way,
    /// Its inputs are portions that were made.
    pub tally: Tally,
}

/// A question, with what is lent to its portions.
struct Seat {
    input: Input,
    data: Lent<u8>,
    calendars: Lent<u8>,
    way: Way,
    /// Words of scratch that are lent.
    scratch: usize,
    /// Whether words of the answer buffer were changed since the question was begun.
    answer_changed: bool,
}

impl Damage {
    pub fn new() -> Damage {
        let known = vec![0, UNFINISHED, OVER_CHANGED, 31, 32, 47, 48];
        Damage {
            seats: [0, 1].map(|index| Seat::new(generate(0, index))),
            alone: Way::new(PLAN),
            tally: Tally::of_questions("damage", known),
        }
    }

    /// Begins two questions and makes portions of both over what was changed.
    pub fn round(&mut self, place: Place) {
        let mut random = Random::new(!place.0, place.1);
        for (seat, input) in self.seats.iter_mut().zip(inputs(place, &mut random)) {
            seat.begin(input, &mut random);
        }
        for _ in 0..PORTIONS_MADE {
            self.tally.inputs += 1;
            let at = random.below(2);
            if self.seats[at].is_over() && random.chance(90) {
                let input = self.seats[at].input.clone();
                self.seats[at].begin(input, &mut random);
            }
            for _ in 0..random.weighted(&[10, 50, 25, 15]) {
                self.change(at, &mut random);
            }
            if let Err(what) = self.portion(place, at, &mut random) {
                return self
                    .tally
                    .input_differs(place, &self.seats[at].input, &what);
            }
        }
        for at in 0..2 {
            if let Err(what) = self.begun_anew(at, &mut random) {
                self.tally
                    .input_differs(place, &self.seats[at].input, &what);
            }
        }
    }

    /// Changes something that is lent to the next portion of a seat.
    fn change(&mut self, at: usize, random: &mut Random) {
        let [first, second] = &mut self.seats;
        let (seat, other) = if at == 0 {
            (first, second)
        } else {
            (second, first)
        };
        match random.below(17) {
            0..=5 => seat.change_used(random),
            6 | 7 => {
                let at = random.below(SCRATCH);
                seat.words()[at] = any_word(random);
            }
            8 => {
                let until = random.between(0, SCRATCH);
                seat.words()[..until].copy_from_slice(&other.words()[..until]);
            }
            9 => seat.words().swap_with_slice(other.words()),
            10 => {
                let (salt, from) = (random.next(), random.below(SCRATCH));
                let until = random.between(from, SCRATCH);
                for (index, word) in seat.words()[from..until].iter_mut().enumerate() {
                    *word = salt.wrapping_mul(index as u64 | 1);
                }
            }
            11 => seat.words().fill(0),
            12 => change_bytes(&mut seat.data, &other.input.data, random),
            16 => change_bytes(&mut seat.calendars, &other.input.calendars, random),
            13 => {
                let words = random.one_of(&[0, 1, 2, 5, 30, 200], 0);
                seat.way.answer.lend(words, random.next());
                seat.answer_changed = words > 0;
            }
            14 => {
                let word = any_word(random) as i64;
                let at = random.below(seat.way.answer.len());
                if let Some(changed) = seat.way.answer.again().get_mut(at) {
                    *changed = word;
                    seat.answer_changed = true;
                }
            }
            _ => seat.scratch = random.between(SCRATCH, seat.way.scratch.len()),
        }
    }

    /// A portion, sometimes of no good number of rows or with too little scratch.
    fn portion(&mut self, place: Place, at: usize, random: &mut Random) -> Result<(), String> {
        let few = random.between(1, 9) as u64;
        let rows = random.one_of(&[1, 1, few, few, few, 40, 40, 1000], 1);
        let bad = random.one_of(&[0, MOST_ROWS + 1, u64::MAX], 0);
        let rows = if random.chance(3) { bad } else { rows };
        let rows = if random.chance(1) { MOST_ROWS } else { rows };
        let seat = &mut self.seats[at];
        let scratch = if random.chance(3) {
            random.below(SCRATCH)
        } else {
            seat.scratch
        };
        let refusal = match rows {
            0 => Some(47),
            rows if rows > MOST_ROWS => Some(47),
            _ if scratch < SCRATCH => Some(31),
            _ if seat.is_over() => Some(48),
            _ => None,
        };
        let before = (seat.words().to_vec(), seat.way.answer.again().to_vec());
        let start = Instant::now();
        let said = seat.portion(scratch, rows, random.chance(50));
        let counted = match said.number {
            _ if said.is_unfinished() => UNFINISHED,
            0 if seat.answer_changed => OVER_CHANGED,
            number => number,
        };
        self.tally.called(counted, start.elapsed(), place);
        seat.fences()?;
        let unchanged = *seat.words() == before.0 && *seat.way.answer.again() == before.1;
        match refusal {
            Some(number) if said.number != number || !unchanged => {
                Err(format!("{said:?}, should be {number}, changing nothing"))
            }
            _ => Ok(()),
        }
    }

    /// Begun over whatever scratch holds, the question ends as a single call does.
    fn begun_anew(&mut self, at: usize, random: &mut Random) -> Result<(), String> {
        let Seat { input, way, .. } = &mut self.seats[at];
        if most_offers(input) > MOST_OFFERS {
            return Ok(());
        }
        let (scratch, answer) = (way.scratch.len(), random.below(60));
        let salt = random.next();
        way.answer.lend(answer, salt);
        let outcome = (PORTIONS.made)(input, way.scratch.again(), way.answer.again());
        let alone = self.alone.answers(input, (scratch, answer), salt ^ OTHER);
        if alone.number == 0 {
            self.tally.answered(&input.data, &input.question);
        }
        agree([(&self.alone, alone), (way, outcome)])
            .map(|_| ())
            .map_err(|what| format!("begun anew: {what}"))
    }
}

/// Two questions that are begun, over the same tables or not.
fn inputs((seed, index): Place, random: &mut Random) -> [Input; 2] {
    let (first, last) = (TRIED * index, TRIED * (index + 1));
    let mut all: Vec<Input> = (first..last).map(|index| generate(seed, index)).collect();
    if random.chance(70) {
        all.splice(0..0, questions(seed, index, TRIED as usize));
    }
    let mut scratch = vec![0; SCRATCH];
    all.sort_by_cached_key(|input| (CHECK.made)(input, &mut scratch, &mut []).number != 0);
    [all.remove(0), all.remove(0)]
}

/// A word that may matter: small, a power of two or next to one, or any.
fn any_word(random: &mut Random) -> u64 {
    let power = 1 << random.below(64);
    let small = random.below(20) as u64;
    let any = random.next();
    random.one_of(
        &[power, power - 1, power + 1, small, small, u64::MAX, any],
        0,
    )
}

fn lend_bytes(lent: &mut Lent<u8>, bytes: &[u8], random: &mut Random) {
    let again = lent.lend(bytes.len(), random.next());
    again.copy_from_slice(bytes);
}

/// Bytes changed, cut off, put behind, or another question's.
fn change_bytes(lent: &mut Lent<u8>, other: &[u8], random: &mut Random) {
    let mut bytes = lent.again().to_vec();
    match random.below(4) {
        0 => {
            let at = random.below(bytes.len());
            if let Some(byte) = bytes.get_mut(at) {
                *byte = random.byte();
            }
        }
        1 => bytes.truncate(random.between(0, bytes.len())),
        2 => bytes.extend((0..random.between(1, 40)).map(|_| random.byte())),
        _ => bytes = other.to_vec(),
    }
    lend_bytes(lent, &bytes, random);
}

impl Seat {
    fn new(input: Input) -> Seat {
        Seat {
            input,
            data: Lent::new(),
            calendars: Lent::new(),
            way: Way::new(PORTIONS),
            scratch: SCRATCH,
            answer_changed: false,
        }
    }

    fn begin(&mut self, input: Input, random: &mut Random) {
        let scratch = SCRATCH + random.one_of(&[0, 0, 1, 3], 0);
        let answer = random.below(60);
        self.way.scratch.lend(scratch, random.next());
        self.way.answer.lend(answer, random.next());
        self.scratch = scratch;
        self.answer_changed = false;
        self.input = input;
        lend_bytes(&mut self.data, &self.input.data, random);
        lend_bytes(&mut self.calendars, &self.input.calendars, random);
        calls::begin(
            self.data.again(),
            self.calendars.again(),
            &self.input.question,
            self.way.scratch.again(),
        );
    }

    /// Whether no question is unfinished, so that a portion would be 48.
    fn is_over(&mut self) -> bool {
        self.words().iter().all(|word| *word == 0)
    }

    /// The words of scratch that a call may use.
    fn words(&mut self) -> &mut [u64] {
        &mut self.way.scratch.again()[..SCRATCH]
    }

    /// A word that is not 0 becomes another one: a bit of it, its neighbours, one that stands
    /// elsewhere, or any.
    fn change_used(&mut self, random: &mut Random) {
        let words = self.words();
        let used: Vec<usize> = (0..SCRATCH).filter(|at| words[*at] != 0).collect();
        let (at, elsewhere) = (random.one_of(&used, 0), random.one_of(&used, 0));
        let word = words[at];
        let flipped = word ^ (1 << random.below(64));
        let low = word ^ (1 << random.below(12));
        let (next, last) = (word.wrapping_add(1), word.wrapping_sub(1));
        let chosen = [
            flipped,
            low,
            low,
            next,
            last,
            words[elsewhere],
            any_word(random),
        ];
        words[at] = random.one_of(&chosen, 0);
    }

    /// The call between fences, or on blocks of their own.
    fn portion(&mut self, scratch: usize, rows: u64, fenced: bool) -> Portioned {
        let (data, calendars) = (self.data.again(), self.calendars.again());
        let scratch = &mut self.way.scratch.again()[..scratch];
        let answer = self.way.answer.again();
        if fenced {
            return calls::portion(data, calendars, scratch, answer, rows);
        }
        let (mut own_scratch, mut own_answer) = (scratch.to_vec(), answer.to_vec());
        let said = calls::portion(
            &data.to_vec(),
            &calendars.to_vec(),
            &mut own_scratch,
            &mut own_answer,
            rows,
        );
        scratch.copy_from_slice(&own_scratch);
        answer.copy_from_slice(&own_answer);
        said
    }

    fn fences(&self) -> Result<(), String> {
        let broken = [
            ("scratch", self.way.scratch.broken_fence()),
            ("answer", self.way.answer.broken_fence()),
            ("data", self.data.broken_fence()),
            ("calendars", self.calendars.broken_fence()),
        ];
        for (name, what) in broken {
            if let Some(what) = what {
                return Err(format!("outside {name} unit {what}"));
            }
        }
        Ok(())
    }
}
