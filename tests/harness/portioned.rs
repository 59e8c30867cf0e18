//! Answering by plan in portions against the single call (document 02, E7): in random splits, with
//! calls in between that are refused or that give the question up, and interleaved with other
//! questions over the same tables.

use std::time::Instant;

use super::calls::{self, Portioned};
use super::generate::{questions, Input};
use super::held::Held;
use super::lent::{lengths, SCRATCH};
use super::open::{MOST_ROWS, MOST_WORDS, NUMBERS};
use super::random::Random;
use super::seat::{known_of, Known, Seat, UNFINISHED};
use super::tally::{Place, Tally};

/// Questions that run at once.
const SEATS: usize = 3;

/// How often a question is given up before it may end.
const GIVEN_UP: usize = 2;

pub struct Portions {
    seats: Vec<Seat>,
    tally: Tally,
}

impl Held for Portions {
    fn input(&mut self, place: Place, input: &Input) {
        let mut random = Random::new(!place.0, place.1);
        let played = match known_of(input) {
            Ok(known) => self.lengths(place, input, known, &mut random),
            Err(unknown) => return self.tally.skip(unknown.0),
        };
        if let Err(what) = played {
            return self.tally.input_differs(place, input, &what);
        }
        let others = questions(!place.0, place.1, random.between(2, SEATS));
        if let Err(what) = self.interleaved(place, &others, &mut random) {
            for other in &others {
                self.tally.input_differs(place, other, &what);
            }
        }
    }

    fn tally(&mut self) -> &mut Tally {
        &mut self.tally
    }
}

impl Portions {
    pub fn new() -> Portions {
        let known = NUMBERS.into_iter().chain([31, 32, 47, 48, UNFINISHED]);
        Portions {
            seats: (0..SEATS).map(|_| Seat::new()).collect(),
            tally: Tally::of_questions("portions", known.collect()),
        }
    }

    /// One question alone, with buffers around G.
    fn lengths(
        &mut self,
        place: Place,
        input: &Input,
        known: Known,
        random: &mut Random,
    ) -> Result<(), String> {
        for lent in lengths(random, Some(known.greatest.min(MOST_WORDS))) {
            self.play(place, &[(input, known, lent)], random)
                .map_err(|what| format!("scratch and answer of {lent:?}: {what}"))?;
        }
        Ok(())
    }

    /// Several at once, each with a buffer around its own G. Where one is too long, none is played.
    fn interleaved(
        &mut self,
        place: Place,
        inputs: &[Input],
        random: &mut Random,
    ) -> Result<(), String> {
        let mut games = Vec::new();
        for input in inputs {
            let Ok(known) = known_of(input) else {
                return Ok(());
            };
            let lent = lengths(random, Some(known.greatest.min(MOST_WORDS)));
            games.push((input, known, random.one_of(&lent, (SCRATCH, 0))));
        }
        self.play(place, &games, random)
            .map_err(|what| format!("of {} at once: {what}", games.len()))
    }

    /// Each question at a seat of its own; one call at a time, at any of them, until all have ended.
    fn play(
        &mut self,
        place: Place,
        games: &[(&Input, Known, (usize, usize))],
        random: &mut Random,
    ) -> Result<(), String> {
        for (seat, (input, known, lent)) in self.seats.iter_mut().zip(games) {
            seat.sit(input, *known, *lent, random.next());
        }
        let mut playing: Vec<usize> = (0..games.len()).collect();
        while !playing.is_empty() {
            let position = random.below(playing.len());
            let at = playing[position];
            let start = Instant::now();
            let (number, ended) = self.seats[at]
                .step(games[at].0, random)
                .map_err(|what| format!("seat {at}: {what}"))?;
            self.tally.called(number, start.elapsed(), place);
            if ended {
                playing.remove(position);
                if number == 0 {
                    let asked = &games[at].0;
                    self.tally.answered(&asked.data, &asked.question);
                }
                self.tally.gave(self.seats[at].over(games[at].0)?);
            }
        }
        Ok(())
    }
}

impl Seat {
    /// The next call at this seat: what it is counted as, and whether the question has ended.
    fn step(&mut self, input: &Input, random: &mut Random) -> Result<(u64, bool), String> {
        let Some(offered) = self.offered else {
            return self.begin(input);
        };
        if random.chance(10) {
            return Ok((self.refused(input, random)?, false));
        }
        if self.given_up < GIVEN_UP && random.chance(5) {
            return Ok((self.give_up(input, random)?, false));
        }
        self.portion(input, offered, random)
    }

    fn portion(
        &mut self,
        input: &Input,
        offered: u64,
        random: &mut Random,
    ) -> Result<(u64, bool), String> {
        let due = self.all_rows() - offered;
        let rows = self.rows(due, offered, random);
        let before = self.way.answer.again().to_vec();
        let said = self.offer(input, self.way.scratch.len(), rows);
        self.told(rows, said, &before)
    }

    /// How many: around what is due in this pass and in all, and not so few that it takes long.
    fn rows(&self, due: u64, offered: u64, random: &mut Random) -> u64 {
        let all = self.all_rows();
        let of_pass = self.known.pass.saturating_sub(offered);
        let few = random.between(1, 7) as u64;
        let some = random.between(1, (all / 10).max(1) as usize) as u64;
        let most = all / 40;
        let chosen = [
            1,
            1,
            few,
            few,
            some,
            some,
            of_pass.saturating_sub(1),
            of_pass,
            of_pass + 1,
            due.saturating_sub(1),
            due,
            due + 1,
            MOST_ROWS,
        ];
        random.one_of(&chosen, 1).max(most).clamp(1, MOST_ROWS)
    }

    /// A portion that is refused in between changes nothing: 47, with too little scratch too, and 31.
    fn refused(&mut self, input: &Input, random: &mut Random) -> Result<u64, String> {
        let more = random.next().max(MOST_ROWS + 1);
        let short = random.below(SCRATCH);
        let whole = self.way.scratch.len();
        let (rows, scratch, number) = random.one_of(
            &[
                (0, whole, 47),
                (MOST_ROWS + 1, whole, 47),
                (more, short, 47),
                (0, 0, 47),
                (1, SCRATCH - 1, 31),
                (MOST_ROWS, short, 31),
            ],
            (0, 0, 47),
        );
        self.unchanged_by(input, scratch, rows, number)
    }

    /// A portion that must be refused and leave all as it was.
    fn unchanged_by(
        &mut self,
        input: &Input,
        scratch: usize,
        rows: u64,
        number: u64,
    ) -> Result<u64, String> {
        let before = self.held();
        let said = self.offer(input, scratch, rows);
        self.unchanged(said, number, &before)
            .map_err(|what| format!("{rows} rows: {what}"))
    }

    /// The question is begun anew over the unfinished one, or another call takes the scratch; then
    /// no question is unfinished.
    fn give_up(&mut self, input: &Input, random: &mut Random) -> Result<u64, String> {
        self.given_up += 1;
        self.offered = None;
        if random.chance(50) {
            self.way.answer.lend(self.way.answer.len(), random.next());
        }
        if random.chance(50) {
            return self.begin(input).map(|(number, _)| number);
        }
        self.lose_scratch(input, random)?;
        self.unchanged_by(input, self.way.scratch.len(), 1, 48)
    }

    /// Behind the end no question is unfinished: 48, or 31 still.
    fn over(&mut self, input: &Input) -> Result<u64, String> {
        let number = match self.outcome.number {
            31 => 31,
            _ => 48,
        };
        self.unchanged_by(input, self.way.scratch.len(), MOST_ROWS, number)
    }

    fn offer(&mut self, input: &Input, scratch: usize, rows: u64) -> Portioned {
        let scratch = &mut self.way.scratch.again()[..scratch];
        calls::portion(
            &input.data,
            &input.calendars,
            scratch,
            self.way.answer.again(),
            rows,
        )
    }
}
