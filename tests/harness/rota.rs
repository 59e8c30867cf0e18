//! Rounds over a rota of seats (document 02, E8): questions over the same tables join and leave, and
//! what is told of each seat and left there is held against its question alone, in portions of its quota.

use std::time::Instant;

use super::calls::{self, LentSeat, Portioned, Round};
use super::generate::{questions, Input};
use super::held::Held;
use super::lent::{lengths, SCRATCH};
use super::open::{MOST_WORDS, NUMBERS};
use super::random::Random;
use super::seat::{known_of, Known, Seat, UNFINISHED};
use super::tally::{Place, Tally};

/// "A rota of 1 to 4 seats".
const SEATS: usize = 4;

/// "A quota of 1 to 1,000 offered rows a round".
const MOST_QUOTA: u64 = 1_000;

/// Rounds that a question may take, unless its quota is the most that there is.
const MOST_ROUNDS: u64 = 24;

/// In the tally, where no refusal has the number: a seat behind the rota, which is told nothing.
const IDLE: u64 = 2;

/// A question that ended in an unchanged rota, so that its rounds could be counted.
const COUNTED: u64 = 3;

pub struct Rounds {
    desks: [Desk; SEATS],
    tally: Tally,
}

/// A seat, and what is typed there.
struct Desk {
    seat: Seat,
    /// Which of the questions is asked, and whether it is still to be begun.
    asked: usize,
    fresh: bool,
    /// Questions that are still to be begun.
    to_begin: usize,
    /// Rounds that its question had, while the rota is the one in which it was begun.
    rounds: Option<u64>,
}

/// Questions over the same tables, and the quotas of the rota's seats.
struct Game<'a> {
    place: Place,
    questions: &'a [(Input, Known)],
    quotas: Vec<u64>,
    random: Random,
}

impl Held for Rounds {
    fn input(&mut self, place: Place, input: &Input) {
        let mut random = Random::new(!place.0, place.1);
        // The input's question at all seats; or several questions, over tables of their own.
        let inputs = match random.chance(50) {
            true => vec![input.clone()],
            false => questions(!place.0, place.1, random.between(2, SEATS)),
        };
        let mut questions = Vec::new();
        for input in inputs {
            match known_of(&input) {
                Ok(known) => questions.push((input, known)),
                Err(unknown) => return self.tally.skip(unknown.0),
            }
        }
        let game = Game {
            place,
            questions: &questions,
            quotas: Vec::new(),
            random,
        };
        if let Err(what) = self.play(game) {
            for (input, _) in &questions {
                self.tally.input_differs(place, input, &what);
            }
        }
    }

    fn tally(&mut self) -> &mut Tally {
        &mut self.tally
    }
}

impl Rounds {
    pub fn new() -> Rounds {
        let told = [31, 32, 48, 49, UNFINISHED, IDLE, COUNTED];
        Rounds {
            desks: [(); SEATS].map(|_| Desk::new()),
            tally: Tally::of_questions("rounds", NUMBERS.into_iter().chain(told).collect()),
        }
    }

    /// Rounds until every question that is begun at a seat has ended, and one more.
    fn play(&mut self, mut game: Game) -> Result<(), String> {
        for desk in &mut self.desks {
            desk.take(&mut game);
            desk.to_begin = game.random.weighted(&[10, 50, 40]);
            desk.vacate();
        }
        self.draw(&mut game, 1);
        while !self.desks.iter().all(Desk::is_over) {
            for at in 0..SEATS {
                let number = self.type_at(at, &mut game);
                let number = number.map_err(|what| format!("seat {at}: {what}"))?;
                number
                    .into_iter()
                    .for_each(|number| self.tally.gave(number));
            }
            if self.desks[..game.quotas.len()].iter().all(Desk::is_over) {
                // Else those behind the rota would wait for ever.
                self.draw(&mut game, SEATS);
            } else if game.random.chance(8) {
                self.draw(&mut game, 1);
            }
            if game.random.chance(8) {
                self.refused_round(&mut game)?;
            }
            self.round(&mut game)?;
        }
        self.round(&mut game)
    }

    /// Another rota, of so many seats or more.
    fn draw(&mut self, game: &mut Game, least: usize) {
        let seats = game.random.between(least, SEATS);
        let random = &mut game.random;
        let quotas = self.desks[..seats].iter().map(|desk| desk.quota(random));
        game.quotas = quotas.collect();
        for desk in &mut self.desks {
            desk.rounds = None;
        }
    }

    /// What is typed at a seat between rounds, if anything: what it is counted as.
    fn type_at(&mut self, at: usize, game: &mut Game) -> Result<Option<u64>, String> {
        let desk = &mut self.desks[at];
        if desk.seat.offered.is_some() {
            return desk.type_over(game);
        }
        if desk.to_begin == 0 || game.random.chance(30) {
            return Ok(None);
        }
        if !desk.fresh {
            desk.take(game);
        }
        if desk.takes_long(game.quotas.get(at)) {
            self.draw(game, at + 1);
        }
        self.desks[at].begin(game).map(Some)
    }

    /// "49, seats or quota outside these ranges, before any other, changing nothing."
    fn refused_round(&mut self, game: &mut Game) -> Result<(), String> {
        let quotas = bad_rota(game);
        let before = self.desks.each_mut().map(|desk| desk.seat.held());
        let lent = self
            .desks
            .each_mut()
            .map(|desk| desk.lent(usize::MAX, usize::MAX));
        let Round { number, seats } = calls::round(game.data(), game.calendars(), &quotas, lent);
        self.tally.gave(number);
        if number != 49 {
            return Err(format!("{quotas:?} gave {number}, should be 49"));
        }
        for (at, desk) in self.desks.iter_mut().enumerate() {
            desk.seat
                .unchanged(seats[at], 0, &before[at])
                .map_err(|what| format!("{quotas:?} at seat {at}: {what}"))?;
        }
        Ok(())
    }

    /// Each seat is told what its own portion says, those behind the rota nothing.
    fn round(&mut self, game: &mut Game) -> Result<(), String> {
        let lengths = lent_lengths(game);
        let before = self.desks.each_mut().map(|desk| desk.seat.held());
        let mut lengths_left = lengths.iter();
        let lent = self.desks.each_mut().map(|desk| {
            let (scratch, answer) = lengths_left.next().unwrap_or(&(0, 0));
            desk.lent(*scratch, *answer)
        });
        let start = Instant::now();
        let Round { number, seats } =
            calls::round(game.data(), game.calendars(), &game.quotas, lent);
        let taken = start.elapsed();
        if number != 0 {
            return Err(format!("{:?} gave {number}, should be 0", game.quotas));
        }
        for (at, desk) in self.desks.iter_mut().enumerate() {
            let (said, before) = (seats[at], &before[at]);
            let short = lengths[at].0.min(desk.seat.way.scratch.len()) < SCRATCH;
            let told = match game.quotas.get(at) {
                None => desk.seat.unchanged(said, 0, before).map(|_| IDLE),
                Some(_) if short => desk.seat.unchanged(said, 31, before),
                Some(_) if desk.seat.offered.is_none() => desk.seat.unchanged(said, 48, before),
                Some(quota) => desk.visited(*quota, said, &before.1),
            };
            let told = told.map_err(|what| format!("{:?} at seat {at}: {what}", game.quotas))?;
            self.tally.called(told, taken, game.place);
            if told == 0 {
                let asked = &game.questions[desk.asked].0;
                self.tally.answered(&asked.data, &asked.question);
            }
            if desk.seat.offered.is_none() && desk.rounds.take().is_some() {
                self.tally.gave(COUNTED);
            }
        }
        Ok(())
    }
}

impl Desk {
    fn new() -> Desk {
        Desk {
            seat: Seat::new(),
            asked: 0,
            fresh: false,
            to_begin: 0,
            rounds: None,
        }
    }

    /// Takes one of the questions, with buffers around its G.
    fn take(&mut self, game: &mut Game) {
        self.asked = game.random.below(game.questions.len());
        self.fresh = true;
        let (input, known) = &game.questions[self.asked];
        let lent = lengths(&mut game.random, Some(known.greatest.min(MOST_WORDS)));
        let lent = game.random.one_of(&lent, (SCRATCH, 0));
        self.seat.sit(input, *known, lent, game.random.next());
    }

    /// Scratch of 0: no question is unfinished. Where it is too short, any words.
    fn vacate(&mut self) {
        if let Some(used) = self.seat.way.scratch.again().get_mut(..SCRATCH) {
            used.fill(0);
        }
    }

    fn is_over(&self) -> bool {
        self.seat.offered.is_none() && self.to_begin == 0
    }

    /// A quota around what its question is offered, so that it ends soon.
    fn quota(&self, random: &mut Random) -> u64 {
        let all = self.seat.all_rows();
        let few = random.between(1, 7) as u64;
        let some = random.between(1, MOST_QUOTA as usize) as u64;
        let chosen = [
            1,
            1,
            1,
            few,
            few,
            some,
            self.seat.known.pass,
            all.saturating_sub(1),
            all,
            all + 1,
            all / 2 + 1,
            all / 3,
            MOST_QUOTA,
        ];
        let least = all.div_ceil(MOST_ROUNDS);
        random.one_of(&chosen, 1).max(least).clamp(1, MOST_QUOTA)
    }

    /// Whether its question would take too many rounds with a quota, if another has fewer.
    fn takes_long(&self, quota: Option<&u64>) -> bool {
        let long = |quota: &u64| *quota < MOST_QUOTA && quota * MOST_ROUNDS < self.seat.all_rows();
        quota.is_some_and(long)
    }

    fn begin(&mut self, game: &mut Game) -> Result<u64, String> {
        self.to_begin -= 1;
        self.fresh = false;
        let (number, ended) = self.seat.begin(&game.questions[self.asked].0)?;
        self.rounds = (!ended).then_some(0);
        Ok(number)
    }

    /// What is typed over an unfinished question: now and then it is begun anew, or loses its scratch
    /// to another call, or is offered a portion by itself.
    fn type_over(&mut self, game: &mut Game) -> Result<Option<u64>, String> {
        let input = &game.questions[self.asked].0;
        match game.random.weighted(&[3, 3, 3, 91]) {
            0 => {
                let (number, _) = self.seat.begin(input)?;
                self.rounds = Some(0);
                Ok(Some(number))
            }
            1 => {
                self.seat.lose_scratch(input, &mut game.random)?;
                self.rounds = None;
                Ok(None)
            }
            2 => {
                let rows = game.random.between(1, 9) as u64;
                let before = self.seat.held();
                let lent = self.lent(usize::MAX, usize::MAX);
                let said = calls::portion(
                    &input.data,
                    &input.calendars,
                    lent.scratch,
                    lent.answer,
                    rows,
                );
                self.rounds = None;
                Ok(Some(self.seat.told(rows, said, &before.1)?.0))
            }
            _ => Ok(None),
        }
    }

    /// A visit with its quota. "A question needing n offered rows ends within n divided by its quota,
    /// rounded up, rounds of an unchanged rota, and at least one": in just so many.
    fn visited(&mut self, quota: u64, said: Portioned, before: &[i64]) -> Result<u64, String> {
        let (told, ended) = self.seat.told(quota, said, before)?;
        self.rounds = self.rounds.map(|rounds| rounds + 1);
        let wanted = self.seat.all_rows().div_ceil(quota).max(1);
        match self.rounds {
            Some(rounds) if ended != (rounds == wanted) => {
                Err(format!("{wanted} rounds are due, and it had {rounds}"))
            }
            _ => Ok(told),
        }
    }

    /// The front of its buffers.
    fn lent(&mut self, scratch: usize, answer: usize) -> LentSeat<'_> {
        let way = &mut self.seat.way;
        let (scratch, answer) = (way.scratch.len().min(scratch), way.answer.len().min(answer));
        LentSeat {
            scratch: &mut way.scratch.again()[..scratch],
            answer: &mut way.answer.again()[..answer],
        }
    }
}

impl Game<'_> {
    /// The tables, which are the same for all questions.
    fn data(&self) -> &[u8] {
        &self.questions[0].0.data
    }

    /// The calendars, likewise.
    fn calendars(&self) -> &[u8] {
        &self.questions[0].0.calendars
    }
}

/// How much of each seat's scratch and answer is lent to a round: now and then too little scratch at
/// one of them, and nothing behind the rota.
fn lent_lengths(game: &mut Game) -> [(usize, usize); SEATS] {
    let mut lengths = [(usize::MAX, usize::MAX); SEATS];
    if game.random.chance(50) {
        let behind = game.quotas.len()..;
        lengths[behind].fill((0, 0));
    }
    if game.random.chance(10) {
        let fewer = game.random.below(SCRATCH);
        let at = game.random.below(SEATS);
        lengths[at].0 = game.random.one_of(&[0, 1, SCRATCH - 1, fewer], 0);
    }
    lengths
}

/// No seat, a fifth one, or a quota of 0 or above 1,000, the other quotas being good ones.
fn bad_rota(game: &mut Game) -> Vec<u64> {
    let Game { quotas, random, .. } = game;
    let mut quotas = quotas.clone();
    match random.below(4) {
        0 => quotas.clear(),
        1 => quotas.resize(random.one_of(&[SEATS + 1, SEATS + 2, 64], SEATS + 1), 1),
        _ => {
            let above = random.next().max(MOST_QUOTA + 1);
            let bad = [0, MOST_QUOTA + 1, (1 << 32) + 1, above, u64::MAX];
            let at = random.below(quotas.len());
            quotas[at] = random.one_of(&bad, 0);
        }
    }
    quotas
}
