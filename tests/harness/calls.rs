//! The engine's open calls, as they are linked: a slice is a pointer and a count of elements.

/// What every open call gives, by value.
#[repr(C)]
#[derive(Clone, Copy, Debug, PartialEq, Eq)]
pub struct Outcome {
    pub number: u64,
    pub length: u64,
}

/// What a portion gives, by value.
#[repr(C)]
#[derive(Clone, Copy, Debug, PartialEq, Eq)]
pub struct Portioned {
    pub finished: u64,
    /// Rows that it offered.
    pub rows: u64,
    pub number: u64,
    pub length: u64,
}

impl Portioned {
    /// A refusal is neither unfinished nor finished, save for 32.
    pub fn is_unfinished(&self) -> bool {
        self.number == 0 && self.finished == 0
    }

    /// What a single call would have given.
    pub fn outcome(&self) -> Outcome {
        Outcome {
            number: self.number,
            length: self.length,
        }
    }
}

/// What a round gives, by value: 0 or 49, and what each seat's portion said.
#[repr(C)]
#[derive(Clone, Copy, Debug, PartialEq, Eq)]
pub struct Round {
    pub number: u64,
    pub seats: [Portioned; 4],
}

/// What a round is lent for a seat.
pub struct LentSeat<'a> {
    pub scratch: &'a mut [u64],
    pub answer: &'a mut [i64],
}

/// What a call about days and hours gives, by value: its number, and what it tells.
#[repr(C)]
#[derive(Clone, Copy, Debug, PartialEq, Eq)]
pub struct Told<const WORDS: usize>(pub [u64; WORDS]);

/// Declares a call of an archive and lends slices to it: data, calendars and question, then what is
/// written.
#[macro_export]
macro_rules! open_call {
    ($archive:literal, $linked:ident as $name:ident: $($buffer:ident of $unit:ty),*) => {
        #[link(name = $archive, kind = "static")]
        extern "C" {
            fn $linked(
                data: *const u8,
                data_bytes: usize,
                calendars: *const u8,
                calendars_bytes: usize,
                question: *const u8,
                question_bytes: usize,
                $($buffer: *mut $unit, _: usize),*
            ) -> $crate::calls::Outcome;
        }

        pub fn $name(
            data: &[u8],
            calendars: &[u8],
            question: &[u8],
            $($buffer: &mut [$unit]),*
        ) -> $crate::calls::Outcome {
            // SAFETY: each pointer goes with the length of its own slice, and what is written
            // overlaps nothing else.
            unsafe {
                $linked(
                    data.as_ptr(),
                    data.len(),
                    calendars.as_ptr(),
                    calendars.len(),
                    question.as_ptr(),
                    question.len(),
                    $($buffer.as_mut_ptr(), $buffer.len()),*
                )
            }
        }
    };
}

open_call!("engine", dislogha_check as check: scratch of u64);
open_call!("engine", dislogha_answer_by_loops as answer_by_loops: scratch of u64, answer of i64);
open_call!("engine", dislogha_answer_by_plan as answer_by_plan: scratch of u64, answer of i64);
open_call!("engine", dislogha_plan_lines as plan_lines: scratch of u64, lines of u8);
open_call!("engine", dislogha_begin as begin: scratch of u64);

extern "C" {
    fn dislogha_portion(
        data: *const u8,
        data_bytes: usize,
        calendars: *const u8,
        calendars_bytes: usize,
        scratch: *mut u64,
        scratch_words: usize,
        answer: *mut i64,
        answer_words: usize,
        rows: u64,
    ) -> Portioned;

    fn dislogha_round(
        data: *const u8,
        data_bytes: usize,
        calendars: *const u8,
        calendars_bytes: usize,
        quotas: *const u64,
        seats: usize,
        scratch1: *mut u64,
        scratch1_words: usize,
        answer1: *mut i64,
        answer1_words: usize,
        scratch2: *mut u64,
        scratch2_words: usize,
        answer2: *mut i64,
        answer2_words: usize,
        scratch3: *mut u64,
        scratch3_words: usize,
        answer3: *mut i64,
        answer3_words: usize,
        scratch4: *mut u64,
        scratch4_words: usize,
        answer4: *mut i64,
        answer4_words: usize,
    ) -> Round;

    fn dislogha_answer_with_tariff(
        data: *const u8,
        data_bytes: usize,
        calendars: *const u8,
        calendars_bytes: usize,
        question: *const u8,
        question_bytes: usize,
        tariff: *const u8,
        tariff_bytes: usize,
        scratch: *mut u64,
        scratch_words: usize,
        answer: *mut i64,
        answer_words: usize,
    ) -> Outcome;

    fn dislogha_count_outages(
        data: *const u8,
        data_bytes: usize,
        calendars: *const u8,
        calendars_bytes: usize,
        question: *const u8,
        question_bytes: usize,
        table: u64,
        scratch: *mut u64,
        scratch_words: usize,
        answer: *mut i64,
        answer_words: usize,
    ) -> Outcome;

    fn dislogha_pair_logs(
        data: *const u8,
        data_bytes: usize,
        first: u64,
        second: u64,
        tolerance: u64,
        target: *mut u8,
        target_bytes: usize,
    ) -> Outcome;

    fn dislogha_first_open(
        calendars: *const u8,
        calendars_bytes: usize,
        calendar: u64,
        minute: i64,
    ) -> Told<3>;

    fn dislogha_day_number(year: u64, month: u64, day: u64) -> Told<2>;

    fn dislogha_date(day: u64) -> Told<4>;
}

/// Declares a direction: a record, and the target that it is written into.
macro_rules! direction {
    ($linked:ident as $name:ident) => {
        extern "C" {
            fn $linked(
                record: *const u8,
                record_bytes: usize,
                target: *mut u8,
                target_bytes: usize,
            ) -> Outcome;
        }

        pub fn $name(record: &[u8], target: &mut [u8]) -> Outcome {
            // SAFETY: each pointer goes with the length of its own slice, and the target overlaps
            // nothing else.
            unsafe {
                $linked(
                    record.as_ptr(),
                    record.len(),
                    target.as_mut_ptr(),
                    target.len(),
                )
            }
        }
    };
}

direction!(dislogha_table_to_columns as table_to_columns);
direction!(dislogha_table_to_rows as table_to_rows);

/// A portion of the question in scratch: it takes no question, so it is not declared as the others.
pub fn portion(
    data: &[u8],
    calendars: &[u8],
    scratch: &mut [u64],
    answer: &mut [i64],
    rows: u64,
) -> Portioned {
    // SAFETY: each pointer goes with the length of its own slice, and what is written overlaps
    // nothing else.
    unsafe {
        dislogha_portion(
            data.as_ptr(),
            data.len(),
            calendars.as_ptr(),
            calendars.len(),
            scratch.as_mut_ptr(),
            scratch.len(),
            answer.as_mut_ptr(),
            answer.len(),
            rows,
        )
    }
}

/// A round over a rota with these quotas, one for each of its seats.
pub fn round(data: &[u8], calendars: &[u8], quotas: &[u64], seats: [LentSeat; 4]) -> Round {
    let [first, second, third, fourth] = seats;
    // SAFETY: as for a portion; the seats' slices are all lent to be written, so none overlaps
    // another one.
    unsafe {
        dislogha_round(
            data.as_ptr(),
            data.len(),
            calendars.as_ptr(),
            calendars.len(),
            quotas.as_ptr(),
            quotas.len(),
            first.scratch.as_mut_ptr(),
            first.scratch.len(),
            first.answer.as_mut_ptr(),
            first.answer.len(),
            second.scratch.as_mut_ptr(),
            second.scratch.len(),
            second.answer.as_mut_ptr(),
            second.answer.len(),
            third.scratch.as_mut_ptr(),
            third.scratch.len(),
            third.answer.as_mut_ptr(),
            third.answer.len(),
            fourth.scratch.as_mut_ptr(),
            fourth.scratch.len(),
            fourth.answer.as_mut_ptr(),
            fourth.answer.len(),
        )
    }
}

/// The dues on an answer, by a tariff.
pub fn answer_with_tariff(
    data: &[u8],
    calendars: &[u8],
    question: &[u8],
    tariff: &[u8],
    scratch: &mut [u64],
    answer: &mut [i64],
) -> Outcome {
    // SAFETY: each pointer goes with the length of its own slice, and what is written overlaps
    // nothing else.
    unsafe {
        dislogha_answer_with_tariff(
            data.as_ptr(),
            data.len(),
            calendars.as_ptr(),
            calendars.len(),
            question.as_ptr(),
            question.len(),
            tariff.as_ptr(),
            tariff.len(),
            scratch.as_mut_ptr(),
            scratch.len(),
            answer.as_mut_ptr(),
            answer.len(),
        )
    }
}

/// How many subsets of a table's rows give true, and how many false.
pub fn count_outages(
    data: &[u8],
    calendars: &[u8],
    question: &[u8],
    table: u64,
    scratch: &mut [u64],
    answer: &mut [i64],
) -> Outcome {
    // SAFETY: each pointer goes with the length of its own slice, and what is written overlaps
    // nothing else.
    unsafe {
        dislogha_count_outages(
            data.as_ptr(),
            data.len(),
            calendars.as_ptr(),
            calendars.len(),
            question.as_ptr(),
            question.len(),
            table,
            scratch.as_mut_ptr(),
            scratch.len(),
            answer.as_mut_ptr(),
            answer.len(),
        )
    }
}

/// Two tables of these numbers paired.
pub fn pair_logs(
    data: &[u8],
    first: u64,
    second: u64,
    tolerance: u64,
    target: &mut [u8],
) -> Outcome {
    // SAFETY: each pointer goes with the length of its own slice, and the target overlaps nothing else.
    unsafe {
        dislogha_pair_logs(
            data.as_ptr(),
            data.len(),
            first,
            second,
            tolerance,
            target.as_mut_ptr(),
            target.len(),
        )
    }
}

/// Number, found and minute of the first open minute of a calendar at or after a given one.
pub fn first_open(calendars: &[u8], calendar: u64, minute: i64) -> [u64; 3] {
    // SAFETY: the pointer goes with the length of its slice, and nothing is written.
    unsafe { dislogha_first_open(calendars.as_ptr(), calendars.len(), calendar, minute).0 }
}

/// Number and day number of a date.
pub fn day_number(year: u64, month: u64, day: u64) -> [u64; 2] {
    // SAFETY: nothing is lent.
    unsafe { dislogha_day_number(year, month, day).0 }
}

/// Number, year, month and day of a day number.
pub fn date(day: u64) -> [u64; 4] {
    // SAFETY: nothing is lent.
    unsafe { dislogha_date(day).0 }
}
