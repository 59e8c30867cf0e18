//! Inputs for the open calls, made from a seed, and the engine's calls held against the second
//! evaluator on them.

pub mod alike;
pub mod answered;
mod breaks;
pub mod by_column;
pub mod calendar_calls;
pub mod calendars;
pub mod calls;
mod chains;
mod choices;
pub mod columns;
pub mod compare;
pub mod damaged;
pub mod desk_edges;
pub mod direction;
mod doublings;
mod extremes;
mod forms;
pub mod generate;
pub mod held;
mod hours;
pub mod json;
pub mod lent;
mod limits;
pub mod listing;
mod nodes;
mod numbers;
pub mod offers;
pub mod open;
pub mod pairing;
pub mod portioned;
mod random;
pub mod record_order;
pub mod recorded;
pub mod rota;
pub mod row_order;
pub mod scene;
mod seat;
pub mod subsets;
mod tall;
pub mod tally;
pub mod tariffs;
pub mod timing;
mod tugs;
mod typed;
pub mod ways;

/// Two numbers from the command line; the usual ones where they are missing.
pub fn arguments(says: &str, usual: [u64; 2]) -> [u64; 2] {
    let mut words = std::env::args().skip(1);
    usual.map(|usual| match words.next() {
        None => usual,
        Some(word) => word.parse().unwrap_or_else(|_| {
            eprintln!("arguments: {says}");
            std::process::exit(2)
        }),
    })
}
