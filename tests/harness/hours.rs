//! Open minutes (document 02, E4) where their rule shows: minutes from cells, constants and comprehensions
//! around the edges of windows, in conditions, heads and choices; calendars that are not lent.

use super::calendars::Calendars;
use super::nodes::*;
use super::random::Random;
use super::typed::declared;

/// A question about open minutes, over rows of a key and a minute.
pub fn random_hours(random: &mut Random, calendars: &Calendars) -> (Vec<Stored>, Node) {
    let most_asked = calendars.number(random).unwrap_or(0);
    let mut minutes = |_| random_minutes(random, calendars, most_asked);
    let tables: Vec<Stored> = (0..2).map(&mut minutes).collect();
    let mut asked = Asked {
        random,
        tables: &tables,
        calendars,
        most_asked,
        rows: Vec::new(),
        next: 0,
    };
    let question = asked.question();
    (tables, question)
}

/// Few keys; minutes at a calendar's edges, now and then any.
fn random_minutes(random: &mut Random, calendars: &Calendars, calendar: u8) -> Stored {
    let count = random.one_of(&[0, 1, 2, 3, 3, 4, 6], 3);
    let mut row = |_| {
        let key = random.one_of(&[1, 1, 2, 3], 1);
        let any = random.next() as i32;
        let edge = calendars.edge(random, calendar) as i32;
        vec![key, random.one_of(&[edge, edge, edge, edge, 0, any], 0)]
    };
    let rows = (0..count).map(&mut row).collect();
    let collection = random.one_of(&[LIST, LIST, BAG, SET], BAG);
    declared(random, Stored::wide(collection, 2, rows))
}

struct Asked<'a> {
    random: &'a mut Random,
    tables: &'a [Stored],
    calendars: &'a Calendars,
    /// The calendar at whose edges most minutes are.
    most_asked: u8,
    /// The names that hold: each is a row.
    rows: Vec<u16>,
    /// The next name.
    next: u16,
}

impl Asked<'_> {
    fn question(&mut self) -> Node {
        let mut qualifiers = Vec::new();
        let mut kind = LIST;
        for _ in 0..self.random.one_of(&[0, 1, 1, 1, 2], 1) {
            let (own, range) = self.range();
            qualifiers.push(range);
            kind = kind.max(own);
        }
        for _ in 0..self.random.weighted(&[35, 50, 15]) {
            let more = self.random.between(0, 2);
            qualifiers.push(condition(self.truth(more)));
        }
        let monoid = match kind {
            LIST => self.random.one_of(&[LIST, BAG, SET, SUM, MAX, SOME], LIST),
            BAG => self.random.one_of(&[BAG, SET, SUM, MIN, ALL], BAG),
            _ => self.random.one_of(&[SET, SET, MAX, MIN, SOME, ALL], SET),
        };
        let more = self.random.between(0, 2);
        let head = match monoid {
            SUM | MAX | MIN => choice(self.truth(more), self.minute(more), number(1)),
            SOME | ALL => self.truth(more),
            _ => record(vec![self.truth(more), self.minute(1), self.truth(0)]),
        };
        comprehension(monoid, qualifiers, head)
    }

    /// A generator over one of the tables, and its collection; the name holds from here on.
    fn range(&mut self) -> (u8, Node) {
        let place = self.random.below(self.tables.len());
        let own = self.next;
        self.next = own.saturating_add(1);
        self.rows.push(own);
        let stored = table(u8::try_from(place).unwrap_or(0));
        (self.tables[place].collection, generator(own, stored))
    }

    /// A truth of open minutes, with so many levels more in its terms.
    fn truth(&mut self, more: usize) -> Node {
        let Some(less) = more.checked_sub(1) else {
            return self.open(0);
        };
        match self.random.below(8) {
            0 => not(self.truth(less)),
            1 => {
                let kind = self.random.one_of(&[AND, AND, OR], AND);
                let left = self.truth(less);
                two(kind, left, self.truth(less))
            }
            2 => {
                let decides = self.truth(less);
                choice(decides, self.truth(0), self.truth(0))
            }
            3 => {
                let monoid = self.random.one_of(&[SOME, SOME, ALL], SOME);
                self.inner(monoid, |asked| asked.truth(less))
            }
            _ => self.open(more),
        }
    }

    fn open(&mut self, more: usize) -> Node {
        let lent = self.calendars.number(self.random);
        let any = self.random.byte();
        let count = u8::try_from(self.calendars.0.len()).unwrap_or(u8::MAX);
        let calendar = match lent {
            Some(_) if self.random.chance(75) => self.most_asked,
            Some(lent) if self.random.chance(85) => lent,
            _ => self.random.one_of(&[count, 4, 255, any], count),
        };
        open(calendar, self.minute(more))
    }

    fn minute(&mut self, more: usize) -> Node {
        let less = more.saturating_sub(1);
        match self.random.below(10) {
            0 if more > 0 => {
                let monoid = self.random.one_of(&[MAX, MAX, MIN, SUM], MAX);
                self.inner(monoid, |asked| asked.minute(less))
            }
            1 if more > 0 => {
                let decides = self.truth(less);
                choice(decides, self.minute(less), self.minute(less))
            }
            2 => {
                let step = number(self.random.one_of(&[-1440, -1, 1, 60, 1440, 10_080], 1));
                two(PLUS, self.small(), step)
            }
            // The same minute 2^32 later or earlier: it must not come back into the years.
            3 if more > 0 => {
                let far = two(TIMES, number(65_536), number(65_536));
                let kind = self.random.one_of(&[PLUS, MINUS], PLUS);
                two(kind, self.small(), far)
            }
            // Its bound is 2^62, or just over it.
            4 if more > 0 && self.random.chance(40) => {
                let wide = two(TIMES, number(i32::MIN), number(i32::MIN));
                two(PLUS, wide, number(self.random.one_of(&[0, 0, 0, 1], 0)))
            }
            _ => self.small(),
        }
    }

    /// A comprehension over the rows of a key, which may be none. Where rows stand in a set, a sum is a max.
    fn inner(&mut self, monoid: u8, head: impl Fn(&mut Self) -> Node) -> Node {
        let around = self.random.pick(&self.rows).copied();
        let outside = self.rows.len();
        let (kind, range) = self.range();
        let own = self.rows[outside];
        let mut qualifiers = vec![range];
        if let Some(around) = around.filter(|_| self.random.chance(75)) {
            let tie = two(EQUAL, field(0, name(own)), field(0, name(around)));
            qualifiers.push(condition(tie));
        }
        let head = head(self);
        self.rows.truncate(outside);
        let monoid = match (monoid, kind) {
            (SUM, SET) => MAX,
            (monoid, _) => monoid,
        };
        comprehension(monoid, qualifiers, head)
    }

    /// A cell of any row that holds, or a minute at an edge.
    fn small(&mut self) -> Node {
        match self.random.pick(&self.rows).copied() {
            Some(row) if self.random.chance(75) => field(1, name(row)),
            _ => number(self.calendars.edge(self.random, self.most_asked) as i32),
        }
    }
}
