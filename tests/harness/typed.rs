//! Random tables, and random questions over them that are well typed.

use super::calendars::Calendars;
use super::nodes::*;
use super::random::Random;

#[derive(Clone, Debug, PartialEq, Eq)]
pub enum Type {
    Number,
    Truth,
    Record(Vec<Type>),
    Collection(u8, Box<Type>),
}

/// Cells whose differences mostly do not fit into 32 bits, some just so.
const FAR_CELLS: [i32; 8] = [
    i32::MIN,
    i32::MIN + 1,
    -(1 << 30) - 1,
    -1,
    0,
    1 << 30,
    i32::MAX - 1,
    i32::MAX,
];

/// Small tables: empty ones, repeated rows, negative and extreme cells, some with all cells of one
/// sign: else a max below 0 and a min above it are rare; in some cells are far apart.
pub fn random_tables(random: &mut Random) -> Vec<Stored> {
    let count = random.weighted(&[3, 10, 20, 25, 25, 10, 0, 0, 7]);
    (0..count).map(|_| random_table(random)).collect()
}

fn random_table(random: &mut Random) -> Stored {
    let collection = random.one_of(&[LIST, LIST, LIST, BAG, BAG, BAG, SET, SET], BAG);
    let columns = random.one_of(&[1, 1, 2, 2, 2, 3, 4, 8], 2);
    let count = random.one_of(&[0, 1, 1, 2, 2, 2, 3, 3, 3, 4, 5], 2);
    let sign = random.one_of(&[0, 0, 0, 0, -1, 1], 0);
    // Of cells far apart the difference from the one above passes 32 bits (document 02, E10).
    let far = random.chance(10);
    let cell = |random: &mut Random| match far {
        true => random.one_of(&FAR_CELLS, 0),
        false => cell_of_sign(random, sign),
    };
    let mut rows: Vec<Vec<i32>> = Vec::new();
    for _ in 0..count {
        let repeated = random.pick(&rows).cloned();
        match repeated {
            Some(row) if random.chance(25) => rows.push(row),
            _ => rows.push((0..columns).map(|_| cell(random)).collect()),
        }
    }
    declared(random, Stored::wide(collection, columns, rows))
}

/// The table with bounds that its cells keep: 2^31 in half of all tables, else by column 2^31, the
/// greatest magnitude there, or somewhat more.
pub fn declared(random: &mut Random, table: Stored) -> Stored {
    let mut declared = table;
    if random.chance(50) {
        return declared;
    }
    for column in 0..declared.bounds.len() {
        let least = declared.magnitude(column);
        let more = match random.below(6) {
            0 => WIDEST,
            1 | 2 => least,
            3 => least.saturating_add(1),
            4 => random.one_of(&[300, 1023, 65_536, WIDEST - 1], 300),
            _ => least.next_power_of_two(),
        };
        declared.bounds[column] = more.clamp(least, WIDEST);
    }
    declared
}

pub fn random_cell(random: &mut Random) -> i32 {
    match random.weighted(&[90, 6, 4]) {
        0 => random.one_of(&[-2, -1, 0, 0, 1, 1, 1, 2, 2, 3], 1),
        1 => random.one_of(&[i32::MIN, i32::MIN + 1, i32::MAX, i32::MAX - 1], i32::MAX),
        _ => any_number(random),
    }
}

/// A cell below 0 for -1, above 0 for 1, any for 0.
pub fn cell_of_sign(random: &mut Random, sign: i32) -> i32 {
    let cell = random_cell(random);
    match sign {
        0 => cell,
        _ => cell.saturating_abs().max(1).saturating_mul(sign),
    }
}

/// A list of one column and at most so many rows.
pub fn list_of_cells(random: &mut Random, most: usize) -> Stored {
    let rows = (0..random.between(0, most))
        .map(|_| vec![random_cell(random)])
        .collect();
    declared(random, Stored::wide(LIST, 1, rows))
}

fn any_number(random: &mut Random) -> i32 {
    let [a, b, c, d, ..] = random.next().to_le_bytes();
    i32::from_le_bytes([a, b, c, d])
}

/// How much a question may hold.
#[derive(Clone, Copy)]
pub struct Size {
    pub records: usize,
    pub generators: usize,
    pub levels: usize,
    /// Comprehensions in one another.
    pub nesting: usize,
}

impl Size {
    pub fn random(random: &mut Random) -> Size {
        Size {
            records: random.one_of(&[20, 40, 60, 80, 110, 140, 170, 200], 60),
            generators: random.between(2, 9),
            levels: random.between(6, 26),
            nesting: random.between(2, 5),
        }
    }
}

/// Writes terms of a wanted type.
pub struct Writer<'a> {
    random: &'a mut Random,
    tables: &'a [Stored],
    calendars: &'a Calendars,
    /// Names that hold here, with their types.
    scope: Vec<(u16, Type)>,
    /// Names not bound yet.
    fresh: Vec<u16>,
    left: Size,
    /// Whether generators may stand in monoids that do not allow them.
    lawless: bool,
}

/// Levels and comprehensions that may still stand below.
#[derive(Clone, Copy)]
struct Room {
    levels: usize,
    nesting: usize,
}

impl Room {
    fn below(self) -> Room {
        Room {
            levels: self.levels.saturating_sub(1),
            nesting: self.nesting,
        }
    }

    fn inside(self) -> Room {
        Room {
            levels: self.levels.saturating_sub(2),
            nesting: self.nesting.saturating_sub(1),
        }
    }
}

impl<'a> Writer<'a> {
    pub fn new(
        random: &'a mut Random,
        tables: &'a [Stored],
        calendars: &'a Calendars,
        size: Size,
        lawless: bool,
    ) -> Self {
        let mut fresh: Vec<u16> = (0..256).collect();
        for last in (1..fresh.len()).rev() {
            let other = random.between(0, last);
            fresh.swap(last, other);
        }
        Writer {
            random,
            tables,
            calendars,
            scope: Vec::new(),
            fresh,
            left: size,
            lawless,
        }
    }

    /// A whole question of any monoid.
    pub fn question(&mut self) -> Node {
        let monoid = self
            .random
            .one_of(&[LIST, BAG, BAG, SET, SET, SUM, MAX, MIN, SOME, ALL], BAG);
        let head = self.head_type(monoid);
        self.question_of(monoid, &head)
    }

    /// A whole question of that monoid, with heads of that type.
    pub fn question_of(&mut self, monoid: u8, head: &Type) -> Node {
        let room = Room {
            levels: self.left.levels,
            nesting: self.left.nesting,
        };
        self.comprehension(monoid, head, room)
    }

    fn head_type(&mut self, monoid: u8) -> Type {
        match monoid {
            SUM | MAX | MIN => Type::Number,
            SOME | ALL => Type::Truth,
            _ => self.any_type(2),
        }
    }

    fn any_type(&mut self, depth: usize) -> Type {
        let deeper = if depth == 0 { 0 } else { 1 };
        match self.random.weighted(&[40, 8, 32 * deeper, 20 * deeper, 8]) {
            0 => Type::Number,
            1 => Type::Truth,
            2 => {
                let count = self.random.one_of(&[1, 2, 2, 3, 4], 2);
                Type::Record(
                    (0..count)
                        .map(|_| self.any_type(depth.saturating_sub(1)))
                        .collect(),
                )
            }
            3 => {
                let element = self.any_type(depth.saturating_sub(1));
                Type::Collection(
                    self.random.one_of(&[LIST, BAG, SET], BAG),
                    Box::new(element),
                )
            }
            _ => match self.random.pick(self.tables) {
                Some(table) => row_type(table),
                None => Type::Number,
            },
        }
    }

    fn comprehension(&mut self, monoid: u8, head: &Type, room: Room) -> Node {
        self.left.records = self.left.records.saturating_sub(1);
        let outside = self.scope.len();
        let room = room.inside();
        let mut qualifiers = Vec::new();
        if !self.tight(room) {
            if room.nesting > 0 && self.left.generators > 2 && self.random.chance(12) {
                qualifiers.extend(self.twice(monoid, room));
            }
            let count = self.random.weighted(&[5, 28, 35, 22, 10]);
            for _ in 0..count {
                let first = qualifiers.is_empty();
                qualifiers.push(self.qualifier(monoid, first, room));
            }
        }
        let head = self.term(head, room);
        self.scope.truncate(outside);
        comprehension(monoid, qualifiers, head)
    }

    /// Whether only the smallest terms fit.
    fn tight(&self, room: Room) -> bool {
        room.levels < 3 || self.left.records < 4
    }

    /// The first qualifier is mostly a generator, so that what follows has names to mention.
    fn qualifier(&mut self, monoid: u8, first: bool, room: Room) -> Node {
        self.left.records = self.left.records.saturating_sub(1);
        let weights = if first { [88, 8, 4] } else { [45, 22, 33] };
        match self.random.weighted(&weights) {
            0 if self.left.generators > 0 => self.generator(monoid, room),
            1 => {
                let wanted = self.any_type(2);
                let term = self.term(&wanted, room.below());
                binding(self.bind(wanted), term)
            }
            _ => condition(self.condition(room.below())),
        }
    }

    /// A bound comprehension and two generators over its name: the copies must stay apart.
    fn twice(&mut self, monoid: u8, room: Room) -> Vec<Node> {
        self.left.generators = self.left.generators.saturating_sub(2);
        self.left.records = self.left.records.saturating_sub(5);
        let kinds = self.kinds_allowed(monoid);
        let kind = self.random.one_of(kinds, LIST);
        let element = match self.random.pick(self.tables) {
            Some(table) if self.random.chance(50) => row_type(table),
            _ => self.any_type(2),
        };
        let term = self.comprehension(kind, &element, room.below());
        let bound = self.bind(Type::Collection(kind, Box::new(element.clone())));
        let left = self.bind(element.clone());
        let right = self.bind(element);
        vec![
            binding(bound, term),
            generator(left, name(bound)),
            generator(right, name(bound)),
        ]
    }

    fn bind(&mut self, bound: Type) -> u16 {
        let name = self.fresh.pop().unwrap_or(0);
        self.scope.push((name, bound));
        name
    }

    /// A truth that is often a "some" comprehension, an "and", a choice, an open minute, or met by many rows.
    fn condition(&mut self, room: Room) -> Node {
        let tight = self.tight(room);
        let path = self.path(&Type::Number);
        match (self.random.weighted(&[21, 10, 35, 25, 5, 4]), path) {
            (0, _) if !tight && room.nesting > 0 => self.comprehension(SOME, &Type::Truth, room),
            (1, _) if !tight => {
                self.left.records = self.left.records.saturating_sub(1);
                let left = self.condition(room.below());
                two(AND, left, self.condition(room.below()))
            }
            (2, Some(path)) => self.likely(path),
            (4, _) if !tight => self.choice(&Type::Truth, room),
            (5, _) if !tight => self.open(room),
            _ => self.term(&Type::Truth, room),
        }
    }

    /// A condition on a small number that often holds.
    fn likely(&mut self, path: Node) -> Node {
        let other = self.path(&Type::Number);
        match (self.random.below(5), other) {
            (0, _) => two(LESS, path, number(3)),
            (1, _) => two(LESS, number(-2), path),
            (2, Some(other)) => two(EQUAL, path, other),
            (3, Some(other)) => not(two(EQUAL, path, other)),
            _ => not(two(LESS, path, number(0))),
        }
    }

    fn generator(&mut self, monoid: u8, room: Room) -> Node {
        self.left.generators = self.left.generators.saturating_sub(1);
        let kinds = self.kinds_allowed(monoid);
        let (source, element) = self.source(kinds, room.below());
        generator(self.bind(element), source)
    }

    /// "A generator over a bag may not stand in a list; one over a set only in set, max, some
    /// or all", and in min.
    fn kinds_allowed(&mut self, monoid: u8) -> &'static [u8] {
        let lawless = self.lawless && self.random.chance(50);
        match monoid {
            LIST if lawless => &[BAG, SET],
            BAG | SUM if lawless => &[SET],
            LIST => &[LIST],
            BAG | SUM => &[LIST, BAG],
            _ => &[LIST, BAG, SET],
        }
    }

    /// A term for a generator: a table, a name or field in scope, or a comprehension.
    fn source(&mut self, kinds: &[u8], room: Room) -> (Node, Type) {
        let tables = self.tables_of(kinds);
        let paths = self.collections_in_scope(kinds);
        let choice = self.random.weighted(&[72, 16, 12]);
        match (self.random.pick(&tables), self.random.pick(&paths)) {
            (Some(found), _) if choice == 0 => found.clone(),
            (_, Some(found)) if choice <= 1 => found.clone(),
            (Some(found), _) if room.nesting == 0 || self.tight(room) => found.clone(),
            _ => {
                let kind = self.random.one_of(kinds, LIST);
                let element = self.any_type(2);
                (self.comprehension(kind, &element, room), element)
            }
        }
    }

    fn tables_of(&self, kinds: &[u8]) -> Vec<(Node, Type)> {
        let numbered = (0..=u8::MAX).zip(self.tables);
        let fitting = numbered.filter(|(_, stored)| kinds.contains(&stored.collection));
        fitting
            .map(|(number, stored)| (table(number), row_type(stored)))
            .collect()
    }

    fn collections_in_scope(&self, kinds: &[u8]) -> Vec<(Node, Type)> {
        let element_of = |(node, found): (Node, Type)| match found {
            Type::Collection(kind, element) if kinds.contains(&kind) => Some((node, *element)),
            _ => None,
        };
        self.paths().into_iter().filter_map(element_of).collect()
    }

    /// Names in scope and the fields that can be reached from them.
    fn paths(&self) -> Vec<(Node, Type)> {
        let mut found = Vec::new();
        for (bound, bound_type) in &self.scope {
            add_paths(name(*bound), bound_type, 3, &mut found);
        }
        found
    }

    fn path(&mut self, wanted: &Type) -> Option<Node> {
        let mut fitting = self.paths();
        fitting.retain(|(_, found)| found == wanted);
        self.random.pick(&fitting).map(|(node, _)| node.clone())
    }

    fn term(&mut self, wanted: &Type, room: Room) -> Node {
        self.left.records = self.left.records.saturating_sub(1);
        if self.tight(room) {
            return self.smallest(wanted);
        }
        if self.random.chance(4) {
            return self.field_of_literal(wanted, room.below());
        }
        match wanted {
            Type::Number => self.number(room),
            Type::Truth => self.truth(room),
            Type::Record(fields) => self.record(wanted, fields, room),
            Type::Collection(kind, element) => self.collection(wanted, *kind, element, room),
        }
    }

    /// A term of few records.
    fn smallest(&mut self, wanted: &Type) -> Node {
        if let Some(path) = self.path(wanted) {
            return path;
        }
        match wanted {
            Type::Number => number(self.constant()),
            Type::Truth => truth(self.random.chance(60)),
            Type::Record(fields) => {
                record(fields.iter().map(|field| self.smallest(field)).collect())
            }
            Type::Collection(kind, element) => {
                comprehension(*kind, Vec::new(), self.smallest(element))
            }
        }
    }

    /// A field of a record that is written out.
    fn field_of_literal(&mut self, wanted: &Type, room: Room) -> Node {
        let count = self.random.between(1, 3);
        let chosen = self.random.below(count);
        let mut fields = Vec::new();
        for position in 0..count {
            let other = self.any_type(1);
            let field_type = if position == chosen { wanted } else { &other };
            fields.push(self.term(field_type, room.below()));
        }
        field(u8::try_from(chosen).unwrap_or(0), record(fields))
    }

    fn number(&mut self, room: Room) -> Node {
        let room = room.below();
        let path = self.path(&Type::Number);
        match (self.random.weighted(&[41, 11, 7, 7, 7, 23, 4]), path) {
            (0, Some(path)) => path,
            (2, _) => self.pair(PLUS, &Type::Number, room),
            (3, _) => self.pair(MINUS, &Type::Number, room),
            (4, _) => self.product(room),
            (5, _) if room.nesting > 0 => {
                let monoid = self.random.one_of(&[SUM, MAX, MIN], SUM);
                self.comprehension(monoid, &Type::Number, room)
            }
            (6, _) => self.choice(&Type::Number, room),
            _ => number(self.constant()),
        }
    }

    fn constant(&mut self) -> i32 {
        match self.random.weighted(&[90, 5, 5]) {
            0 => self.random.one_of(&[-3, -2, -1, 0, 1, 1, 2, 2, 3, 7], 1),
            1 => self
                .random
                .one_of(&[i32::MIN, i32::MAX, 1 << 30, 65_536], i32::MIN),
            _ => any_number(self.random),
        }
    }

    /// A choice of two numbers or two truths. Its truth is one that would be a condition, too.
    fn choice(&mut self, of: &Type, room: Room) -> Node {
        self.left.records = self.left.records.saturating_sub(1);
        let room = room.below();
        let truth = self.condition(room);
        let first = self.term(of, room);
        choice(truth, first, self.term(of, room))
    }

    /// A minute of a calendar that is lent, around the edges of its windows or any; else any truth.
    fn open(&mut self, room: Room) -> Node {
        let Some(calendar) = self.calendars.number(self.random) else {
            return self.pair(LESS, &Type::Number, room.below());
        };
        self.left.records = self.left.records.saturating_sub(2);
        let edge = number(self.calendars.edge(self.random, calendar) as i32);
        let path = self.path(&Type::Number);
        let minute = match (self.random.below(6), path) {
            (0 | 1, Some(path)) => path,
            (2, Some(path)) => two(PLUS, edge, path),
            (3 | 4, _) => edge,
            _ => self.term(&Type::Number, room.below()),
        };
        open(calendar, minute)
    }

    fn pair(&mut self, kind: u16, operands: &Type, room: Room) -> Node {
        let left = self.term(operands, room);
        two(kind, left, self.term(operands, room))
    }

    /// Mostly by a small constant, since bounds multiply.
    fn product(&mut self, room: Room) -> Node {
        if self.random.chance(25) {
            return self.pair(TIMES, &Type::Number, room);
        }
        let factor = number(self.random.one_of(&[-2, -1, 0, 1, 2, 3], 2));
        two(TIMES, self.term(&Type::Number, room), factor)
    }

    fn truth(&mut self, room: Room) -> Node {
        let room = room.below();
        let choice = self
            .random
            .weighted(&[15, 5, 13, 14, 7, 8, 9, 20, 14, 3, 4]);
        let wanted = if choice == 8 {
            Type::Number
        } else {
            Type::Truth
        };
        match (choice, self.path(&wanted)) {
            (0, Some(path)) => path,
            (8, Some(path)) => self.likely(path),
            (1, _) => truth(self.random.chance(75)),
            (2, _) => self.pair(EQUAL, &Type::Number, room),
            (4, _) => self.pair(AND, &Type::Truth, room),
            (5, _) => self.pair(OR, &Type::Truth, room),
            (6, _) => not(self.term(&Type::Truth, room)),
            (9, _) => self.choice(&Type::Truth, room),
            (10, _) => self.open(room),
            (7, _) if room.nesting > 0 => {
                let monoid = self.random.one_of(&[SOME, ALL], SOME);
                self.comprehension(monoid, &Type::Truth, room)
            }
            _ => self.pair(LESS, &Type::Number, room),
        }
    }

    fn record(&mut self, wanted: &Type, fields: &[Type], room: Room) -> Node {
        match self.path(wanted) {
            Some(path) if self.random.chance(50) => path,
            _ => record(
                fields
                    .iter()
                    .map(|field| self.term(field, room.below()))
                    .collect(),
            ),
        }
    }

    /// A table, a name or field in scope, or a comprehension.
    fn collection(&mut self, wanted: &Type, kind: u8, element: &Type, room: Room) -> Node {
        let mut tables = self.tables_of(&[kind]);
        tables.retain(|(_, row)| row == element);
        let stored = self.random.pick(&tables).map(|(node, _)| node.clone());
        let path = self.path(wanted);
        match (self.random.weighted(&[30, 30, 40]), stored, path) {
            (0, Some(stored), _) => stored,
            (1, _, Some(path)) => path,
            _ if room.nesting > 0 => self.comprehension(kind, element, room),
            (_, Some(found), _) | (_, _, Some(found)) => found,
            _ => self.smallest(wanted),
        }
    }
}

fn row_type(table: &Stored) -> Type {
    Type::Record(vec![Type::Number; table.bounds.len()])
}

fn add_paths(node: Node, found: &Type, depth: usize, paths: &mut Vec<(Node, Type)>) {
    paths.push((node.clone(), found.clone()));
    let Type::Record(fields) = found else { return };
    if depth == 0 {
        return;
    }
    for (index, inner) in (0..=u8::MAX).zip(fields) {
        add_paths(
            field(index, node.clone()),
            inner,
            depth.saturating_sub(1),
            paths,
        );
    }
}
