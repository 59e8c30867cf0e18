//! What is lent to a call: buffers full of rubbish, so that a word that is read before it is
//! written, or changed where it may not be, shows.

use super::random::Random;

/// "31: scratch under .. words": 2,048 since document 02's E13, and 8,192 before it.
pub const SCRATCH: usize = 2048;
const FORMER_SCRATCH: usize = 8192;

/// Units of rubbish before and behind each buffer, which are not lent at all.
const FENCE: usize = 16;

/// Lengths of scratch and of a buffer of which so many units may be written: some that are just
/// enough, some that are not. No buffer is lent where none is asked for.
pub fn lengths(random: &mut Random, most: Option<usize>) -> Vec<(usize, usize)> {
    let mut buffers = vec![0];
    if let Some(most) = most {
        let larger = most + random.between(2, 100);
        buffers.extend([most.saturating_sub(1), most, most + 1, larger]);
    }
    buffers.dedup();
    let mut enough = |buffer: usize| {
        let former = FORMER_SCRATCH - SCRATCH;
        let more = random.between(3, 9000);
        let behind = random.one_of(&[0, 0, 1, 2, former - 1, former, more], 0);
        (SCRATCH + behind, buffer)
    };
    let mut lengths: Vec<_> = buffers.iter().map(|buffer| enough(*buffer)).collect();
    // Now and then too little scratch, with any of the buffers.
    if random.chance(20) {
        let fewer = random.below(SCRATCH);
        let scratch = random.one_of(&[0, 1, SCRATCH - 2, SCRATCH - 1, fewer], 0);
        lengths.push((scratch, random.one_of(&buffers, 0)));
    }
    lengths
}

/// What a buffer is made of.
pub trait Unit: Copy + Default + PartialEq + std::fmt::Debug {
    fn of_rubbish(rubbish: u64) -> Self;
}

impl Unit for u64 {
    fn of_rubbish(rubbish: u64) -> u64 {
        rubbish
    }
}

impl Unit for i64 {
    fn of_rubbish(rubbish: u64) -> i64 {
        rubbish as i64
    }
}

impl Unit for u8 {
    fn of_rubbish(rubbish: u64) -> u8 {
        rubbish.to_le_bytes()[7]
    }
}

/// A buffer of which all but the fences is lent.
pub struct Lent<T> {
    units: Vec<T>,
    lent: usize,
    salt: u64,
}

impl<T: Unit> Lent<T> {
    pub fn new() -> Lent<T> {
        Lent {
            units: Vec::new(),
            lent: 0,
            salt: 0,
        }
    }

    /// Fills the buffer and gives the part that is lent.
    pub fn lend(&mut self, lent: usize, salt: u64) -> &mut [T] {
        self.lent = lent;
        self.salt = salt;
        let fences = 2 * FENCE;
        let rubbish = (0..lent.saturating_add(fences)).map(|place| rubbish_at::<T>(salt, place));
        self.units.clear();
        self.units.extend(rubbish);
        self.again()
    }

    /// The part that is lent, as earlier calls left it.
    pub fn again(&mut self) -> &mut [T] {
        &mut self.units[FENCE..FENCE + self.lent]
    }

    pub fn len(&self) -> usize {
        self.lent
    }

    pub fn front(&self, units: usize) -> &[T] {
        &self.units[FENCE..FENCE + units]
    }

    /// The units in front that another buffer has, too.
    pub fn shared_with<'a>(&'a self, other: &Lent<T>) -> &'a [T] {
        let pairs = self.units.iter().zip(&other.units).skip(FENCE);
        let shared = pairs.take_while(|(left, right)| left == right).count();
        self.front(shared)
    }

    /// The first unit that is not what it should be: first `wanted`, then as many defaults (0) as
    /// `zeros` says, and rubbish from there on, as before the first.
    pub fn differs(&self, wanted: &[T], zeros: usize) -> Option<String> {
        let cleared = wanted.len().saturating_add(zeros);
        let wanted_at = |place: usize| match place.checked_sub(FENCE) {
            Some(index) if index < wanted.len() => wanted[index],
            Some(index) if index < cleared => T::default(),
            _ => rubbish_at(self.salt, place),
        };
        let differing = (0..self.units.len()).find(|place| self.units[*place] != wanted_at(*place));
        differing.map(|place| {
            let (is, should) = (self.units[place], wanted_at(place));
            let index = place as i64 - FENCE as i64;
            format!("{index} is {is:?}, should be {should:?}")
        })
    }

    /// The first unit outside the lent ones that is no longer rubbish.
    pub fn broken_fence(&self) -> Option<String> {
        self.differs(self.front(self.lent), 0)
    }
}

/// Never 0, so that a word that was cleared is seen.
fn rubbish_at<T: Unit>(salt: u64, place: usize) -> T {
    let mixed = (place as u64).wrapping_mul(0x9E37_79B9_7F4A_7C15);
    T::of_rubbish(mixed.wrapping_add(salt) | 1)
}
