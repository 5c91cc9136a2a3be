//! A run over families of cases, which counts them and stops at a difference.
use super::buffer::Room;
use super::case::Case;
use super::random::Xorshift;
use super::smallest::smallest;
use std::collections::BTreeMap;
use std::fmt;

/// One call of an entry beside its judges: the number answered, or what differs.
pub type Check<C> = fn(&C, Room, &mut Xorshift) -> Result<u32, String>;

/// A family of cases that were compared.
pub struct Family {
    pub name: String,
    pub cases: u64,
    /// How often each number was answered.
    pub answers: BTreeMap<u32, u64>,
}

impl fmt::Display for Family {
    fn fmt(&self, f: &mut fmt::Formatter<'_>) -> fmt::Result {
        let answers: Vec<String> = self.answers.iter().map(|(number, times)| format!("{number}: {times}")).collect();
        write!(f, "{}: {} cases, no difference; by answer {}", self.name, self.cases, answers.join(", "))
    }
}

/// A case on which an entry and its judges differ, made as small as could be.
pub struct Difference {
    pub family: String,
    pub case: u64,
    /// The case itself, in words.
    pub input: String,
    pub what: String,
}

impl fmt::Display for Difference {
    fn fmt(&self, f: &mut fmt::Formatter<'_>) -> fmt::Result {
        writeln!(f, "found in case {} of the family: {}", self.case, self.family)?;
        writeln!(f, "smallest input: {}", self.input)?;
        write!(f, "{}", self.what)
    }
}

/// Goes through the families and counts.
pub struct Run<C> {
    check: Check<C>,
    /// How many buffers the entry is lent.
    pub buffers: u32,
    pub random: Xorshift,
    pub families: Vec<Family>,
}

pub type Done = Result<(), Difference>;

impl<C: Case> Run<C> {
    pub fn new(check: Check<C>, buffers: u32, seed: u64) -> Run<C> {
        Run { check, buffers, random: Xorshift::new(seed), families: vec![] }
    }

    pub fn begin(&mut self, name: &str) {
        self.families.push(Family { name: name.to_string(), cases: 0, answers: BTreeMap::new() });
    }

    /// Each case has a seed of its own, so that it can be run again while it is made smaller.
    pub fn case(&mut self, input: &C, room: Room) -> Done {
        let seed = self.random.draw();
        let family = self.families.last_mut().expect("a family has begun");
        family.cases += 1;
        match (self.check)(input, room, &mut Xorshift::new(seed)) {
            Ok(number) => {
                *family.answers.entry(number).or_default() += 1;
                Ok(())
            }
            Err(what) => {
                let (input, what) = smallest(self.check, input, what, room, seed);
                Err(Difference { family: family.name.clone(), case: family.cases, input: format!("{input:.200}"), what })
            }
        }
    }

    /// Mostly enough, so that most valid inputs are answered.
    pub fn room(&mut self) -> Room {
        if self.random.one_in(8) {
            Room::Any
        } else {
            Room::Enough
        }
    }

    /// With buffers that are long enough, and again with any.
    pub fn both(&mut self, input: &C) -> Done {
        self.case(input, Room::Enough)?;
        self.case(input, Room::Any)
    }
}
