//! Scripts and buffers, drawn from a seed: well-formed runs of calls, and damaged ones.

use crate::damage::{damaged, noise};
use crate::pager::{DATA_SERVERS, SERVERS};
use crate::random::Random;
use crate::script::Word;
use crate::servers::PAGE_LENGTH;

const ODD_LENGTHS: [usize; 9] = [0, 1, 511, 512, 513, 1536, 8192, 33280, 32768];

/// How much room the listing has.
#[derive(Clone, Copy, Debug)]
pub enum Room {
    Bytes(usize),
    /// As many bytes as the whole listing takes, and so many more.
    WholeAnd(usize),
    /// So many bytes fewer than the whole listing takes.
    WholeBut(usize),
}

/// A script and its buffers.
#[derive(Clone)]
pub struct Case {
    pub seed: u64,
    pub script: Vec<u8>,
    pub memories: [usize; SERVERS],
    pub room: Room,
    /// How often it is replayed on the same buffers.
    pub replays: usize,
}

/// How often each call is drawn.
struct Weather {
    odds: [(Word, usize); 7],
    /// One server at a time falls, comes back and is rebuilt, in place of any in any order.
    careful: bool,
}

impl Weather {
    const fn new(
        careful: bool,
        [out, pagein, free, fall, back, rebuild, make]: [usize; 7],
    ) -> Weather {
        let odds = [
            (Word::Out, out),
            (Word::In, pagein),
            (Word::Free, free),
            (Word::Fall, fall),
            (Word::Back, back),
            (Word::Rebuild, rebuild),
            (Word::Make, make),
        ];
        Weather { odds, careful }
    }

    /// Each word as often as its odds say.
    fn ballot(&self) -> Vec<Word> {
        self.odds
            .iter()
            .flat_map(|&(word, odds)| std::iter::repeat_n(word, odds))
            .collect()
    }
}

const WEATHERS: [Weather; 6] = [
    Weather::new(false, [140, 30, 12, 4, 7, 6, 1]),
    Weather::new(false, [100, 40, 10, 14, 18, 17, 1]),
    Weather::new(false, [90, 36, 10, 23, 22, 18, 1]),
    Weather::new(true, [70, 40, 40, 16, 17, 16, 1]),
    Weather::new(true, [100, 50, 10, 13, 13, 13, 1]),
    Weather::new(false, [189, 6, 4, 0, 0, 0, 1]),
];

/// The shape that a script asks for; it need not be one.
#[derive(Clone, Copy)]
struct Wanted {
    groups: usize,
    spares: Option<usize>,
}

impl Wanted {
    /// Every shape that there is, told by number.
    fn shape(number: usize) -> Option<Wanted> {
        let shapes = (3..=32).flat_map(|groups| (2..groups).map(move |spares| (groups, spares)));
        let wanted = |(groups, spares)| Wanted {
            groups,
            spares: Some(spares),
        };
        shapes.map(wanted).nth(number)
    }

    fn draw(random: &mut Random) -> Wanted {
        let groups = match random.below(10) {
            0..=4 => 3 + random.below(4),
            5 => random.below(4),
            _ => random.below(34),
        };
        let spares = match random.below(10) {
            0..=2 => None,
            3 => Some(2),
            4 => Some(random.below(groups + 2)),
            _ => Some(2 + random.below(groups.saturating_sub(2).max(1))),
        };
        Wanted { groups, spares }
    }

    fn pages(self) -> usize {
        self.groups.saturating_sub(self.spares.unwrap_or(2)) * DATA_SERVERS
    }

    fn line(self) -> String {
        let spares = self
            .spares
            .map_or("-".to_string(), |spares| spares.to_string());
        format!("make,{},{spares}\n", self.groups)
    }
}

/// Draws the calls of one script.
struct Writer<'r> {
    random: &'r mut Random,
    ballot: Vec<Word>,
    careful: bool,
    /// Falls, returns and rebuilds so far, and the server of the last.
    pulls: usize,
    pulled: usize,
    capacity: usize,
    /// The pages that most calls are about: those below this number.
    pages: usize,
    text: String,
}

impl Writer<'_> {
    fn call(&mut self) {
        let drawn = self.random.pick(&self.ballot);
        let line = match drawn {
            Word::Make => Wanted::draw(self.random).line(),
            Word::Out => format!("out,{},{}\n", self.page(), self.random.byte()),
            Word::In | Word::Free => format!("{},{},-\n", drawn.text(), self.page()),
            Word::Fall | Word::Back | Word::Rebuild => {
                let (word, server) = if self.careful {
                    self.next_pull()
                } else {
                    (drawn, self.server())
                };
                format!("{},{server},-\n", word.text())
            }
        };
        self.text.push_str(&line);
    }

    fn page(&mut self) -> usize {
        match self.random.below(100) {
            0..=1 => self.capacity + self.random.below(2),
            2 => self
                .random
                .pick(&[239, 240, 255, 256, 65536, u32::MAX as usize]),
            3..=12 => self.random.below(self.capacity.max(1)),
            _ => self.random.below(self.pages),
        }
    }

    fn server(&mut self) -> usize {
        match self.random.below(100) {
            0..=2 => SERVERS + self.random.below(2),
            3 => self.random.pick(&[8, 9, 255, 256, 260, u32::MAX as usize]),
            _ => self.random.below(SERVERS),
        }
    }

    fn next_pull(&mut self) -> (Word, usize) {
        let word = [Word::Fall, Word::Back, Word::Rebuild][self.pulls % 3];
        if word == Word::Fall {
            self.pulled = self.random.below(SERVERS);
        }
        self.pulls += 1;
        (word, self.pulled)
    }

    fn calls(&mut self, count: usize) {
        for _ in 0..count {
            self.call();
        }
    }
}

/// A script that can be read to its end: some calls, the make that is wanted, and further calls.
fn well_formed(random: &mut Random, before: usize, wanted: Wanted, calls: usize) -> Vec<u8> {
    let weather = &WEATHERS[random.below(WEATHERS.len())];
    let capacity = wanted.pages();
    let pages = if random.percent(40) {
        1 + random.below(capacity.max(1))
    } else {
        capacity.max(1)
    };
    let mut writer = Writer {
        ballot: weather.ballot(),
        careful: weather.careful,
        pulls: 0,
        pulled: 0,
        capacity,
        pages,
        text: "call,number,value\n".to_string(),
        random,
    };
    writer.calls(before);
    writer.text.push_str(&wanted.line());
    writer.calls(calls);
    let mut script = writer.text.into_bytes();
    if random.percent(20) {
        script.pop();
    }
    script
}

/// Memories with a slot for each group, some of them with just that.
fn roomy(random: &mut Random, groups: usize) -> [usize; SERVERS] {
    let slots = groups * PAGE_LENGTH;
    std::array::from_fn(|_| match random.below(3) {
        0 => slots,
        1 => slots + random.below(PAGE_LENGTH),
        _ => slots + random.below(3 * PAGE_LENGTH),
    })
}

/// Such memories, but for one that lacks the last group's slot.
fn short(random: &mut Random, groups: usize) -> [usize; SERVERS] {
    let mut memories = roomy(random, groups);
    let slots = groups * PAGE_LENGTH;
    memories[random.below(SERVERS)] = slots.saturating_sub(1 + random.below(PAGE_LENGTH));
    memories
}

fn odd(random: &mut Random) -> [usize; SERVERS] {
    std::array::from_fn(|_| match random.below(4) {
        0 => random.below(5000),
        _ => random.pick(&ODD_LENGTHS),
    })
}

fn room(random: &mut Random) -> Room {
    match random.below(20) {
        0 => Room::Bytes(random.pick(&[0, 1, 30, 31, 32])),
        1 => Room::Bytes(random.below(600)),
        2..=4 => Room::WholeBut(1 + random.below(40)),
        5..=8 => Room::WholeAnd(0),
        _ => Room::WholeAnd(random.below(3000)),
    }
}

impl Case {
    /// The first seeds go through every shape there is.
    pub fn draw(seed: u64) -> Case {
        let random = &mut Random::of_seed(seed);
        match Wanted::shape(seed as usize) {
            Some(wanted) => Case::of_shape(seed, random, wanted),
            None => Case::of_any_kind(seed, random),
        }
    }

    /// A long script over memories with room for its groups.
    fn of_shape(seed: u64, random: &mut Random, wanted: Wanted) -> Case {
        let script = well_formed(random, 0, wanted, 60 + 14 * wanted.groups);
        let memories = roomy(random, wanted.groups);
        let room = Room::WholeAnd(random.below(3000));
        Case {
            seed,
            script,
            memories,
            room,
            replays: 1,
        }
    }

    fn of_any_kind(seed: u64, random: &mut Random) -> Case {
        let wanted = Wanted::draw(random);
        let before = if random.percent(15) {
            random.below(6)
        } else {
            0
        };
        let calls = random.below(60 + 14 * wanted.groups);
        let script = match random.below(10) {
            0..=5 => well_formed(random, before, wanted, calls),
            6..=8 => {
                let script = well_formed(random, before, wanted, calls.min(60));
                damaged(random, script)
            }
            _ => noise(random),
        };
        let memories = match random.below(100) {
            0..=11 => odd(random),
            12..=14 => short(random, wanted.groups),
            _ => roomy(random, wanted.groups),
        };
        let replays = if random.percent(10) { 2 } else { 1 };
        Case {
            seed,
            script,
            memories,
            room: room(random),
            replays,
        }
    }

    /// A short script, for which the listing can be cut everywhere.
    pub fn draw_short(seed: u64) -> Case {
        let random = &mut Random::of_seed(seed);
        let wanted = Wanted {
            groups: 3 + random.below(2),
            spares: None,
        };
        let calls = random.below(30);
        let mut script = well_formed(random, 0, wanted, calls);
        if random.percent(50) {
            script = damaged(random, script);
        }
        let memories = roomy(random, wanted.groups);
        Case {
            seed,
            script,
            memories,
            room: Room::WholeAnd(0),
            replays: 1,
        }
    }
}
