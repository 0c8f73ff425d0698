//! A parity-logging pager in plain Rust over five memories that never fail, driven by the load of `crates/page_load`.
mod load;

use load::{Idle, Paging, Tally};
use std::env;
use std::error::Error;

const PAGE_SIZE: usize = 512;
const SERVERS: usize = 4;
const GROUPS: usize = 16;
const SPARES: usize = 4;
const PAGES: usize = (GROUPS - SPARES) * SERVERS;

/// Where the program is given no number.
const CALLS: u32 = 100_000;

type Page = [u8; PAGE_SIZE];

/// Adds a page into another: the exclusive or, one byte at a time.
fn add(sum: &mut Page, page: &Page) {
    for (byte, added) in sum.iter_mut().zip(page) {
        *byte ^= added;
    }
}

#[derive(Clone, Copy, PartialEq, Eq, Debug)]
enum Refusal {
    Range = 1,
    None = 3,
    Gone = 5,
}

/// Slot s is the page at PAGE_SIZE * s of the bytes.
struct Memory {
    bytes: Vec<u8>,
    held: [bool; GROUPS],
}

impl Memory {
    fn new() -> Self {
        Self {
            bytes: vec![0; PAGE_SIZE * GROUPS],
            held: [false; GROUPS],
        }
    }

    fn put(&mut self, slot: usize, page: &Page) -> Result<(), Refusal> {
        *self.held.get_mut(slot).ok_or(Refusal::Range)? = true;
        let at = PAGE_SIZE * slot;
        self.bytes[at..at + PAGE_SIZE].copy_from_slice(page);
        Ok(())
    }

    fn get(&self, slot: usize, buffer: &mut Page) -> Result<(), Refusal> {
        if !*self.held.get(slot).ok_or(Refusal::Range)? {
            return Err(Refusal::None);
        }
        let at = PAGE_SIZE * slot;
        buffer.copy_from_slice(&self.bytes[at..at + PAGE_SIZE]);
        Ok(())
    }

    fn free(&mut self, slot: usize) {
        self.held[slot] = false;
    }
}

#[derive(Clone, Copy)]
struct Place {
    group: usize,
    position: usize,
}

#[derive(Clone, Copy, PartialEq, Eq)]
enum State {
    Free,
    Open,
    Closed,
}

/// A group of pages, one on each data server, and who is out at each position.
#[derive(Clone, Copy)]
struct Group {
    state: State,
    owners: [Option<usize>; SERVERS],
}

impl Group {
    fn live(&self) -> usize {
        self.owners.iter().flatten().count()
    }
}

/// The data servers, and then the parity server. `last` is the group opened last; `filled` of its positions are filled.
struct Pager {
    memories: [Memory; SERVERS + 1],
    pages: [Option<Place>; PAGES],
    groups: [Group; GROUPS],
    last: Option<usize>,
    filled: usize,
    parity: Page,
}

impl Pager {
    fn new() -> Self {
        Self {
            memories: std::array::from_fn(|_| Memory::new()),
            pages: [None; PAGES],
            groups: [Group {
                state: State::Free,
                owners: [None; SERVERS],
            }; GROUPS],
            last: None,
            filled: 0,
            parity: [0; PAGE_SIZE],
        }
    }

    /// The open group, or one that is opened now; the last free one only for a cleaning.
    fn ready(&mut self) -> Result<usize, Refusal> {
        if let Some(group) = self
            .last
            .filter(|&group| self.groups[group].state == State::Open)
        {
            return Ok(group);
        }
        let group = self.next_free();
        let fewest = if self.count(State::Free) > 1 {
            None
        } else {
            self.fewest_live()
        };
        self.groups[group].state = State::Open;
        self.last = Some(group);
        if let Some(from) = fewest {
            self.clean(group, from)?;
        }
        Ok(group)
    }

    fn count(&self, state: State) -> usize {
        self.groups
            .iter()
            .filter(|group| group.state == state)
            .count()
    }

    /// The first free group met going up, round from the group after the one opened last.
    fn next_free(&self) -> usize {
        let start = self.last.map_or(0, |group| group + 1);
        (start..start + GROUPS)
            .map(|group| group % GROUPS)
            .find(|&group| self.groups[group].state == State::Free)
            .expect("one group is free")
    }

    fn fewest_live(&self) -> Option<usize> {
        (0..GROUPS)
            .filter(|&group| self.groups[group].state == State::Closed)
            .min_by_key(|&group| self.groups[group].live())
    }

    /// Moves what is live in a group into the open one, and frees the group.
    fn clean(&mut self, into: usize, from: usize) -> Result<(), Refusal> {
        let mut bytes = [0; PAGE_SIZE];
        for position in 0..SERVERS {
            if let Some(page) = self.groups[from].owners[position] {
                self.memories[position].get(from, &mut bytes)?;
                self.place(into, page, &bytes)?;
            }
        }
        self.release(from);
        Ok(())
    }

    /// Puts a page at the next position of the open group.
    fn place(&mut self, group: usize, page: usize, bytes: &Page) -> Result<(), Refusal> {
        let place = Place {
            group,
            position: self.filled,
        };
        self.memories[place.position].put(group, bytes)?;
        if let Some(old) = self.pages[page].replace(place) {
            self.groups[old.group].owners[old.position] = None;
        }
        self.groups[group].owners[place.position] = Some(page);
        self.filled += 1;
        add(&mut self.parity, bytes);
        Ok(())
    }

    fn release_unused(&mut self, group: usize) {
        if self.groups[group].state == State::Closed && self.groups[group].live() == 0 {
            self.release(group);
        }
    }

    fn release(&mut self, group: usize) {
        self.groups[group].state = State::Free;
        for memory in &mut self.memories {
            memory.free(group);
        }
    }

    fn close(&mut self, group: usize) -> Result<(), Refusal> {
        self.memories[SERVERS].put(group, &self.parity)?;
        self.parity = [0; PAGE_SIZE];
        self.filled = 0;
        self.groups[group].state = State::Closed;
        Ok(())
    }
}

impl Paging for Pager {
    fn pageout(&mut self, page: usize, bytes: &Page) -> Result<(), Refusal> {
        if page >= PAGES {
            return Err(Refusal::Range);
        }
        let group = self.ready()?;
        let old = self.pages[page];
        self.place(group, page, bytes)?;
        if let Some(place) = old {
            self.release_unused(place.group);
        }
        if self.filled == SERVERS {
            self.close(group)?;
        }
        Ok(())
    }

    fn pagein(&mut self, page: usize, buffer: &mut Page) -> Result<(), Refusal> {
        let place = self.pages.get(page).ok_or(Refusal::Range)?;
        let place = place.ok_or(Refusal::None)?;
        // a page that is out and not held: its server lost it
        self.memories[place.position]
            .get(place.group, buffer)
            .map_err(|_| Refusal::Gone)
    }

    fn free(&mut self, page: usize) -> Result<(), Refusal> {
        let old = self.pages.get_mut(page).ok_or(Refusal::Range)?.take();
        if let Some(place) = old {
            self.groups[place.group].owners[place.position] = None;
            self.release_unused(place.group);
        }
        Ok(())
    }
}

/// The arguments: how many calls, and `idle` for the load alone, with no pager below it.
fn main() -> Result<(), Box<dyn Error>> {
    let words: Vec<String> = env::args().skip(1).collect();
    let calls = words.first().map_or(Ok(CALLS), |word| word.parse())?;
    let tally: Result<Tally, Refusal> = match words.get(1).map(String::as_str) {
        None => load::drive(&mut Pager::new(), calls),
        Some("idle") => load::drive(&mut Idle::default(), calls),
        Some(word) => return Err(format!("{word} is not idle").into()),
    };
    println!("{}", tally.map_err(|refusal| format!("{refusal:?}"))?);
    Ok(())
}
