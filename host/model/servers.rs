//! Pages, and memory servers over lent bytes, as docs/SERVERS.md has them.

pub const PAGE_LENGTH: usize = 512;
const MOST_SLOTS: usize = 64;

#[derive(Clone)]
pub struct Page([u8; PAGE_LENGTH]);

impl Page {
    pub const ZERO: Page = Page([0; PAGE_LENGTH]);

    pub fn of_value(value: u8) -> Page {
        Page(std::array::from_fn(|j| value.wrapping_add(j as u8)))
    }

    pub fn add(&mut self, other: &Page) {
        for (mine, theirs) in self.0.iter_mut().zip(&other.0) {
            *mine ^= theirs;
        }
    }

    pub fn first_byte(&self) -> u8 {
        self.0[0]
    }
}

struct Slot<'m> {
    bytes: &'m mut [u8],
    holds: bool,
}

/// A put that the server did not take.
pub struct NotTaken;

pub struct Server<'m> {
    slots: Vec<Slot<'m>>,
    up: bool,
}

impl<'m> Server<'m> {
    pub fn over(memory: &'m mut [u8]) -> Server<'m> {
        let pages = memory.chunks_exact_mut(PAGE_LENGTH).take(MOST_SLOTS);
        Server {
            slots: pages
                .map(|bytes| Slot {
                    bytes,
                    holds: false,
                })
                .collect(),
            up: true,
        }
    }

    pub fn size(&self) -> usize {
        self.slots.len()
    }

    pub fn put(&mut self, slot: usize, page: &Page) -> Result<(), NotTaken> {
        if !self.up {
            return Err(NotTaken);
        }
        let slot = &mut self.slots[slot];
        slot.bytes.copy_from_slice(&page.0);
        slot.holds = true;
        Ok(())
    }

    pub fn get(&self, slot: usize) -> Option<Page> {
        let slot = &self.slots[slot];
        slot.holds.then(|| {
            let mut page = Page::ZERO;
            page.0.copy_from_slice(slot.bytes);
            page
        })
    }

    pub fn free(&mut self, slot: usize) {
        self.slots[slot].holds = false;
    }

    /// Takes the server down, and with it all that it holds. The bytes stay.
    pub fn fall(&mut self) {
        self.up = false;
        for slot in &mut self.slots {
            slot.holds = false;
        }
    }

    pub fn back(&mut self) {
        self.up = true;
    }
}
