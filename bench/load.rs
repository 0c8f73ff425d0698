//! The load of `crates/page_load`, call for call, and what it came to.
use crate::{PAGE_SIZE, PAGES, Page, Refusal};
use std::fmt;

const SEED: u64 = 1;
const MULTIPLIER: u64 = 6364136223846793005;

/// What the load drives.
pub trait Paging {
    fn pageout(&mut self, page: usize, bytes: &Page) -> Result<(), Refusal>;
    fn pagein(&mut self, page: usize, buffer: &mut Page) -> Result<(), Refusal>;
    fn free(&mut self, page: usize) -> Result<(), Refusal>;
}

/// Knows which pages are out and keeps no bytes: what is left is the load's own work.
pub struct Idle {
    out: [bool; PAGES],
}

impl Default for Idle {
    fn default() -> Self {
        Self {
            out: [false; PAGES],
        }
    }
}

impl Paging for Idle {
    fn pageout(&mut self, page: usize, _bytes: &Page) -> Result<(), Refusal> {
        self.out[page] = true;
        Ok(())
    }

    fn pagein(&mut self, page: usize, buffer: &mut Page) -> Result<(), Refusal> {
        // so that the checksum over it is taken anew for each pagein
        std::hint::black_box(buffer);
        self.out[page].then_some(()).ok_or(Refusal::None)
    }

    fn free(&mut self, page: usize) -> Result<(), Refusal> {
        self.out[page] = false;
        Ok(())
    }
}

/// A fixed sequence of numbers.
struct Draws(u64);

impl Draws {
    fn below(&mut self, end: u64) -> u64 {
        self.0 = (self.0 * 1103515245 + 12345) % 2147483648;
        // the low bits of such a sequence repeat soon
        self.0 / 65536 % end
    }
}

enum Call {
    Pageout(usize, u8),
    Pagein(usize),
    Free(usize),
}

impl Call {
    /// Half of the calls are pageouts, three in eight pageins.
    fn draw(draws: &mut Draws) -> Self {
        let kind = draws.below(8);
        let page = draws.below(PAGES as u64) as usize;
        match kind {
            0..=3 => Self::Pageout(page, draws.below(256) as u8),
            4..=6 => Self::Pagein(page),
            _ => Self::Free(page),
        }
    }
}

fn test_page(value: usize) -> Page {
    std::array::from_fn(|j| ((value + j) % 256) as u8)
}

/// A sum over words that knows their order: each word multiplies all that came before it once more.
struct Checksum(u64);

impl Checksum {
    fn add(&mut self, word: u64) {
        self.0 = self.0.wrapping_mul(MULTIPLIER).wrapping_add(word);
    }

    /// A page as words of eight bytes, the lowest byte first.
    fn add_page(&mut self, page: &Page) {
        let (words, _) = page.as_chunks();
        for word in words {
            self.add(u64::from_le_bytes(*word));
        }
    }
}

/// What the calls came to, and a checksum over their answers and over the bytes that were delivered.
pub struct Tally {
    calls: u32,
    pageouts: u32,
    pageins: u32,
    none: u32,
    frees: u32,
    checksum: Checksum,
}

impl fmt::Display for Tally {
    fn fmt(&self, f: &mut fmt::Formatter<'_>) -> fmt::Result {
        let Tally {
            calls,
            pageouts,
            pageins,
            none,
            frees,
            checksum,
        } = self;
        writeln!(f, "calls     {calls}")?;
        writeln!(f, "pageouts  {pageouts} done")?;
        writeln!(f, "pageins   {pageins} done, {none} refused as none")?;
        writeln!(f, "frees     {frees} done")?;
        write!(f, "checksum  {:016x}", checksum.0)
    }
}

impl Tally {
    fn new(calls: u32) -> Self {
        Self {
            calls,
            pageouts: 0,
            pageins: 0,
            none: 0,
            frees: 0,
            checksum: Checksum(1),
        }
    }

    /// An answer goes into the checksum as the refusal's number, done as 0.
    fn answered(&mut self, refused: Option<Refusal>) {
        self.checksum
            .add(refused.map_or(0, |refusal| refusal as u64));
    }

    fn paged_in(&mut self, done: Result<(), Refusal>, buffer: &Page) -> Result<(), Refusal> {
        match done {
            Ok(()) => {
                self.pageins += 1;
                self.answered(None);
                self.checksum.add_page(buffer);
            }
            Err(Refusal::None) => {
                self.none += 1;
                self.answered(Some(Refusal::None));
            }
            Err(refusal) => return Err(refusal),
        }
        Ok(())
    }
}

/// A load under way. Its test pages are made and its buffer is cleared beforehand, so that each call costs it little.
struct Load {
    tests: [Page; 256],
    buffer: Page,
    tally: Tally,
}

impl Load {
    fn new(calls: u32) -> Self {
        Self {
            tests: std::array::from_fn(test_page),
            buffer: [0; PAGE_SIZE],
            tally: Tally::new(calls),
        }
    }

    fn make_call<P: Paging>(&mut self, pager: &mut P, call: Call) -> Result<(), Refusal> {
        match call {
            Call::Pageout(page, value) => {
                pager.pageout(page, &self.tests[usize::from(value)])?;
                self.tally.pageouts += 1;
                self.tally.answered(None);
            }
            Call::Pagein(page) => {
                let done = pager.pagein(page, &mut self.buffer);
                self.tally.paged_in(done, &self.buffer)?;
            }
            Call::Free(page) => {
                pager.free(page)?;
                self.tally.frees += 1;
                self.tally.answered(None);
            }
        }
        Ok(())
    }
}

/// So many drawn calls.
pub fn drive<P: Paging>(pager: &mut P, calls: u32) -> Result<Tally, Refusal> {
    let mut draws = Draws(SEED);
    let mut load = Load::new(calls);
    for _ in 0..calls {
        let call = Call::draw(&mut draws);
        load.make_call(pager, call)?;
    }
    Ok(load.tally)
}
