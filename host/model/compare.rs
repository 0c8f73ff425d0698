//! The library's replay and the model's, over copies of the same buffers.

use std::fmt;

use crate::cases::{Case, Room};
use crate::pager::SERVERS;
use crate::random::Random;
use crate::replay;
use crate::seen::Seen;

extern "C" {
    fn molefleece_replay(
        script: *const u8,
        script_length: usize,
        a: *mut u8,
        a_length: usize,
        b: *mut u8,
        b_length: usize,
        c: *mut u8,
        c_length: usize,
        d: *mut u8,
        d_length: usize,
        parity: *mut u8,
        parity_length: usize,
        listing: *mut u8,
        listing_length: usize,
    ) -> i64;
}

fn library_replay(script: &[u8], memories: [&mut [u8]; SERVERS], listing: &mut [u8]) -> i64 {
    let [a, b, c, d, parity] = memories;
    // SAFETY: the slices are not null, hold values, and as exclusive borrows do not overlap.
    unsafe {
        molefleece_replay(
            script.as_ptr(),
            script.len(),
            a.as_mut_ptr(),
            a.len(),
            b.as_mut_ptr(),
            b.len(),
            c.as_mut_ptr(),
            c.len(),
            d.as_mut_ptr(),
            d.len(),
            parity.as_mut_ptr(),
            parity.len(),
            listing.as_mut_ptr(),
            listing.len(),
        )
    }
}

/// A buffer with guards on both sides: bytes that are not the buffer's, and have to stay.
struct Guarded {
    block: Vec<u8>,
    front: usize,
    length: usize,
}

impl Guarded {
    const GUARD: usize = 64;

    /// The buffer begins at any place of a machine word.
    fn around(contents: &[u8], random: &mut Random) -> Guarded {
        let front = Guarded::GUARD + random.below(16);
        let length = contents.len();
        let mut block: Vec<u8> = (0..front + length + Guarded::GUARD)
            .map(Guarded::guard_byte)
            .collect();
        block[front..front + length].copy_from_slice(contents);
        Guarded {
            block,
            front,
            length,
        }
    }

    fn guard_byte(at: usize) -> u8 {
        (at * 37 + 11) as u8
    }

    /// The buffer; one of no bytes is lent by a pointer that is not null and points to nothing.
    fn lent(&mut self) -> &mut [u8] {
        match self.length {
            0 => &mut [],
            length => &mut self.block[self.front..self.front + length],
        }
    }

    fn contents(&self) -> &[u8] {
        &self.block[self.front..self.front + self.length]
    }

    fn guards_stand(&self) -> bool {
        let mut guards = (0..self.front).chain(self.front + self.length..self.block.len());
        guards.all(|at| self.block[at] == Guarded::guard_byte(at))
    }
}

#[derive(Clone, Copy)]
enum Buffer {
    Script,
    Memory(usize),
    Listing,
}

impl fmt::Display for Buffer {
    fn fmt(&self, f: &mut fmt::Formatter) -> fmt::Result {
        match self {
            Buffer::Script => f.write_str("the script"),
            Buffer::Memory(server) => write!(f, "the memory of server {server}"),
            Buffer::Listing => f.write_str("the listing"),
        }
    }
}

/// What the library and the model differ in.
enum Difference {
    Answer,
    Byte(Buffer, usize),
    Guard(Buffer),
}

/// A difference, and all that is needed to see it again.
pub struct Report {
    difference: Difference,
    case: Case,
    replay: usize,
    library: (i64, Vec<u8>),
    model: (i64, Vec<u8>),
}

fn listed(answer: i64, listing: &[u8]) -> String {
    let written = if answer < 0 { -1 - answer } else { answer };
    let written = usize::try_from(written).map_or(0, |written| written.min(listing.len()));
    String::from_utf8_lossy(&listing[..written]).into_owned()
}

impl fmt::Display for Report {
    fn fmt(&self, f: &mut fmt::Formatter) -> fmt::Result {
        let Case {
            seed,
            script,
            memories,
            room,
            ..
        } = &self.case;
        match self.difference {
            Difference::Answer => writeln!(f, "the answers differ")?,
            Difference::Byte(buffer, at) => writeln!(f, "byte {at} of {buffer} differs")?,
            Difference::Guard(buffer) => writeln!(f, "the library wrote beside {buffer}")?,
        }
        writeln!(
            f,
            "seed {seed}, replay {}, memories {memories:?}, listing {room:?}",
            self.replay
        )?;
        writeln!(
            f,
            "--- script\n{}",
            script.escape_ascii().to_string().replace("\\n", "\n")
        )?;
        let (answer, listing) = &self.library;
        writeln!(
            f,
            "--- the library's answer {answer}, listing\n{}",
            listed(*answer, listing)
        )?;
        let (answer, listing) = &self.model;
        write!(
            f,
            "--- the model's answer {answer}, listing\n{}",
            listed(*answer, listing)
        )
    }
}

/// The bytes of the five memories and the listing, for the model.
struct Lent {
    memories: [Vec<u8>; SERVERS],
    listing: Vec<u8>,
}

impl Lent {
    fn filled(case: &Case, room: usize, random: &mut Random) -> Lent {
        Lent {
            memories: case.memories.map(|length| random.bytes(length)),
            listing: random.bytes(room),
        }
    }

    fn replay(&mut self, script: &[u8], seen: &mut Seen) -> i64 {
        let memories = self.memories.each_mut().map(|memory| &mut memory[..]);
        replay::replay(script, memories, &mut self.listing, seen)
    }
}

/// Copies of the same buffers, for the library.
struct LibraryLent {
    script: Guarded,
    memories: [Guarded; SERVERS],
    listing: Guarded,
}

impl LibraryLent {
    fn copy(case: &Case, lent: &Lent, random: &mut Random) -> LibraryLent {
        LibraryLent {
            script: Guarded::around(&case.script, random),
            memories: lent
                .memories
                .each_ref()
                .map(|memory| Guarded::around(memory, random)),
            listing: Guarded::around(&lent.listing, random),
        }
    }

    fn replay(&mut self) -> i64 {
        let memories = self.memories.each_mut().map(Guarded::lent);
        library_replay(self.script.lent(), memories, self.listing.lent())
    }

    /// The first difference from what the model left.
    fn difference(&self, script: &[u8], lent: &Lent) -> Option<Difference> {
        let memories = self.memories.iter().zip(&lent.memories).enumerate();
        let memories = memories
            .map(|(server, (library, model))| (Buffer::Memory(server), library, &model[..]));
        [
            (Buffer::Listing, &self.listing, &lent.listing[..]),
            (Buffer::Script, &self.script, script),
        ]
        .into_iter()
        .chain(memories)
        .find_map(|(buffer, library, model)| buffer_difference(buffer, library, model))
    }
}

fn buffer_difference(buffer: Buffer, library: &Guarded, model: &[u8]) -> Option<Difference> {
    if !library.guards_stand() {
        return Some(Difference::Guard(buffer));
    }
    if library.contents() == model {
        return None;
    }
    let at = library
        .contents()
        .iter()
        .zip(model)
        .position(|(library, model)| library != model);
    Some(Difference::Byte(buffer, at.unwrap_or(model.len())))
}

/// How many bytes the whole listing takes.
pub fn whole_listing(case: &Case) -> usize {
    // A line takes at most 64 bytes. Besides the line of names there is one for each end of a line,
    // and one for the last, which may lack it.
    let room = 64 * (case.script.iter().filter(|&&byte| byte == b'\n').count() + 2);
    let mut lent = Lent::filled(case, room, &mut Random::of_seed(case.seed));
    let answer = lent.replay(&case.script, &mut Seen::default());
    usize::try_from(answer).expect("each line has room")
}

fn room_in_bytes(case: &Case) -> usize {
    match case.room {
        Room::Bytes(count) => count,
        Room::WholeAnd(more) => whole_listing(case) + more,
        Room::WholeBut(fewer) => whole_listing(case).saturating_sub(fewer),
    }
}

/// Replays a case by the library and by the model, as often as it says, and compares all that they
/// leave.
pub fn compare(case: &Case, seen: &mut Seen) -> Result<(), Box<Report>> {
    let random = &mut Random::of_seed(!case.seed);
    let mut lent = Lent::filled(case, room_in_bytes(case), random);
    let mut library_lent = LibraryLent::copy(case, &lent, random);
    for replay in 1..=case.replays {
        let library = library_lent.replay();
        let model = lent.replay(&case.script, seen);
        let difference = if library == model {
            library_lent.difference(&case.script, &lent)
        } else {
            Some(Difference::Answer)
        };
        if let Some(difference) = difference {
            return Err(Box::new(Report {
                difference,
                case: case.clone(),
                replay,
                library: (library, library_lent.listing.contents().to_vec()),
                model: (model, lent.listing),
            }));
        }
    }
    Ok(())
}
