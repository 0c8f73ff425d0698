//! Replaying a script: what `molefleece_replay` has to come to, by docs/REPLAY.md.

use crate::pager::{Pager, Refusal, SERVERS};
use crate::script::{lines, Call, LINE_OF_NAMES};
use crate::seen::{Answer, Ending, Seen};
use crate::servers::Page;

const LISTING_NAMES: &str = "line,call,number,answer,detail";

/// The next line has no room.
struct Full;

struct Listing<'l> {
    buffer: &'l mut [u8],
    written: usize,
}

impl Listing<'_> {
    fn write(&mut self, line: &str) -> Result<(), Full> {
        let end = self.written + line.len() + 1;
        let room = self.buffer.get_mut(self.written..end).ok_or(Full)?;
        room[..line.len()].copy_from_slice(line.as_bytes());
        room[line.len()] = b'\n';
        self.written = end;
        Ok(())
    }
}

pub fn replay(
    script: &[u8],
    memories: [&mut [u8]; SERVERS],
    listing: &mut [u8],
    seen: &mut Seen,
) -> i64 {
    let mut listing = Listing {
        buffer: listing,
        written: 0,
    };
    let mut pager = Pager::over(memories, seen);
    let ending = list(script, &mut pager, &mut listing);
    seen.note_ending(ending);
    let written = listing.written as i64;
    match ending {
        Ending::Whole | Ending::Unread => written,
        Ending::NoRoomForNames | Ending::NoRoomForACall | Ending::NoRoomForUnread => -1 - written,
    }
}

fn list(script: &[u8], pager: &mut Pager, listing: &mut Listing) -> Ending {
    if listing.write(LISTING_NAMES).is_err() {
        return Ending::NoRoomForNames;
    }
    for (number, line) in (1..).zip(lines(script)) {
        let ending = match (number, Call::read(line)) {
            (1, _) if line == LINE_OF_NAMES => None,
            (1, _) | (_, None) => Some(list_unread(number, listing)),
            (_, Some(call)) => list_call(number, call, pager, listing)
                .err()
                .map(|Full| Ending::NoRoomForACall),
        };
        if let Some(ending) = ending {
            return ending;
        }
    }
    Ending::Whole
}

fn list_unread(number: u64, listing: &mut Listing) -> Ending {
    match listing.write(&format!("{number},-,-,unread,-")) {
        Ok(()) => Ending::Unread,
        Err(Full) => Ending::NoRoomForUnread,
    }
}

fn list_call(
    number: u64,
    call: Call,
    pager: &mut Pager,
    listing: &mut Listing,
) -> Result<(), Full> {
    let (answer, detail) = match run(call, pager) {
        Ok(detail) => (Answer::Done, detail),
        Err(Refusal::Lost(missing)) => {
            pager.seen.note_lost(missing);
            (Answer::Lost, missing.to_string())
        }
        Err(Refusal::Shape) => (Answer::Shape, nothing(())),
        Err(Refusal::Range) => (Answer::Range, nothing(())),
        Err(Refusal::None) => (Answer::None, nothing(())),
    };
    pager.seen.note_answer(call.word(), answer);
    let word = call.word().text();
    listing.write(&format!(
        "{number},{word},{},{},{detail}",
        call.number(),
        answer.word()
    ))
}

fn nothing(_: ()) -> String {
    "-".to_string()
}

/// The detail of a call that is done.
fn run(call: Call, pager: &mut Pager) -> Result<String, Refusal> {
    match call {
        Call::Make { groups, spares } => pager
            .make(groups as usize, spares as usize)
            .map(|pages| pages.to_string()),
        Call::Out { page, value } => pager
            .pageout(page as usize, &Page::of_value(value))
            .map(nothing),
        Call::In { page } => pager
            .pagein(page as usize)
            .map(|page| page.first_byte().to_string()),
        Call::Free { page } => pager.free(page as usize).map(nothing),
        Call::Fall { server } => pager.fall(server as usize).map(nothing),
        Call::Back { server } => pager.back(server as usize).map(nothing),
        Call::Rebuild { server } => {
            let rebuilt = pager.rebuild(server as usize)?;
            pager.seen.note_rebuild(rebuilt.groups, rebuilt.failed);
            Ok(format!("{}/{}", rebuilt.groups, rebuilt.failed))
        }
    }
}
