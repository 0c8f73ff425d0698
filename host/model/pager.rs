//! The parity log over four data servers and a parity server, as docs/LOG.md has its rules.

use std::fmt;

use crate::seen::{Event, Seen};
use crate::servers::{Page, Server};

pub const DATA_SERVERS: usize = 4;
pub const PARITY: usize = DATA_SERVERS;
pub const SERVERS: usize = DATA_SERVERS + 1;

/// The servers whose members were missing.
#[derive(Clone, Copy, PartialEq, Eq, PartialOrd, Ord, Default)]
pub struct Missing([bool; SERVERS]);

impl Missing {
    fn with(mut self, server: usize) -> Missing {
        self.0[server] = true;
        self
    }

    pub fn servers(self) -> impl Iterator<Item = usize> {
        (0..SERVERS).filter(move |&server| self.0[server])
    }
}

impl fmt::Display for Missing {
    fn fmt(&self, f: &mut fmt::Formatter) -> fmt::Result {
        let numbers: Vec<String> = self.servers().map(|server| server.to_string()).collect();
        f.write_str(&numbers.join("+"))
    }
}

pub enum Refusal {
    Shape,
    Range,
    None,
    Lost(Missing),
}

#[derive(Clone, Copy, PartialEq)]
struct Place {
    group: usize,
    position: usize,
}

/// Where a page was put, and whether the server took it.
struct Placed {
    place: Place,
    taken: bool,
}

#[derive(Clone, Copy)]
enum PageState {
    NotOut,
    Out(Place),
    Lost(Missing),
}

#[derive(Clone, Copy, PartialEq)]
enum Group {
    Free,
    Open { filled: usize },
    Closed,
}

/// What a rebuild came to.
#[derive(Default)]
pub struct Rebuilt {
    pub groups: usize,
    pub failed: usize,
}

pub struct Pager<'m> {
    servers: [Server<'m>; SERVERS],
    /// No groups and no pages until it is made.
    groups: Vec<Group>,
    pages: Vec<PageState>,
    running_parity: Page,
    opened_last: Option<usize>,
    pub seen: &'m mut Seen,
}

impl<'m> Pager<'m> {
    pub fn over(memories: [&'m mut [u8]; SERVERS], seen: &'m mut Seen) -> Pager<'m> {
        Pager {
            servers: memories.map(Server::over),
            groups: Vec::new(),
            pages: Vec::new(),
            running_parity: Page::ZERO,
            opened_last: None,
            seen,
        }
    }

    pub fn make(&mut self, groups: usize, spares: usize) -> Result<usize, Refusal> {
        let has_shape = (3..=32).contains(&groups) && (2..groups).contains(&spares);
        let has_room = self.servers.iter().all(|server| server.size() >= groups);
        if self.is_made() || !has_shape || !has_room {
            return Err(Refusal::Shape);
        }
        self.seen.note_shape(groups, spares);
        let capacity = (groups - spares) * DATA_SERVERS;
        self.groups = vec![Group::Free; groups];
        self.pages = vec![PageState::NotOut; capacity];
        Ok(capacity)
    }

    pub fn pageout(&mut self, page: usize, bytes: &Page) -> Result<(), Refusal> {
        self.admit_page(page)?;
        let group = self.open_group();
        let until_then = self.place(page);
        let placed = self.put_next(group, page, bytes);
        if let Some(old) = until_then {
            self.release(old.group, Event::FreedByOut);
        }
        self.close_if_filled(group);
        if placed.taken {
            Ok(())
        } else {
            self.keep_or_lose(page, placed.place)
        }
    }

    pub fn pagein(&mut self, page: usize) -> Result<Page, Refusal> {
        self.admit_page(page)?;
        match self.pages[page] {
            PageState::NotOut => Err(Refusal::None),
            PageState::Lost(missing) => {
                self.seen.note(Event::LostBefore);
                Err(Refusal::Lost(missing))
            }
            PageState::Out(place) => self.read(place).map_err(Refusal::Lost),
        }
    }

    pub fn free(&mut self, page: usize) -> Result<(), Refusal> {
        self.admit_page(page)?;
        let until_then = self.place(page);
        self.pages[page] = PageState::NotOut;
        if let Some(old) = until_then {
            self.release(old.group, Event::FreedByFree);
        }
        Ok(())
    }

    pub fn fall(&mut self, server: usize) -> Result<(), Refusal> {
        self.admit_server(server)?;
        self.servers[server].fall();
        Ok(())
    }

    pub fn back(&mut self, server: usize) -> Result<(), Refusal> {
        self.admit_server(server)?;
        self.servers[server].back();
        Ok(())
    }

    pub fn rebuild(&mut self, server: usize) -> Result<Rebuilt, Refusal> {
        self.admit_server(server)?;
        let mut rebuilt = Rebuilt::default();
        for group in 0..self.groups.len() {
            match self.rebuild_member(group, server) {
                None => self.seen.note(Event::NothingToRebuild),
                Some(true) => rebuilt.groups += 1,
                Some(false) => rebuilt.failed += 1,
            }
        }
        Ok(rebuilt)
    }

    fn is_made(&self) -> bool {
        !self.groups.is_empty()
    }

    fn admit_page(&self, page: usize) -> Result<(), Refusal> {
        match page {
            _ if !self.is_made() => Err(Refusal::Shape),
            page if page >= self.pages.len() => Err(Refusal::Range),
            _ => Ok(()),
        }
    }

    fn admit_server(&self, server: usize) -> Result<(), Refusal> {
        match server {
            _ if !self.is_made() => Err(Refusal::Shape),
            server if server >= SERVERS => Err(Refusal::Range),
            _ => Ok(()),
        }
    }

    fn place(&self, page: usize) -> Option<Place> {
        match self.pages[page] {
            PageState::Out(place) => Some(place),
            PageState::NotOut | PageState::Lost(_) => None,
        }
    }

    /// The page that is out at a place: a position of which there is one is live.
    fn page_at(&self, place: Place) -> Option<usize> {
        (0..self.pages.len()).find(|&page| self.place(page) == Some(place))
    }

    /// The pages that are out in a group, in the order of their positions.
    fn live_pages(&self, group: usize) -> Vec<usize> {
        let places = (0..DATA_SERVERS).map(|position| Place { group, position });
        places.filter_map(|place| self.page_at(place)).collect()
    }

    /// The servers that have a member of the group, in ascending order.
    fn members(&self, group: usize) -> std::ops::Range<usize> {
        match self.groups[group] {
            Group::Free => 0..0,
            Group::Open { filled } => 0..filled,
            Group::Closed => 0..SERVERS,
        }
    }

    /// What the group's members but one's come to, or the ones that are missing beside that one.
    fn sum_without(&self, group: usize, server: usize) -> Result<Page, Missing> {
        let mut sum = match self.groups[group] {
            Group::Open { .. } => self.running_parity.clone(),
            Group::Free | Group::Closed => Page::ZERO,
        };
        let mut missing = Missing::default();
        for other in self.members(group).filter(|&other| other != server) {
            match self.servers[other].get(group) {
                Some(page) => sum.add(&page),
                None => missing = missing.with(other),
            }
        }
        match missing.servers().next() {
            None => Ok(sum),
            Some(_) => Err(missing),
        }
    }

    fn read(&mut self, place: Place) -> Result<Page, Missing> {
        let Place { group, position } = place;
        if let Some(page) = self.servers[position].get(group) {
            return Ok(page);
        }
        match self.sum_without(group, position) {
            Ok(page) => {
                self.note_by_group(group, Event::RestoredInOpen, Event::RestoredInClosed);
                Ok(page)
            }
            Err(others) => {
                self.note_by_group(group, Event::FoundLostInOpen, Event::FoundLostInClosed);
                Err(others.with(position))
            }
        }
    }

    fn note_by_group(&mut self, group: usize, in_open: Event, in_closed: Event) {
        self.seen.note(match self.groups[group] {
            Group::Closed => in_closed,
            Group::Free | Group::Open { .. } => in_open,
        });
    }

    /// The open group; with none open, one is opened, after a cleaning if it was the only free one.
    fn open_group(&mut self) -> usize {
        let is_open = |group: &Group| matches!(group, Group::Open { .. });
        if let Some(open) = self.groups.iter().position(is_open) {
            return open;
        }
        let count = self.groups.len();
        let from = self.opened_last.map_or(0, |last| last + 1);
        let mut round = (from..from + count).map(|group| group % count);
        let Some(opened) = round.find(|&group| self.groups[group] == Group::Free) else {
            unreachable!("between calls a free group is left");
        };
        if self.opened_last.is_some_and(|last| opened <= last) {
            self.seen.note(Event::OpenedRound);
        }
        self.groups[opened] = Group::Open { filled: 0 };
        self.opened_last = Some(opened);
        if !self.groups.contains(&Group::Free) {
            self.clean(opened);
        }
        opened
    }

    /// Moves the live pages of the closed group with the fewest into the open one, and frees it.
    fn clean(&mut self, open: usize) {
        let closed = (0..self.groups.len()).filter(|&group| self.groups[group] == Group::Closed);
        let counts = closed.map(|group| (self.live_pages(group).len(), group));
        let Some((fewest, cleaned)) = counts.clone().min() else {
            unreachable!("where one group is left, the others are closed");
        };
        if counts.filter(|&(count, _)| count == fewest).count() > 1 {
            self.seen.note(Event::CleaningTied);
        }
        self.seen.note(Event::Cleaning);
        for page in self.live_pages(cleaned) {
            self.move_page(page, open);
        }
        self.free_group(cleaned);
    }

    fn move_page(&mut self, page: usize, open: usize) {
        let Some(place) = self.place(page) else {
            unreachable!("a live page is out");
        };
        match self.read(place) {
            Err(missing) => {
                self.seen.note(Event::CleaningLostPage);
                self.pages[page] = PageState::Lost(missing);
            }
            Ok(bytes) => {
                let placed = self.put_next(open, page, &bytes);
                self.seen.note(if placed.taken {
                    Event::CleaningMovedPage
                } else {
                    Event::CleaningPutRefused
                });
            }
        }
    }

    /// Puts a page at the open group's next position, where it is out from then on, whether or not
    /// the put is done.
    fn put_next(&mut self, open: usize, page: usize, bytes: &Page) -> Placed {
        let position = self.members(open).end;
        let place = Place {
            group: open,
            position,
        };
        let taken = self.servers[position].put(open, bytes).is_ok();
        self.running_parity.add(bytes);
        self.groups[open] = Group::Open {
            filled: position + 1,
        };
        self.pages[page] = PageState::Out(place);
        Placed { place, taken }
    }

    fn close_if_filled(&mut self, group: usize) {
        if self.groups[group]
            != (Group::Open {
                filled: DATA_SERVERS,
            })
        {
            return;
        }
        if self.servers[PARITY]
            .put(group, &self.running_parity)
            .is_err()
        {
            self.seen.note(Event::ClosedWithoutParity);
        }
        self.running_parity = Page::ZERO;
        self.groups[group] = Group::Closed;
    }

    /// After a put that was refused: the group's other members have the page, or it is lost.
    fn keep_or_lose(&mut self, page: usize, place: Place) -> Result<(), Refusal> {
        let Place { group, position } = place;
        let Err(others) = self.sum_without(group, position) else {
            self.note_by_group(group, Event::PutRefusedInOpen, Event::PutRefusedInClosed);
            return Ok(());
        };
        self.note_by_group(group, Event::OutLostInOpen, Event::OutLostInClosed);
        let missing = others.with(position);
        self.pages[page] = PageState::Lost(missing);
        self.release(group, Event::FreedByLoss);
        Err(Refusal::Lost(missing))
    }

    /// Frees a closed group that has no live position left.
    fn release(&mut self, group: usize, why: Event) {
        if self.groups[group] == Group::Closed && self.live_pages(group).is_empty() {
            self.seen.note(why);
            self.free_group(group);
        }
    }

    fn free_group(&mut self, group: usize) {
        self.groups[group] = Group::Free;
        for server in &mut self.servers {
            server.free(group);
        }
    }

    /// Whether the server's member of a group was rebuilt; none if it has none there, or kept it.
    fn rebuild_member(&mut self, group: usize, server: usize) -> Option<bool> {
        if !self.members(group).contains(&server) || self.servers[server].get(group).is_some() {
            return None;
        }
        let Ok(member) = self.sum_without(group, server) else {
            self.seen.note(Event::RebuildMissedOthers);
            return Some(false);
        };
        if self.servers[server].put(group, &member).is_err() {
            self.seen.note(Event::RebuildPutRefused);
            return Some(false);
        }
        self.seen.note(
            match self.page_at(Place {
                group,
                position: server,
            }) {
                _ if server == PARITY => Event::RebuiltParity,
                None => Event::RebuiltOld,
                Some(_) => Event::RebuiltLive,
            },
        );
        self.note_by_group(group, Event::RebuiltInOpen, Event::RebuiltInClosed);
        Some(true)
    }
}
