//! What came up while scripts were replayed, and whether all came up that should.

use std::collections::BTreeMap;
use std::fmt;

use crate::pager::{Missing, SERVERS};
use crate::script::Word;

/// What happens inside calls and can't be told from a line of the listing alone.
#[derive(Clone, Copy, Debug, PartialEq, Eq, PartialOrd, Ord)]
pub enum Event {
    OpenedRound,
    ClosedWithoutParity,
    Cleaning,
    CleaningTied,
    CleaningMovedPage,
    CleaningPutRefused,
    CleaningLostPage,
    FreedByOut,
    FreedByFree,
    FreedByLoss,
    PutRefusedInOpen,
    PutRefusedInClosed,
    OutLostInOpen,
    OutLostInClosed,
    RestoredInOpen,
    RestoredInClosed,
    FoundLostInOpen,
    FoundLostInClosed,
    LostBefore,
    NothingToRebuild,
    RebuiltLive,
    RebuiltOld,
    RebuiltParity,
    RebuiltInOpen,
    RebuiltInClosed,
    RebuildPutRefused,
    RebuildMissedOthers,
}

impl Event {
    const ALL: [Event; 27] = [
        Event::OpenedRound,
        Event::ClosedWithoutParity,
        Event::Cleaning,
        Event::CleaningTied,
        Event::CleaningMovedPage,
        Event::CleaningPutRefused,
        Event::CleaningLostPage,
        Event::FreedByOut,
        Event::FreedByFree,
        Event::FreedByLoss,
        Event::PutRefusedInOpen,
        Event::PutRefusedInClosed,
        Event::OutLostInOpen,
        Event::OutLostInClosed,
        Event::RestoredInOpen,
        Event::RestoredInClosed,
        Event::FoundLostInOpen,
        Event::FoundLostInClosed,
        Event::LostBefore,
        Event::NothingToRebuild,
        Event::RebuiltLive,
        Event::RebuiltOld,
        Event::RebuiltParity,
        Event::RebuiltInOpen,
        Event::RebuiltInClosed,
        Event::RebuildPutRefused,
        Event::RebuildMissedOthers,
    ];
}

/// What a call came to, as its line has it.
#[derive(Clone, Copy, Debug, PartialEq, Eq, PartialOrd, Ord)]
pub enum Answer {
    Done,
    Range,
    None,
    Lost,
    Shape,
}

impl Answer {
    const ALL: [Answer; 5] = [
        Answer::Done,
        Answer::Range,
        Answer::None,
        Answer::Lost,
        Answer::Shape,
    ];

    pub fn word(self) -> &'static str {
        match self {
            Answer::Done => "done",
            Answer::Range => "range",
            Answer::None => "none",
            Answer::Lost => "lost",
            Answer::Shape => "shape",
        }
    }

    /// The answers that a call of this word can come to.
    fn of_word(word: Word) -> &'static [Answer] {
        use Answer::{Done, Lost, None, Range, Shape};
        match word {
            Word::Make => &[Done, Shape],
            Word::Out => &[Done, Range, Lost, Shape],
            Word::In => &[Done, Range, None, Lost, Shape],
            Word::Free | Word::Fall | Word::Back | Word::Rebuild => &[Done, Range, Shape],
        }
    }
}

/// How a replay ended.
#[derive(Clone, Copy, Debug, PartialEq, Eq, PartialOrd, Ord)]
pub enum Ending {
    Whole,
    Unread,
    NoRoomForNames,
    NoRoomForACall,
    NoRoomForUnread,
}

impl Ending {
    const ALL: [Ending; 5] = [
        Ending::Whole,
        Ending::Unread,
        Ending::NoRoomForNames,
        Ending::NoRoomForACall,
        Ending::NoRoomForUnread,
    ];
}

/// How often each came up.
#[derive(Clone)]
struct Counts<K>(BTreeMap<K, u64>);

impl<K> Default for Counts<K> {
    fn default() -> Counts<K> {
        Counts(BTreeMap::new())
    }
}

impl<K: Ord> Counts<K> {
    fn note(&mut self, what: K) {
        *self.0.entry(what).or_default() += 1;
    }

    fn of(&self, what: &K) -> u64 {
        self.0.get(what).copied().unwrap_or_default()
    }

    fn add(&mut self, others: Counts<K>) {
        for (what, count) in others.0 {
            *self.0.entry(what).or_default() += count;
        }
    }

    fn kinds(&self) -> usize {
        self.0.len()
    }
}

#[derive(Clone, Default)]
pub struct Seen {
    endings: Counts<Ending>,
    answers: Counts<(Word, Answer)>,
    shapes: Counts<(usize, usize)>,
    lost_sets: Counts<Missing>,
    rebuilds: Counts<(usize, usize)>,
    events: Counts<Event>,
}

impl Seen {
    pub fn note(&mut self, event: Event) {
        self.events.note(event);
    }

    pub fn note_ending(&mut self, ending: Ending) {
        self.endings.note(ending);
    }

    pub fn note_answer(&mut self, word: Word, answer: Answer) {
        self.answers.note((word, answer));
    }

    pub fn note_shape(&mut self, groups: usize, spares: usize) {
        self.shapes.note((groups, spares));
    }

    pub fn note_lost(&mut self, missing: Missing) {
        self.lost_sets.note(missing);
    }

    pub fn note_rebuild(&mut self, groups: usize, failed: usize) {
        self.rebuilds.note((groups, failed));
    }

    pub fn add(&mut self, other: Seen) {
        self.endings.add(other.endings);
        self.answers.add(other.answers);
        self.shapes.add(other.shapes);
        self.lost_sets.add(other.lost_sets);
        self.rebuilds.add(other.rebuilds);
        self.events.add(other.events);
    }

    /// How many calls of any word came to this.
    fn calls(&self, answer: Answer) -> u64 {
        let counts = Word::ALL.map(|word| self.answers.of(&(word, answer)));
        counts.iter().sum()
    }

    /// What should have come up and did not; nothing, if the run was a full one.
    pub fn never_came_up(&self) -> Vec<String> {
        // Each set of two or more servers can be missing. A pager has 3 to 32 groups, and of spare
        // ones 2 at least and one fewer than groups at most.
        let sets = (1 << SERVERS) - 1 - SERVERS;
        let shapes = (3..=32).map(|groups| groups - 2).sum();
        let endings = Ending::ALL
            .iter()
            .filter(|ending| self.endings.of(ending) == 0);
        let pairs = Word::ALL.iter().flat_map(|&word| {
            Answer::of_word(word)
                .iter()
                .map(move |&answer| (word, answer))
        });
        let events = Event::ALL.iter().filter(|event| self.events.of(event) == 0);
        let mut never: Vec<String> = endings.map(|ending| format!("{ending:?}")).collect();
        never.extend(
            pairs
                .filter(|pair| self.answers.of(pair) == 0)
                .map(|pair| format!("{pair:?}")),
        );
        never.extend(events.map(|event| format!("{event:?}")));
        never.extend(
            (self.lost_sets.kinds() != sets).then(|| format!("each of {sets} missing sets")),
        );
        never.extend((self.shapes.kinds() != shapes).then(|| format!("each of {shapes} shapes")));
        let both = |&(groups, failed): &(usize, usize)| groups > 0 && failed > 0;
        never.extend((!self.rebuilds.0.keys().any(both)).then(|| "a rebuild in part".to_string()));
        never
    }
}

impl fmt::Display for Seen {
    fn fmt(&self, f: &mut fmt::Formatter) -> fmt::Result {
        let endings = Ending::ALL.map(|ending| format!("{ending:?} {}", self.endings.of(&ending)));
        let by_answer =
            Answer::ALL.map(|answer| format!("{} {}", answer.word(), self.calls(answer)));
        let by_word = Word::ALL.map(|word| {
            let counts = Answer::of_word(word)
                .iter()
                .map(|&answer| (answer, self.answers.of(&(word, answer))));
            let texts: Vec<String> = counts
                .map(|(answer, count)| format!("{} {count}", answer.word()))
                .collect();
            format!("  {} {}", word.text(), texts.join(", "))
        });
        let events = Event::ALL.map(|event| format!("{event:?} {}", self.events.of(&event)));
        writeln!(f, "endings: {}", endings.join(", "))?;
        writeln!(f, "calls that ran: {}", by_answer.join(", "))?;
        writeln!(f, "{}", by_word.join("\n"))?;
        writeln!(f, "shapes made: {}", self.shapes.kinds())?;
        writeln!(f, "missing sets: {}", self.lost_sets.kinds())?;
        writeln!(f, "rebuild counts: {}", self.rebuilds.kinds())?;
        write!(f, "within calls: {}", events.join(", "))
    }
}
