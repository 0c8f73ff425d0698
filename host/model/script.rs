//! Reading a script, as docs/REPLAY.md has its format.

pub const LINE_OF_NAMES: &[u8] = b"call,number,value";

#[derive(Clone, Copy, Debug, PartialEq, Eq, PartialOrd, Ord)]
pub enum Word {
    Make,
    Out,
    In,
    Free,
    Fall,
    Back,
    Rebuild,
}

impl Word {
    pub const ALL: [Word; 7] = [
        Word::Make,
        Word::Out,
        Word::In,
        Word::Free,
        Word::Fall,
        Word::Back,
        Word::Rebuild,
    ];

    pub fn text(self) -> &'static str {
        match self {
            Word::Make => "make",
            Word::Out => "out",
            Word::In => "in",
            Word::Free => "free",
            Word::Fall => "fall",
            Word::Back => "back",
            Word::Rebuild => "rebuild",
        }
    }

    fn of(field: &[u8]) -> Option<Word> {
        Word::ALL
            .into_iter()
            .find(|word| word.text().as_bytes() == field)
    }
}

#[derive(Clone, Copy)]
pub enum Call {
    Make { groups: u32, spares: u32 },
    Out { page: u32, value: u8 },
    In { page: u32 },
    Free { page: u32 },
    Fall { server: u32 },
    Back { server: u32 },
    Rebuild { server: u32 },
}

impl Call {
    pub fn word(self) -> Word {
        match self {
            Call::Make { .. } => Word::Make,
            Call::Out { .. } => Word::Out,
            Call::In { .. } => Word::In,
            Call::Free { .. } => Word::Free,
            Call::Fall { .. } => Word::Fall,
            Call::Back { .. } => Word::Back,
            Call::Rebuild { .. } => Word::Rebuild,
        }
    }

    pub fn number(self) -> u32 {
        match self {
            Call::Make { groups, .. } => groups,
            Call::Out { page, .. } | Call::In { page } | Call::Free { page } => page,
            Call::Fall { server } | Call::Back { server } | Call::Rebuild { server } => server,
        }
    }

    pub fn read(line: &[u8]) -> Option<Call> {
        let fields: Vec<&[u8]> = line.split(|&byte| byte == b',').collect();
        let [word, number, value] = fields[..] else {
            return None;
        };
        let word = Word::of(word)?;
        let number = read_number(number)?;
        match word {
            Word::Make => Some(Call::Make {
                groups: number,
                spares: read_spares(value)?,
            }),
            Word::Out => {
                let value = u8::try_from(read_number(value)?).ok()?;
                Some(Call::Out {
                    page: number,
                    value,
                })
            }
            _ if value != b"-" => None,
            Word::In => Some(Call::In { page: number }),
            Word::Free => Some(Call::Free { page: number }),
            Word::Fall => Some(Call::Fall { server: number }),
            Word::Back => Some(Call::Back { server: number }),
            Word::Rebuild => Some(Call::Rebuild { server: number }),
        }
    }
}

fn read_spares(field: &[u8]) -> Option<u32> {
    match field {
        b"-" => Some(2),
        digits => read_number(digits),
    }
}

/// A number has one spelling, so it is read only from the text that would be written of it.
fn read_number(field: &[u8]) -> Option<u32> {
    let text = std::str::from_utf8(field).ok()?;
    text.parse()
        .ok()
        .filter(|number: &u32| number.to_string() == text)
}

/// The lines, without the ends. An end behind the last line opens no further one.
pub fn lines(script: &[u8]) -> impl Iterator<Item = &[u8]> {
    script
        .strip_suffix(b"\n")
        .unwrap_or(script)
        .split(|&byte| byte == b'\n')
}
