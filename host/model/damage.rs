//! Damage to scripts: most of it makes a line that can't be read.

use crate::random::Random;

const NAMES: &[u8] = b"call,number,value\n";

/// One thing that is done to a script.
type Damage = fn(&mut Random, &mut Vec<u8>);

const DAMAGES: [Damage; 12] = [
    change_byte,
    drop_byte,
    add_byte,
    carriage_returns,
    spell_number_otherwise,
    take_about_the_largest,
    drop_field,
    add_field,
    change_field,
    change_names,
    empty,
    end_otherwise,
];

pub fn damaged(random: &mut Random, mut script: Vec<u8>) -> Vec<u8> {
    let damage = random.pick(&DAMAGES);
    damage(random, &mut script);
    script
}

/// Bytes of no script, or such behind a line of names.
pub fn noise(random: &mut Random) -> Vec<u8> {
    const ALPHABET: &[u8] = b"makeoutinfreefallbackrebuild0123456789,,,,--\n\n\r\0 +";
    let count = random.below(200);
    let mut script = if random.percent(50) {
        NAMES.to_vec()
    } else {
        Vec::new()
    };
    if random.percent(50) {
        script.extend(random.bytes(count));
    } else {
        script.extend((0..count).map(|_| random.pick(ALPHABET)));
    }
    script
}

fn place(random: &mut Random, script: &[u8]) -> usize {
    random.below(script.len().max(1))
}

fn likely_byte(random: &mut Random) -> u8 {
    if random.percent(30) {
        random.byte()
    } else {
        random.pick(b"0123456789,-\n\r\0 +\tmo")
    }
}

/// Another byte in its place, or one of its bits turned: a letter can come into its other case.
fn change_byte(random: &mut Random, script: &mut Vec<u8>) {
    let at = place(random, script);
    script[at] = match random.below(3) {
        0 => script[at] ^ (1 << random.below(8)),
        1 => script[at] ^ 0x20,
        _ => likely_byte(random),
    };
}

fn drop_byte(random: &mut Random, script: &mut Vec<u8>) {
    let at = place(random, script);
    script.remove(at);
}

fn add_byte(random: &mut Random, script: &mut Vec<u8>) {
    let at = random.below(script.len() + 1);
    script.insert(at, likely_byte(random));
}

/// A carriage return at one line's end, or at every line's.
fn carriage_returns(random: &mut Random, script: &mut Vec<u8>) {
    let every = random.percent(50);
    edit_lines(random, script, every, |_, line| line.push(b'\r'));
}

fn spell_number_otherwise(random: &mut Random, script: &mut Vec<u8>) {
    let front = random.pick(&["0", "00", "+", "-", " ", "\0", "0x", ","]);
    edit_field(random, script, |_, field| {
        field.splice(0..0, front.bytes());
    });
}

/// A number about as large as can be read or larger, also one that is small again where 8, 32 or 64
/// bits wrap.
fn take_about_the_largest(random: &mut Random, script: &mut Vec<u8>) {
    edit_field(random, script, |random, field| {
        let small = random.below(6) as u128;
        let number = match random.below(7) {
            0 => u128::from(u32::MAX),
            1 => (1 << 32) + small,
            2 => (1 << 64) + small,
            3 => 10 * u128::from(u32::MAX) + small,
            4 | 5 => 255 + small,
            _ => 10_u128.pow(30) + small,
        };
        *field = number.to_string().into_bytes();
    });
}

fn drop_field(random: &mut Random, script: &mut Vec<u8>) {
    edit_line(random, script, |random, line| {
        let mut fields: Vec<&[u8]> = line.split(|&byte| byte == b',').collect();
        fields.remove(random.below(fields.len()));
        *line = fields.join(&b',');
    });
}

fn add_field(random: &mut Random, script: &mut Vec<u8>) {
    let further = random.pick(&[",", ",-", ",0", ",,", ",1,-"]);
    edit_line(random, script, |_, line| line.extend(further.bytes()));
}

fn change_field(random: &mut Random, script: &mut Vec<u8>) {
    const FIELDS: [&str; 14] = [
        "", "-", "--", "0", "7", "255", "256", "Out", "outs", "ou", "in", "free", "rebuild", "make",
    ];
    edit_field(random, script, |random, field| {
        *field = random.pick(&FIELDS).into()
    });
}

fn change_names(random: &mut Random, script: &mut Vec<u8>) {
    const LINES: [&str; 7] = [
        "",
        "call,number",
        "call,number,value,",
        "call, number, value",
        "Call,number,value",
        "line,call,number,answer,detail",
        "make,3,-",
    ];
    let end = script
        .iter()
        .position(|&byte| byte == b'\n')
        .unwrap_or(script.len());
    script.splice(..end, random.pick(&LINES).bytes());
}

fn empty(_: &mut Random, script: &mut Vec<u8>) {
    script.clear();
}

/// The last line's end is dropped, doubled, or the script is cut anywhere.
fn end_otherwise(random: &mut Random, script: &mut Vec<u8>) {
    let at = place(random, script);
    match random.below(4) {
        0 => script.truncate(at),
        1 => script.push(b'\n'),
        2 => script.push(b'\0'),
        _ => script.truncate(script.len().saturating_sub(1)),
    }
}

/// Edits one line behind the line of names, or each.
fn edit_lines(
    random: &mut Random,
    script: &mut Vec<u8>,
    every: bool,
    mut edit: impl FnMut(&mut Random, &mut Vec<u8>),
) {
    let mut lines: Vec<Vec<u8>> = script
        .split(|&byte| byte == b'\n')
        .map(<[u8]>::to_vec)
        .collect();
    let chosen = 1 + random.below(lines.len().saturating_sub(2).max(1));
    for (number, line) in lines.iter_mut().enumerate() {
        if every || number == chosen {
            edit(random, line);
        }
    }
    *script = lines.join(&b'\n');
}

fn edit_line(
    random: &mut Random,
    script: &mut Vec<u8>,
    edit: impl FnMut(&mut Random, &mut Vec<u8>),
) {
    edit_lines(random, script, false, edit);
}

/// Edits one field of a line: most often its number or its value.
fn edit_field(
    random: &mut Random,
    script: &mut Vec<u8>,
    mut edit: impl FnMut(&mut Random, &mut Vec<u8>),
) {
    edit_line(random, script, |random, line| {
        let mut fields: Vec<Vec<u8>> = line
            .split(|&byte| byte == b',')
            .map(<[u8]>::to_vec)
            .collect();
        let chosen = random.pick(&[0, 1, 1, 1, 2, 2]).min(fields.len() - 1);
        edit(random, &mut fields[chosen]);
        *line = fields.join(&b',');
    });
}
