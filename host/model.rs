//! Holds the static library's replay to an independent model of it, over many scripts and, if a
//! folder is given, over each file of that folder too. The model was written from the rules in
//! docs/ alone.
//!
//! tools/host.sh builds and runs it.

#[path = "model/cases.rs"]
mod cases;
#[path = "model/compare.rs"]
mod compare;
#[path = "model/damage.rs"]
mod damage;
#[path = "model/pager.rs"]
mod pager;
#[path = "model/random.rs"]
mod random;
#[path = "model/replay.rs"]
mod replay;
#[path = "model/script.rs"]
mod script;
#[path = "model/seen.rs"]
mod seen;
#[path = "model/servers.rs"]
mod servers;

use std::error::Error;
use std::path::{Path, PathBuf};
use std::process::ExitCode;
use std::{env, fs, thread};

use cases::{Case, Room};
use compare::{compare, whole_listing, Report};
use pager::SERVERS;
use seen::Seen;

/// A seed for each script.
const DRAWN: u64 = 40_000;
/// Of these scripts the listing is cut everywhere.
const CUT: u64 = 60;
/// The replays run side by side, each thread on buffers of its own.
const THREADS: u64 = 3;

/// How much was compared.
#[derive(Default)]
struct Compared {
    scripts: u64,
    cuts: u64,
    files: u64,
    seen: Seen,
}

impl Compared {
    fn add(&mut self, other: Compared) {
        self.scripts += other.scripts;
        self.cuts += other.cuts;
        self.files += other.files;
        self.seen.add(other.seen);
    }

    fn drawn(&mut self, case: &Case) -> Result<(), Box<Report>> {
        self.scripts += 1;
        compare(case, &mut self.seen)
    }

    /// The case with a listing of every length, up to one byte more than it takes.
    fn cut_everywhere(&mut self, case: &Case) -> Result<(), Box<Report>> {
        for length in 0..=whole_listing(case) + 1 {
            self.cuts += 1;
            compare(
                &Case {
                    room: Room::Bytes(length),
                    ..case.clone()
                },
                &mut self.seen,
            )?;
        }
        Ok(())
    }

    fn file(&mut self, script: Vec<u8>) -> Result<(), Box<Report>> {
        let usual = Case {
            seed: self.files,
            script,
            memories: [8192; SERVERS],
            room: Room::Bytes(8192),
            replays: 2,
        };
        self.files += 1;
        compare(&usual, &mut self.seen)?;
        let roomy = Case {
            memories: [33280; SERVERS],
            room: Room::WholeAnd(0),
            ..usual.clone()
        };
        compare(&roomy, &mut self.seen)?;
        compare(
            &Case {
                room: Room::WholeBut(1),
                ..usual
            },
            &mut self.seen,
        )
    }
}

/// The drawn scripts that fall to one of the threads.
fn compare_share(thread: u64) -> Result<Compared, Box<Report>> {
    let mut compared = Compared::default();
    for seed in (0..DRAWN).filter(|seed| seed % THREADS == thread) {
        compared.drawn(&Case::draw(seed))?;
        if seed < CUT {
            compared.cut_everywhere(&Case::draw_short(seed))?;
        }
    }
    Ok(compared)
}

fn compare_drawn() -> Result<Compared, Box<Report>> {
    let shares = thread::scope(|scope| {
        let threads = (0..THREADS).map(|thread| scope.spawn(move || compare_share(thread)));
        let threads: Vec<_> = threads.collect();
        threads
            .into_iter()
            .map(|thread| thread.join())
            .collect::<Vec<_>>()
    });
    let mut compared = Compared::default();
    for share in shares {
        match share {
            Ok(share) => compared.add(share?),
            Err(panic) => std::panic::resume_unwind(panic),
        }
    }
    Ok(compared)
}

fn files_of(folder: &Path) -> Result<Vec<PathBuf>, Box<dyn Error>> {
    let paths: Result<Vec<PathBuf>, _> = fs::read_dir(folder)?
        .map(|entry| entry.map(|entry| entry.path()))
        .collect();
    let mut files: Vec<PathBuf> = paths?.into_iter().filter(|path| path.is_file()).collect();
    files.sort();
    if files.is_empty() {
        return Err(format!("no files in {}", folder.display()).into());
    }
    Ok(files)
}

fn compare_all() -> Result<Compared, Box<dyn Error>> {
    let mut compared = compare_drawn().map_err(|report| report.to_string())?;
    if let Some(folder) = env::args_os().nth(1) {
        for path in files_of(Path::new(&folder))? {
            let script = fs::read(&path)?;
            compared
                .file(script)
                .map_err(|report| format!("{}: {report}", path.display()))?;
        }
    }
    Ok(compared)
}

fn main() -> ExitCode {
    let compared = match compare_all() {
        Ok(compared) => compared,
        Err(why) => {
            eprintln!("{why}");
            return ExitCode::FAILURE;
        }
    };
    let Compared {
        scripts,
        cuts,
        files,
        seen,
    } = compared;
    println!("{scripts} scripts, {cuts} cuts of a listing, {files} files");
    println!("{seen}");
    let never = seen.never_came_up();
    if !never.is_empty() {
        eprintln!("never came up: {}", never.join(", "));
        return ExitCode::FAILURE;
    }
    println!("all equal");
    ExitCode::SUCCESS
}
