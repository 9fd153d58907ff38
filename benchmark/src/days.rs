//! Whole days through the programs, bytes in to bytes out.

use model::draw::Draw;
use model::limits::LONGEST_LAXITY;
use std::collections::hash_map::DefaultHasher;
use std::fmt::Write as _;
use std::fs::{self, File};
use std::hash::{Hash, Hasher};
use std::io::{self, BufRead, BufReader};
use std::path::Path;
use std::process::{self, Command};
use std::time::{Duration, Instant};
use std::{env, thread};

/// A day of depth 3: so many slots, so many racks in each, their waits from the shortest to the longest. Each program runs so many times.
pub struct Day {
    pub slots: u32,
    pub racks: u32,
    shortest: u32,
    pub rounds: u32,
}

/// A rack as it arrives; the tickets are 1, 2 and so on.
#[derive(Clone, Copy)]
pub struct Arrival {
    pub wait: u8,
    pub grade: u8,
}

pub const fn day(slots: u32, racks: u32, shortest: u32, rounds: u32) -> Day {
    Day {
        slots,
        racks,
        shortest,
        rounds,
    }
}

/// Where every wait is the longest, the board is as full as a day makes it.
const DAYS: [Day; 8] = [
    day(25_000, 8, 1, 5),
    day(50_000, 8, 1, 5),
    day(100_000, 8, 1, 5),
    day(100_000, 2, 1, 5),
    day(20_000, 8, LONGEST_LAXITY, 5),
    day(200_000, 8, LONGEST_LAXITY, 5),
    day(1_000_000, 2, 1, 3),
    day(1_000_000, 8, 1, 5),
];

/// A program's shortest run, what was last seen of it, and a number that stands for what it printed.
#[derive(Clone, Copy)]
pub struct Ran {
    pub time: Duration,
    pub seen: Seen,
    pub printed: u64,
}

impl Day {
    pub fn name(&self) -> String {
        let Day { slots, racks, .. } = self;
        let waits = match self.shortest {
            LONGEST_LAXITY => format!("every wait {LONGEST_LAXITY}"),
            _ => format!("waits to {LONGEST_LAXITY} spread"),
        };
        format!("a day of {slots} slots, {racks} racks each, {waits}")
    }

    /// All racks of the day, from one fixed stepping formula.
    pub fn arrivals(&self) -> impl Iterator<Item = Arrival> {
        let (mut draw, shortest) = (Draw::new(11), self.shortest);
        (0..self.slots * self.racks).map(move |_| Arrival {
            wait: draw.between(shortest, LONGEST_LAXITY) as u8,
            grade: draw.between(0, 7) as u8,
        })
    }

    fn lines(&self) -> String {
        let mut text = String::from("D,3\n");
        for (ticket, Arrival { wait, grade }) in (1..).zip(self.arrivals()) {
            let _ = writeln!(text, "A,{ticket},{wait},{grade}");
            if ticket % self.racks == 0 {
                text.push_str("B\n");
            }
        }
        text
    }

    /// Runs each day, and hands on what each program's shortest run took.
    pub fn each(programs: &[&str], mut done: impl FnMut(&Day, &[Ran])) -> io::Result<()> {
        let folder = env::temp_dir().join(format!("oven-benchmark-{}", process::id()));
        fs::create_dir_all(&folder)?;
        for day in &DAYS {
            done(day, &day.run(programs, &folder)?);
        }
        fs::remove_dir_all(&folder)
    }

    /// Runs the programs in turn, so many times over; the least time of each counts. Each prints the same every time.
    fn run(&self, programs: &[&str], folder: &Path) -> io::Result<Vec<Ran>> {
        let (input, output) = (folder.join("day.txt"), folder.join("day.out"));
        fs::write(&input, self.lines())?;
        let mut best: Vec<Option<Ran>> = vec![None; programs.len()];
        for _ in 0..self.rounds {
            for (program, least) in programs.iter().zip(&mut best) {
                let ran = once(program, &input, &output)?;
                let least = least.get_or_insert(ran);
                assert!(
                    least.printed == ran.printed,
                    "{program} does not print the same again"
                );
                if ran.time < least.time {
                    *least = ran;
                }
            }
        }
        Ok(best.into_iter().flatten().collect())
    }
}

/// What the system says of a running program, as last seen: its peak memory in kB, its reads and writes, its time on a processor, and of that its time
/// inside the system.
#[derive(Clone, Copy, Default)]
pub struct Seen {
    pub peak: u64,
    pub reads: u64,
    pub writes: u64,
    pub processor: Duration,
    pub system: Duration,
}

impl Seen {
    fn of(id: u32) -> Option<Seen> {
        let text = |name: &str| fs::read_to_string(format!("/proc/{id}/{name}")).ok();
        let (status, io, stat) = (text("status")?, text("io")?, text("stat")?);
        let nanoseconds = text("schedstat")?.split_whitespace().next()?.parse().ok()?;
        // behind the name, which ends with the last bracket, the time in the system is the 13th word, in hundredths of a second
        let ticks: u64 = stat
            .rsplit(')')
            .next()?
            .split_whitespace()
            .nth(12)?
            .parse()
            .ok()?;
        Some(Seen {
            peak: named(&status, "VmHWM:")?,
            reads: named(&io, "syscr:")?,
            writes: named(&io, "syscw:")?,
            processor: Duration::from_nanos(nanoseconds),
            system: Duration::from_millis(10 * ticks),
        })
    }
}

/// The number behind a name at the start of a line.
fn named(text: &str, name: &str) -> Option<u64> {
    let rest = text.lines().find_map(|line| line.strip_prefix(name))?;
    rest.split_whitespace().next()?.parse().ok()
}

/// One run of a program, timed from its start to its end.
fn once(program: &str, input: &Path, output: &Path) -> io::Result<Ran> {
    let mut command = Command::new(program);
    command
        .stdin(File::open(input)?)
        .stdout(File::create(output)?);
    let began = Instant::now();
    let mut child = command.spawn()?;
    let mut seen = Seen::default();
    loop {
        if let Some(ended) = child.try_wait()? {
            let time = began.elapsed();
            assert!(ended.success(), "{program} failed");
            return Ok(Ran {
                time,
                seen,
                printed: fingerprint(output)?,
            });
        }
        seen = Seen::of(child.id()).unwrap_or(seen);
        thread::sleep(Duration::from_millis(1));
    }
}

/// A number that stands for all bytes of an output.
fn fingerprint(output: &Path) -> io::Result<u64> {
    let mut hasher = DefaultHasher::new();
    let (mut output, mut line) = (BufReader::new(File::open(output)?), Vec::new());
    while output.read_until(b'\n', &mut line)? > 0 {
        line.hash(&mut hasher);
        line.clear();
    }
    Ok(hasher.finish())
}
