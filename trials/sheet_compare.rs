//! Compares the proved program `sheet` with the Rust's: the same journals, the same bytes written.
use super::book::command;
use super::examples::{examples, rust_sheet};
use super::journals::{Mood, command_to, zeroed};
use super::kinds::own_record;
use super::lines::feed;
use super::long::{day, hostile};
use super::{Random, hex, vote};
use std::collections::BTreeMap;
use std::fs::File;
use std::io::{Read, Write};
use std::os::fd::OwnedFd;
use std::os::unix::net::UnixStream;
use std::process::{Child, Command, ExitStatus, Output, Stdio};
use std::sync::mpsc::{self, RecvTimeoutError};
use std::thread;
use std::time::{Duration, Instant};

/// Every kind of line that a journal can have, by the command and the answer, with those apart that are by the vote or
/// with a tie (#109). 11, 35 and a print that is a link and something else too are not among them: no journal from a
/// zeroed book comes to these.
const KINDS: [&str; 62] = [
    "open opened",
    "open refused 34",
    "open refused 36",
    "open refused 12",
    "offer used slot",
    "offer used link",
    "offer used fallback",
    "offer used slot, fallback",
    "offer refused 34",
    "offer refused 37",
    "offer refused 38",
    "offer refused 13",
    "offer refused 16",
    "offer refused 17",
    "offer refused 0",
    "offer refused 14",
    "ask wait",
    "ask settle 0",
    "ask settle 1",
    "ask settle 2",
    "ask settle 3",
    "ask settle 4",
    "ask void",
    "ask refused 34",
    "ask refused 37",
    "ask refused 0",
    "fix settle 0",
    "fix settle 1",
    "fix settle 2",
    "fix settle 3",
    "fix settle 4",
    "fix void",
    "fix refused 34",
    "fix refused 37",
    "fix refused 38",
    "fix refused 0",
    "fix refused 39",
    "ask wait by the vote",
    "ask settle 3 by the vote",
    "ask settle 3 by the vote, fixed",
    "ask refused 0 by the vote",
    "fix settle 3 by the vote",
    "fix refused 0 by the vote",
    "fix refused 39 by the vote",
    "ask wait with a tie",
    "ask settle 2 with a tie",
    "ask settle 2 with a tie, fixed",
    "ask refused 0 with a tie",
    "fix settle 2 with a tie",
    "fix refused 0 with a tie",
    "fix refused 39 with a tie",
    "withdraw done",
    "withdraw refused 34",
    "withdraw refused 37",
    "withdraw refused 38",
    "withdraw refused 40",
    "withdraw refused 41",
    "unknown refused 32",
    "short open refused 33",
    "short offer refused 33",
    "short ask or fix refused 33",
    "short withdraw refused 33",
];

/// The journals of a trial: one long hostile one, many that are shorter, a plain day, and short ones with every end.
const GROUPS: [&str; 4] = ["one", "many", "day", "short"];
const ONE: usize = 0;
const MANY: usize = 1;
const DAY: usize = 2;
const SHORT: usize = 3;

/// How long a program may take over what it should do at once.
const PATIENCE: Duration = Duration::from_secs(20);

fn used(slot: &str, link: &str, fallback: &str) -> String {
    let names = [(slot != "-", "slot"), (link != "-", "link"), (fallback == "1", "fallback")];
    let uses: Vec<&str> = names.iter().filter(|n| n.0).map(|n| n.1).collect();
    format!("used {}", uses.join(", "))
}

/// The kind of the line of an entry.
fn kind(entry: &[u8], line: &str) -> String {
    let command = match entry[0] {
        1 => "open",
        2 => "offer",
        3 if entry.len() == 10 => "ask",
        4 if entry.len() == 10 => "fix",
        3 | 4 => "ask or fix",
        6 => "withdraw",
        _ => "unknown",
    };
    let words: Vec<&str> = line.split(' ').collect();
    match words.as_slice() {
        ["used", _, slot, link, fallback] => format!("{command} {}", used(slot, link, fallback)),
        ["settle", _, method, _, _] => format!("{command} settle {method}"),
        ["wait", _, _] => format!("{command} wait"),
        [word, _] if *word != "refused" => format!("{command} {word}"),
        ["refused", "33"] => format!("short {command} refused 33"),
        _ => format!("{command} {line}"),
    }
}

/// The entries of a journal that have a line, each with what the vote has to do with it.
fn entries(mut journal: &[u8]) -> Vec<(&[u8], &'static str)> {
    let mut all = Vec::new();
    let mut before = zeroed();
    let keep = |entry, _| {
        all.push((entry, own_record(&before, entry).map_or("", |record| vote::of_line(record, entry))));
        command(&mut before, entry);
        Ok(())
    };
    feed(&mut zeroed(), &mut journal, true, keep).expect("nothing to fail");
    all
}

fn text(bytes: Option<&[u8]>) -> String {
    bytes.map_or("nothing".into(), |b| format!("{:?}", String::from_utf8_lossy(b)))
}

/// The journal as a file, for the programs to read.
const FILE: &str = "target/trials/journal";

fn save(journal: &[u8]) {
    std::fs::write(FILE, journal).unwrap_or_else(|e| panic!("{FILE}: {e}"));
}

fn open(path: &str) -> File {
    File::open(path).unwrap_or_else(|e| panic!("{path}: {e}"))
}

fn output(command: &mut Command) -> Output {
    command.output().unwrap_or_else(|e| panic!("{command:?}: {e}"))
}

/// Whether a program ended by itself, and said just this on standard error: nothing where nothing failed.
fn has_said(end: &Output, message: &str) -> Result<(), String> {
    if end.status.success() && end.stderr == message.as_bytes() {
        return Ok(());
    }
    Err(format!("ended with {} and said {}", end.status, text(Some(&end.stderr))))
}

/// Both programs, and the kinds of lines seen.
struct Trial<'a> {
    ours: &'a str,
    rust: &'a str,
    seen: BTreeMap<String, [u64; GROUPS.len()]>,
    journals: u64,
}

impl Trial<'_> {
    /// Gives a journal to both as a file, and gives back what ours wrote.
    fn both(&mut self, group: usize, journal: &[u8]) -> Result<Vec<u8>, String> {
        save(journal);
        let [ours, rust] = [self.ours, self.rust].map(|p| output(Command::new(p).stdin(open(FILE))));
        for (name, side) in [("ours", &ours), ("Rust", &rust)] {
            has_said(side, "").map_err(|e| format!("{name} {e}"))?;
        }
        self.same(group, journal, &ours.stdout, &rust.stdout)?;
        Ok(ours.stdout)
    }

    /// Whether what both wrote is the same, with a line for each entry.
    fn same(&mut self, group: usize, journal: &[u8], ours: &[u8], rust: &[u8]) -> Result<(), String> {
        self.journals += 1;
        let entries = entries(journal);
        let lines = |bytes: &[u8]| bytes.split_inclusive(|b| *b == b'\n').map(<[u8]>::to_vec).collect::<Vec<_>>();
        let (ours, rust) = (lines(ours), lines(rust));
        for (i, (entry, vote)) in entries.iter().enumerate() {
            let (mine, other) = (ours.get(i).map(Vec::as_slice), rust.get(i).map(Vec::as_slice));
            if mine != other || mine.is_none() {
                let (mine, other) = (text(mine), text(other));
                return Err(format!("command {} ({}): ours {mine}, Rust {other}", i + 1, hex(entry)));
            }
            let line = String::from_utf8_lossy(&ours[i]);
            let kind = kind(entry, line.trim_end()) + vote;
            self.seen.entry(kind).or_default()[group] += 1;
        }
        let end = entries.len();
        match (ours.get(end), rust.get(end)) {
            (None, None) => Ok(()),
            (mine, other) => Err(format!(
                "after the last of {end} commands: ours {}, Rust {}",
                text(mine.map(Vec::as_slice)),
                text(other.map(Vec::as_slice))
            )),
        }
    }

    /// Prints how often each kind was seen, and says whether every one was, and no other.
    fn report(&self) -> bool {
        let mut good = true;
        println!("{:>9} {:>9} {:>9} {:>9}", GROUPS[0], GROUPS[1], GROUPS[2], GROUPS[3]);
        for name in KINDS {
            let seen = self.seen.get(name).copied().unwrap_or_default();
            let is_missing = match name {
                _ if name.ends_with(" 32") || name.ends_with(" 33") => seen[SHORT] == 0,
                // One book has 64 fixings at most.
                _ if name.starts_with("fix settle") || name.ends_with("fixed") => seen[MANY] == 0,
                _ => seen[ONE] == 0 || seen[MANY] == 0,
            };
            let mark = if is_missing { "   NOT SEEN" } else { "" };
            println!("{:9} {:9} {:9} {:9} {name}{mark}", seen[0], seen[1], seen[2], seen[3]);
            good &= !is_missing;
        }
        for (name, seen) in self.seen.iter().filter(|(name, _)| !KINDS.contains(&name.as_str())) {
            println!("{seen:?} {name}   NO SUCH KIND");
            good = false;
        }
        good
    }
}

// ---- in pieces

/// A program whose output is read as it comes, and what it has written so far.
struct Piped {
    child: Child,
    arrives: mpsc::Receiver<Vec<u8>>,
    written: Vec<u8>,
    lines: usize,
}

impl Piped {
    fn new(program: &str, input: Stdio) -> Self {
        let mut child = Command::new(program)
            .stdin(input)
            .stdout(Stdio::piped())
            .stderr(Stdio::piped())
            .spawn()
            .unwrap_or_else(|e| panic!("{program}: {e}"));
        let mut output = child.stdout.take().expect("a pipe");
        let (sends, arrives) = mpsc::channel();
        thread::spawn(move || {
            let mut buffer = [0; 65_536];
            while let Ok(n @ 1..) = output.read(&mut buffer) {
                if sends.send(buffer[..n].to_vec()).is_err() {
                    return;
                }
            }
        });
        Self { child, arrives, written: Vec::new(), lines: 0 }
    }

    fn write(&mut self, piece: &[u8]) -> Result<(), String> {
        let input = self.child.stdin.as_mut().expect("open until the journal ends");
        input.write_all(piece).map_err(|e| format!("a piece was not read: {e}"))
    }

    /// Takes what arrived, which must be whole lines.
    fn take(&mut self, arrived: Vec<u8>) -> Result<(), String> {
        if arrived.last() != Some(&b'\n') {
            return Err(format!("part of a line was written: {}", text(Some(&arrived))));
        }
        self.lines += arrived.iter().filter(|b| **b == b'\n').count();
        self.written.extend(arrived);
        Ok(())
    }

    /// Waits until there are so many lines, and no more.
    fn wait_for(&mut self, lines: usize) -> Result<(), String> {
        while self.lines < lines {
            let arrived = self.arrives.recv_timeout(PATIENCE);
            self.take(arrived.map_err(|_| format!("the line of command {} does not come", self.lines + 1))?)?;
        }
        if self.lines == lines { Ok(()) } else { Err(format!("{} lines for {lines} commands", self.lines)) }
    }

    /// Ends the input if it is a pipe, and waits for the program's end.
    fn finish(mut self) -> Result<Output, String> {
        drop(self.child.stdin.take());
        loop {
            match self.arrives.recv_timeout(PATIENCE) {
                Ok(arrived) => self.take(arrived)?,
                Err(RecvTimeoutError::Disconnected) => break,
                Err(RecvTimeoutError::Timeout) => {
                    return Err("it keeps its output open after the end of its input".into());
                }
            }
        }
        let status = is_over(&mut self.child)?;
        let mut stderr = Vec::new();
        self.child.stderr.take().expect("a pipe").read_to_end(&mut stderr).expect("a pipe");
        Ok(Output { status, stdout: std::mem::take(&mut self.written), stderr })
    }
}

impl Drop for Piped {
    fn drop(&mut self) {
        kill(&mut self.child);
    }
}

/// Ends a program, if it has not ended.
fn kill(child: &mut Child) {
    child.kill().and_then(|()| child.wait()).expect("a child");
}

/// Waits for a program's end.
fn is_over(child: &mut Child) -> Result<ExitStatus, String> {
    let began = Instant::now();
    while began.elapsed() < PATIENCE {
        if let Some(status) = child.try_wait().expect("a child") {
            return Ok(status);
        }
        thread::sleep(Duration::from_millis(1));
    }
    kill(child);
    Err("the program does not end".into())
}

/// Gives a journal to a program in pieces; before the next, the lines of all commands that are whole must be there.
fn in_pieces(program: &str, journal: &[u8], sizes: &[usize]) -> Result<Vec<u8>, String> {
    let mut piped = Piped::new(program, Stdio::piped());
    let mut book = zeroed();
    let (mut at, mut taken, mut lines) = (0, 0, 0);
    for size in sizes.iter().cycle() {
        let end = journal.len().min(at + size);
        piped.write(&journal[at..end])?;
        at = end;
        let mut rest = &journal[taken..at];
        let count = |_: &[u8], _| {
            lines += 1;
            Ok(())
        };
        let has_ended = feed(&mut book, &mut rest, false, count).expect("nothing to fail");
        taken = at - rest.len();
        piped.wait_for(lines)?;
        if has_ended {
            // By itself: the pipe is still open.
            is_over(&mut piped.child)?;
        }
        if has_ended || at == journal.len() {
            break;
        }
    }
    let end = piped.finish()?;
    has_said(&end, "")?;
    Ok(end.stdout)
}

fn pieces(trial: &mut Trial, random: &mut Random) -> Result<(), String> {
    for turn in 0..24 {
        let mut journal = hostile(random, 400);
        match turn % 3 {
            0 => journal.push(random.pick(&[0, 5, 7, 255])),
            1 => journal.extend(&hostile(random, 1)[..9]),
            _ => (),
        }
        let sizes: Vec<usize> = match turn % 4 {
            0 => vec![1],
            1 => (0..97).map(|_| 1 + random.below(200) as usize).collect(),
            _ => (0..97).map(|_| 1 + random.below(12) as usize).collect(),
        };
        save(&journal);
        let ours = in_pieces(trial.ours, &journal, &sizes).map_err(|e| format!("ours, in pieces: {e}"))?;
        let rust = in_pieces(trial.rust, &journal, &sizes).map_err(|e| format!("Rust, in pieces: {e}"))?;
        trial.same(SHORT, &journal, &ours, &rust)?;
    }
    Ok(())
}

// ---- ends

/// A journal of one of these lengths.
fn some(random: &mut Random, lengths: &[u64]) -> Vec<u8> {
    let commands = random.pick(lengths);
    hostile(random, commands)
}

/// The bytes of the commands that there are.
const COMMANDS: [u8; 5] = [1, 2, 3, 4, 6];

/// Journals that end in every way: with nothing, with each unknown byte, with a tail of each length of each command.
fn ends_of_journals(trial: &mut Trial, random: &mut Random) -> Result<(), String> {
    trial.both(SHORT, &[])?;
    for byte in (0..=255).filter(|b| !COMMANDS.contains(b)) {
        let mut journal = some(random, &[0, 1, 5, 30]);
        journal.push(byte);
        trial.both(SHORT, &journal)?;
        // What follows is no part of it.
        journal.extend(some(random, &[1, 3000]));
        trial.both(SHORT, &journal)?;
    }
    for byte in COMMANDS {
        let whole = command_of(random, byte);
        for length in 1..whole.len() {
            let mut journal = some(random, &[0, 1, 5, 30, 3000]);
            journal.extend(&whole[..length]);
            trial.both(SHORT, &journal)?;
        }
    }
    Ok(())
}

/// A command with this byte.
fn command_of(random: &mut Random, byte: u8) -> Vec<u8> {
    loop {
        let mood = Mood::new(random);
        let mut book = zeroed();
        book[0] = random.below(2) as u8;
        let entry = command_to(random, &book, 0, mood);
        if entry[0] == byte {
            return entry;
        }
    }
}

// ---- input that cannot be read, output that cannot be written

const NO_INPUT: &str = "sheet: cannot read standard input";
const NO_OUTPUT: &str = "sheet: cannot write standard output";

fn message(what: &str, read: usize) -> String {
    format!("{what} after byte {read} of the journal\n")
}

/// Our program, started by a shell over the journal that was saved.
fn by_shell(ours: &str, script: &str) -> Output {
    output(Command::new("sh").args(["-c", script, ours]).stdin(open(FILE)))
}

/// Input that cannot be read at all, output that cannot be written at all.
fn says(ours: &str, redirect: &str, what: &str, read: usize) -> Result<(), String> {
    let end = by_shell(ours, &format!("exec \"$0\" {redirect}"));
    has_said(&end, &message(what, read)).map_err(|e| format!("with {redirect}: {e}"))?;
    if end.stdout.is_empty() { Ok(()) } else { Err(format!("with {redirect}: wrote {}", text(Some(&end.stdout)))) }
}

/// What a program wrote before a write failed.
const WRITTEN: &str = "target/trials/written";

/// A write that fails after some lines: the file may not grow further, and the signal for that is ignored.
fn write_fails_later(ours: &str, journal: &[u8]) -> Result<(), String> {
    let end = by_shell(ours, &format!("trap '' XFSZ; ulimit -f 200; exec \"$0\" >{WRITTEN}"));
    let said = String::from_utf8_lossy(&end.stderr);
    let read = said.split(' ').find_map(|word| word.parse().ok()).filter(|n| *n < journal.len());
    let read = read.ok_or(format!("with a small file: said {said:?}"))?;
    has_said(&end, &message(NO_OUTPUT, read)).map_err(|e| format!("with a small file: {e}"))?;
    let written = std::fs::read(WRITTEN).map_err(|e| format!("{WRITTEN}: {e}"))?;
    let due = rust_sheet(&journal[..read], false);
    if written.contains(&b'\n') && written.len() < due.len() && due.starts_with(&written) {
        return Ok(());
    }
    Err(format!("with a small file: it wrote {} bytes, of {} due after byte {read}", written.len(), due.len()))
}

/// A read that fails after some bytes, the last of them part of a command: a socket is reset by its other end when that
/// is closed with a byte unread.
fn read_fails_later(ours: &str, journal: &[u8]) -> Result<(), String> {
    let (mut near, mut far) = UnixStream::pair().map_err(|e| format!("a pair of sockets: {e}"))?;
    far.write_all(&[0]).map_err(|e| e.to_string())?;
    let mut piped = Piped::new(ours, Stdio::from(OwnedFd::from(far)));
    near.write_all(journal).map_err(|e| e.to_string())?;
    let due = rust_sheet(journal, false);
    piped.wait_for(due.iter().filter(|b| **b == b'\n').count())?;
    drop(near);
    let end = piped.finish()?;
    has_said(&end, &message(NO_INPUT, journal.len())).map_err(|e| format!("with a socket that is reset: {e}"))?;
    if end.stdout == due { Ok(()) } else { Err("with a socket that is reset: other lines".into()) }
}

/// Once it cannot write it ends, though there may be more to read. A pipe has no reader by then.
fn stops(ours: &str, journal: &[u8], to: Stdio) -> Result<Output, String> {
    let mut child = Command::new(ours)
        .stdin(Stdio::piped())
        .stdout(to)
        .stderr(Stdio::piped())
        .spawn()
        .unwrap_or_else(|e| panic!("{ours}: {e}"));
    drop(child.stdout.take());
    let input = child.stdin.as_mut().expect("a pipe");
    input.write_all(journal).map_err(|e| e.to_string())?;
    is_over(&mut child)?;
    child.wait_with_output().map_err(|e| e.to_string())
}

fn failures(trial: &mut Trial, random: &mut Random) -> Result<(), String> {
    let journal = hostile(random, 1000);
    trial.both(SHORT, &journal)?;
    for (redirect, what, read) in [
        ("<&-", NO_INPUT, 0),
        ("< .", NO_INPUT, 0),
        (">/dev/full", NO_OUTPUT, journal.len()),
        (">&-", NO_OUTPUT, journal.len()),
    ] {
        says(trial.ours, redirect, what, read)?;
    }
    let long = hostile(random, EACH);
    save(&long);
    write_fails_later(trial.ours, &long)?;
    // Short enough to be read at once.
    let mut short = hostile(random, 40);
    short.extend(&hostile(random, 1)[..9]);
    save(&short);
    read_fails_later(trial.ours, &short)?;
    let full = File::create("/dev/full").map_err(|e| format!("/dev/full: {e}"))?;
    let end = stops(trial.ours, &short, full.into())?;
    has_said(&end, &message(NO_OUTPUT, short.len())).map_err(|e| format!("with a full file, its input open: {e}"))?;
    // It says that it cannot write, as above; that it ends is all that is asked here.
    stops(trial.ours, &short, Stdio::piped()).map(|_| ())
}

// ---- all

/// How many commands the long journals have, and each of the many.
const LONG: u64 = 1_050_000;
const EACH: u64 = 21_000;

/// The examples for people, against the lines worked out by hand.
fn by_hand(trial: &mut Trial) -> Result<(), String> {
    for example in examples() {
        let ours = trial.both(SHORT, &example.journal())?;
        let lines = example.lines();
        if ours != lines.as_bytes() {
            return Err(format!(
                "example {}: wrote\n{}by hand:\n{lines}",
                example.name,
                String::from_utf8_lossy(&ours)
            ));
        }
    }
    Ok(())
}

/// The one long journal has a seed of its own: with it some of the 64 openings are so early that no print fits.
const ONE_SEED: u64 = 88_172_645_463_325_253;

fn all(trial: &mut Trial, random: &mut Random) -> Result<(), String> {
    by_hand(trial)?;
    ends_of_journals(trial, random)?;
    pieces(trial, random)?;
    failures(trial, random)?;
    for _ in 0..LONG / EACH {
        trial.both(MANY, &hostile(random, EACH))?;
    }
    trial.both(ONE, &hostile(&mut Random(ONE_SEED), LONG))?;
    trial.both(DAY, &day(random, LONG))?;
    Ok(())
}

/// Whether the two programs write the same on every journal, and every kind of line was seen.
pub fn compare(random: &mut Random, ours: &str, rust: &str) -> bool {
    let mut trial = Trial { ours, rust, seen: BTreeMap::new(), journals: 0 };
    if let Err(what) = all(&mut trial, random) {
        println!("sheet: {what}; the journal is {FILE}");
        return false;
    }
    let lines: u64 = trial.seen.values().flatten().sum();
    println!("sheet: {} journals, {lines} lines, all the same", trial.journals);
    trial.report()
}
