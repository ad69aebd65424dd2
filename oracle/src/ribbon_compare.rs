//! Runs the command `ribbon`, or another one of its interface, on generated files and compares with the oracle its exit status, every byte of its
//! standard output, and the lines of its standard error that an interface fixes. The first difference ends it.

use std::{
    fs,
    io::{Read, Write},
    os::unix::process::CommandExt,
    path::PathBuf,
    process::{Child, Command, Stdio},
    sync::mpsc,
    thread,
    time::{Duration, Instant},
};

use crate::{
    angles,
    job::Refusal,
    pdb::names_of,
    ribbon::{End, ribbon, thousandths},
    ribbon_files::{Case, SMALL_FILE, SMALL_RESIDUES, SMALL_VERTICES, case},
    stl::{FACET, HEADER},
};

/// The lines of standard error that are compared begin so; all others are words for a person.
const COMPARED: [&str; 7] = [
    "read:",
    "built:",
    "break: chain",
    "break: and",
    "alone:",
    "written:",
    "refused ",
];

/// How many lines and bytes of what was said a report has.
const SHOWN: usize = 40;

pub struct Options {
    /// The command and its first arguments; `--scale MM` is put behind them.
    pub command: Vec<String>,
    pub files: u64,
    pub seed: u64,
    /// Where a difference is written.
    pub out: PathBuf,
    /// The command has the small room only, and must refuse what does not fit it.
    pub small: bool,
    /// How long one run may take.
    pub wait: Duration,
}

// ── What is expected ──────────────────────────────────────────────────────────

/// How the command must end.
enum Expected {
    WrongUsage,
    /// The file is past the small room: some words and no byte.
    NoRoom,
    Run {
        end: End,
        status: i32,
        stl: Vec<u8>,
        lines: Vec<String>,
    },
}

fn compared(line: &str) -> bool {
    COMPARED.iter().any(|c| line.starts_with(c))
}

/// Past the small room, whatever else is wrong with it.
fn past_small(file: &[u8], end: End) -> bool {
    let vertices = match end {
        End::Written(c) => c.v > SMALL_VERTICES,
        // More vertices than any room has.
        End::Refused(Refusal { number: 10, .. }) => true,
        _ => false,
    };
    vertices || file.len() > SMALL_FILE || names_of(file).len() > SMALL_RESIDUES
}

fn expected(c: &Case, small: bool) -> Expected {
    let Some(m) = thousandths(c.scale.as_deref().unwrap_or("1")) else {
        return Expected::WrongUsage;
    };
    let outcome = ribbon(&c.file, m);
    if small && past_small(&c.file, outcome.end) {
        return Expected::NoRoom;
    }
    Expected::Run {
        end: outcome.end,
        status: outcome.status() as i32,
        stl: outcome.stl,
        lines: outcome.lines.into_iter().filter(|l| compared(l)).collect(),
    }
}

// ── What comes ────────────────────────────────────────────────────────────────

/// What a command did.
struct Said {
    /// None where a signal ended it.
    status: Option<i32>,
    stdout: Vec<u8>,
    stderr: Vec<u8>,
}

/// The command and all that it started, which a wrapper's program is: they are a process group of their own.
fn stop(child: &mut Child) {
    let group = format!("kill -KILL -{}", child.id());
    let _ = Command::new("sh").args(["-c", &group]).status();
    let _ = child.wait();
}

/// What both pipes gave, the standard output first, and how the command ended; none if it takes too long.
fn collect(child: &mut Child, wait: Duration) -> Option<Said> {
    let deadline = Instant::now() + wait;
    let left = || deadline.saturating_duration_since(Instant::now());
    let (send, receive) = mpsc::channel();
    let pipes: [Box<dyn Read + Send>; 2] = [
        Box::new(child.stdout.take().expect("piped")),
        Box::new(child.stderr.take().expect("piped")),
    ];
    for (which, mut pipe) in pipes.into_iter().enumerate() {
        let send = send.clone();
        thread::spawn(move || {
            let mut bytes = Vec::new();
            let _ = pipe.read_to_end(&mut bytes);
            let _ = send.send((which, bytes));
        });
    }
    let mut both = [Vec::new(), Vec::new()];
    for _ in 0..2 {
        let (which, bytes) = receive.recv_timeout(left()).ok()?;
        both[which] = bytes;
    }
    let [stdout, stderr] = both;
    loop {
        if let Ok(Some(status)) = child.try_wait() {
            return Some(Said {
                status: status.code(),
                stdout,
                stderr,
            });
        }
        if left().is_zero() {
            return None;
        }
        thread::sleep(Duration::from_millis(1));
    }
}

/// Runs the command on a file; none if it hangs.
fn run(o: &Options, c: &Case) -> Result<Option<Said>, String> {
    let mut command = Command::new(&o.command[0]);
    command.args(&o.command[1..]);
    if let Some(scale) = &c.scale {
        command.args(["--scale", scale]);
    }
    let mut child = command
        .stdin(Stdio::piped())
        .stdout(Stdio::piped())
        .stderr(Stdio::piped())
        .process_group(0)
        .spawn()
        .map_err(|e| format!("cannot run '{}': {e}", o.command[0]))?;
    let mut stdin = child.stdin.take().expect("piped");
    let file = c.file.clone();
    // It may end before it has read everything.
    thread::spawn(move || drop(stdin.write_all(&file)));
    let said = collect(&mut child, o.wait);
    if said.is_none() {
        stop(&mut child);
    }
    Ok(said)
}

// ── The comparison ────────────────────────────────────────────────────────────

/// Where two STL files part first.
fn bytes_differ(expected: &[u8], got: &[u8]) -> Option<String> {
    if expected == got {
        return None;
    }
    let lengths = format!("{} bytes, {} expected", got.len(), expected.len());
    let at = (0..expected.len().min(got.len())).find(|&i| expected[i] != got[i]);
    let Some(at) = at else {
        return Some(format!(
            "standard output has {lengths}; what both have is equal"
        ));
    };
    let place = match at.checked_sub(HEADER + 4) {
        None if at < HEADER => "the header".to_string(),
        None => "the number of facets".to_string(),
        Some(past) => {
            let part = match past % FACET {
                0..12 => "normal",
                12..48 => "corners",
                _ => "last two bytes",
            };
            format!("facet {}, its {part}", past / FACET)
        }
    };
    let four = |bytes: &[u8]| {
        let from = match at.checked_sub(HEADER + 4) {
            Some(past) => at - past % FACET % 4,
            None => at - at % 4,
        };
        let word = bytes.get(from..from + 4);
        let word = word.map(|w| u32::from_le_bytes(w.try_into().expect("four bytes")));
        word.map_or("nothing".to_string(), |w| {
            format!("{w:08X} ({:?})", f32::from_bits(w))
        })
    };
    Some(format!(
        "standard output differs from byte {at} on ({place}): expected {}, got {}; it has {lengths}",
        four(expected),
        four(got)
    ))
}

/// The compared lines of standard error, and the first that differs.
fn lines_differ(expected: &[String], stderr: &[u8]) -> Option<String> {
    let text = String::from_utf8_lossy(stderr);
    let got: Vec<&str> = text.lines().filter(|l| compared(l)).collect();
    let at = (0..expected.len().max(got.len()))
        .find(|&i| expected.get(i).map(String::as_str) != got.get(i).copied())?;
    let or_none = |line: Option<&str>| line.map_or("none".to_string(), |l| format!("'{l}'"));
    Some(format!(
        "of the compared lines of standard error number {} differs: expected {}, got {}",
        at + 1,
        or_none(expected.get(at).map(String::as_str)),
        or_none(got.get(at).copied())
    ))
}

fn status_differs(expected: i32, said: &Said) -> Option<String> {
    let status = said
        .status
        .map_or("a signal".to_string(), |s| s.to_string());
    (said.status != Some(expected)).then(|| format!("exit status {status}, {expected} expected"))
}

/// All that is not as expected, one to a line; empty where nothing is.
fn differences(expected: &Expected, said: &Said) -> Vec<String> {
    let nothing_written = || bytes_differ(&[], &said.stdout);
    let found = match expected {
        Expected::WrongUsage => [
            status_differs(2, said),
            nothing_written(),
            lines_differ(&[], &said.stderr),
        ],
        Expected::NoRoom => [
            status_differs(1, said),
            nothing_written(),
            said.stderr
                .is_empty()
                .then(|| "no word about the room".to_string()),
        ],
        Expected::Run {
            status, stl, lines, ..
        } => [
            status_differs(*status, said),
            bytes_differ(stl, &said.stdout),
            lines_differ(lines, &said.stderr),
        ],
    };
    found.into_iter().flatten().collect()
}

/// How many files ended in which way.
#[derive(Default)]
struct Tally {
    meshes: u64,
    vertices: u64,
    scaled: u64,
    breaks: u64,
    alone: u64,
    nothing: u64,
    refusals: [u64; 20],
    no_room: u64,
    wrong_usages: u64,
}

impl Tally {
    fn count(&mut self, c: &Case, e: &Expected) {
        match e {
            Expected::WrongUsage => self.wrong_usages += 1,
            Expected::NoRoom => self.no_room += 1,
            Expected::Run { end, lines, .. } => match end {
                End::Written(counts) => {
                    self.meshes += 1;
                    self.vertices += counts.v as u64;
                    self.scaled += c.scale.is_some() as u64;
                    let with = |word: &str| lines.iter().any(|l| l.starts_with(word)) as u64;
                    self.breaks += with("break:");
                    self.alone += with("alone:");
                }
                End::Refused(r) => self.refusals[r.number as usize] += 1,
                End::Nothing => self.nothing += 1,
            },
        }
    }

    fn text(&self) -> String {
        let mut out = format!(
            "meshes {} ({} vertices), of them scaled {}, with breaks {}, with residues alone {}; nothing to build {}, past the small room {}, wrong usages {}, refusals",
            self.meshes,
            self.vertices,
            self.scaled,
            self.breaks,
            self.alone,
            self.nothing,
            self.no_room,
            self.wrong_usages
        );
        for (number, count) in self.refusals.iter().enumerate().filter(|(_, c)| **c > 0) {
            out.push_str(&format!(" {number}: {count}"));
        }
        out
    }
}

/// The file, and what differed, beside each other.
fn report(
    o: &Options,
    index: u64,
    c: &Case,
    found: &[String],
    said: Option<&Said>,
) -> Result<(), String> {
    let name = o.out.join(format!("ribbon-{}-{index}", o.seed));
    let [pdb, txt] = ["pdb", "txt"].map(|end| name.with_extension(end));
    let scale = c.scale.as_ref().map(|s| format!(" --scale {s:?}"));
    let mut text = format!(
        "file {index} of seed {}: {}{} <{}\n",
        o.seed,
        o.command.join(" "),
        scale.unwrap_or_default(),
        pdb.display()
    );
    for line in found {
        text.push_str(&format!("{line}\n"));
    }
    if let Some(said) = said {
        text.push_str("its standard error:\n");
        for line in String::from_utf8_lossy(&said.stderr).lines().take(SHOWN) {
            text.push_str(&format!("  {line}\n"));
        }
    }
    for (path, bytes) in [(&pdb, c.file.as_slice()), (&txt, text.as_bytes())] {
        fs::write(path, bytes).map_err(|e| format!("cannot write {}: {e}", path.display()))?;
    }
    print!("{text}");
    println!("written to {} and {}", pdb.display(), txt.display());
    Ok(())
}

/// True when every run is the oracle's. The report goes to standard output, progress to standard error.
pub fn compare_ribbon(o: &Options) -> Result<bool, String> {
    if let Some(why) = angles::differs() {
        return Err(format!("{why}; compare on x86-64 with glibc"));
    }
    let mut tally = Tally::default();
    let mut told = Instant::now();
    for index in 0..o.files {
        let c = case(o.seed, index);
        let expected = expected(&c, o.small);
        let said = run(o, &c)?;
        let found = match &said {
            Some(said) => differences(&expected, said),
            None => vec![format!("it did not end within {} s", o.wait.as_secs())],
        };
        if !found.is_empty() {
            report(o, index, &c, &found, said.as_ref())?;
            return Ok(false);
        }
        tally.count(&c, &expected);
        if told.elapsed() > Duration::from_secs(5) {
            told = Instant::now();
            eprintln!("{} of {} files", index + 1, o.files);
        }
    }
    println!("seed {}: {}", o.seed, tally.text());
    println!("all {} files are alike", o.files);
    Ok(true)
}
