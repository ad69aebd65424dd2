//! Feeds generated requests to a program of the protocol and compares every word of its answers with the oracle's. At the first
//! difference the request is shrunk and written to a file.

use std::{
    fs,
    io::{self, BufReader, Read, Write},
    path::PathBuf,
    process::{Child, ChildStdout, Command, Stdio},
    sync::mpsc,
    thread,
    time::{Duration, Instant},
};

use crate::{
    angles,
    generator::Kind,
    job::{NONE, RawJob, RawSegment, records_of},
    parties::Share,
    protocol::{
        BUILD, BUILD_SHARE, MeshWords, NAMES, PLAN_RECORDS, PartyBytes, READ, READ_STL, Request,
        TOO_LONG, TUBE, WRITE_STL, answer, decode_words, places, read_answer,
    },
    shrink::shrink,
    stl::HEADER,
};

/// How many lines of a difference are shown; its file has them all.
const SHOWN: usize = 40;
const HEX: &str = "the request in hexadecimal";

pub struct Options {
    /// The program and its arguments.
    pub batch: Vec<String>,
    pub kind: Kind,
    pub jobs: u64,
    pub seed: u64,
    /// Where a difference is written.
    pub out: PathBuf,
}

/// How many answers of each kind were compared.
#[derive(Default)]
pub struct Tally {
    pub meshes: u64,
    pub plans: u64,
    /// By number, up to 20, the last that a call here gives.
    pub refusals: [u64; 21],
    pub empty_parts: u64,
    pub parts: u64,
    pub passed_over: u64,
    pub vertices: u64,
    /// Jobs written from files, and their bytes.
    pub jobs: u64,
    pub job_bytes: u64,
    /// STL files written, and their bytes.
    pub written: u64,
    pub stl_bytes: u64,
    /// STL files listed, and their facets.
    pub listed: u64,
    pub facets: u64,
}

impl Tally {
    pub fn count(&mut self, r: &Request, a: &[u32]) {
        match (r.call, a[0]) {
            (_, TOO_LONG) => self.passed_over += 1,
            (TUBE, 0) => self.empty_parts += 1,
            (TUBE, _) => self.parts += 1,
            (BUILD | BUILD_SHARE, 0) => {
                self.meshes += 1;
                self.vertices += a[2] as u64;
            }
            (READ, 0) => {
                self.jobs += 1;
                self.job_bytes += a[1] as u64;
            }
            (WRITE_STL, 0) => {
                self.written += 1;
                self.stl_bytes += a[1] as u64;
            }
            (READ_STL, 0) => {
                self.listed += 1;
                self.facets += a[1] as u64;
            }
            (_, 0) => self.plans += 1,
            (_, number) => self.refusals[number as usize] += 1,
        }
    }

    pub fn text(&self) -> String {
        let mut out = format!(
            "meshes {} ({} vertices), plans {}, tube parts {}, empty parts {}, jobs of files {} ({} bytes), STL written {} ({} bytes), STL listed {} ({} facets), passed over {}, refusals",
            self.meshes,
            self.vertices,
            self.plans,
            self.parts,
            self.empty_parts,
            self.jobs,
            self.job_bytes,
            self.written,
            self.stl_bytes,
            self.listed,
            self.facets,
            self.passed_over
        );
        for (number, count) in self.refusals.iter().enumerate().skip(1) {
            out.push_str(&format!(" {number}: {count}"));
        }
        out
    }
}

/// Ends the child whatever happens, so that none is left behind.
struct Running(Child);

impl Drop for Running {
    fn drop(&mut self) {
        let _ = self.0.kill();
        let _ = self.0.wait();
    }
}

fn start(batch: &[String]) -> Result<Running, String> {
    Command::new(&batch[0])
        .args(&batch[1..])
        .stdin(Stdio::piped())
        .stdout(Stdio::piped())
        .spawn()
        .map(Running)
        .map_err(|e| format!("cannot run '{}': {e}", batch[0]))
}

/// The program's answer to one request, alone in its input; none if it gives no whole answer.
fn ask(batch: &[String], r: &Request) -> Option<Vec<u32>> {
    let mut child = start(batch).ok()?;
    let mut stdin = child.0.stdin.take()?;
    let mut stdout = BufReader::new(child.0.stdout.take()?);
    let bytes = r.encode();
    thread::scope(|s| {
        s.spawn(move || stdin.write_all(&bytes));
        read_answer(r, &mut stdout).ok().flatten()
    })
}

/// The program's end: no more output, and a good status.
fn ended_well(mut child: Running, stdout: &mut BufReader<ChildStdout>) -> Result<(), String> {
    let mut rest = Vec::new();
    stdout
        .take(64)
        .read_to_end(&mut rest)
        .map_err(|e| e.to_string())?;
    if !rest.is_empty() {
        return Err("the program wrote more than its answers".to_string());
    }
    let status = child.0.wait().map_err(|e| e.to_string())?;
    if !status.success() {
        return Err(format!("the program ended with {status}"));
    }
    Ok(())
}

/// A request by its number, and the program's answer to it, if there is one.
type Found = (u64, Request, Option<Vec<u32>>);

/// Compares the answers as they come, up to the first that differs.
fn first_difference(
    requests: &mpsc::Receiver<Request>,
    stdout: &mut BufReader<ChildStdout>,
    tally: &mut Tally,
    jobs: u64,
) -> io::Result<Option<Found>> {
    let began = Instant::now();
    let mut told = began;
    for (i, r) in requests.iter().enumerate() {
        let expected = answer(&r);
        let got = read_answer(&r, stdout)?;
        if got.as_ref() != Some(&expected) {
            return Ok(Some((i as u64, r, got)));
        }
        tally.count(&r, &expected);
        if told.elapsed() > Duration::from_secs(5) {
            told = Instant::now();
            eprintln!("{} of {jobs} in {} s", i + 1, began.elapsed().as_secs());
        }
    }
    Ok(None)
}

/// True when every answer is the oracle's. The report goes to standard output, progress to standard error.
pub fn compare(o: &Options) -> Result<bool, String> {
    if let Some(why) = angles::differs() {
        return Err(format!("{why}; compare on x86-64 with glibc"));
    }
    println!("seed {}, {} requests", o.seed, o.jobs);
    let mut child = start(&o.batch)?;
    let mut stdin = child.0.stdin.take().expect("piped");
    let mut stdout = BufReader::with_capacity(1 << 20, child.0.stdout.take().expect("piped"));
    let (send, receive) = mpsc::channel::<Request>();
    let (kind, seed, jobs) = (o.kind, o.seed, o.jobs);
    // The pipe keeps this thread close to the child, so the channel stays short.
    let writer = thread::spawn(move || {
        for i in 0..jobs {
            let r = kind.request(seed, i);
            let bytes = r.encode();
            if send.send(r).is_err() || stdin.write_all(&bytes).is_err() {
                return;
            }
        }
    });
    let mut tally = Tally::default();
    let found = first_difference(&receive, &mut stdout, &mut tally, jobs);
    if let Some((i, r, got)) = found.map_err(|e| e.to_string())? {
        // The writer ends once nobody reads.
        drop((child, receive));
        let _ = writer.join();
        report(o, i, &r, got)?;
        return Ok(false);
    }
    let _ = writer.join();
    println!("{}", tally.text());
    match ended_well(child, &mut stdout) {
        Ok(()) => {
            println!("all {jobs} answers are equal");
            Ok(true)
        }
        Err(why) => {
            println!("{why}");
            Ok(false)
        }
    }
}

fn report(o: &Options, index: u64, r: &Request, got: Option<Vec<u32>>) -> Result<(), String> {
    println!("request {index} of seed {} differs", o.seed);
    let shows = |r: &Request| ask(&o.batch, r).as_ref() != Some(&answer(r));
    let alone = shows(r);
    let (small, got) = if alone {
        let small = shrink(r, shows);
        let got = ask(&o.batch, &small);
        (small, got)
    } else {
        (r.clone(), got)
    };
    let mut text = format!(
        "request {index} of seed {}, program {}\n",
        o.seed,
        o.batch.join(" ")
    );
    if !alone {
        text.push_str(
            "this request shows no difference alone, only after the requests before it\n",
        );
    }
    text.push_str(&difference(&small, &answer(&small), got.as_deref()));
    text.push_str(&dump(&small));
    text.push_str(HEX);
    text.push_str(":\n");
    for line in small.encode().chunks(32) {
        let hex: Vec<String> = line.iter().map(|b| format!("{b:02X}")).collect();
        text.push_str(&hex.join(" "));
        text.push('\n');
    }
    let path = o.out.join(format!("difference-{}-{index}.txt", o.seed));
    fs::write(&path, &text).map_err(|e| format!("cannot write {}: {e}", path.display()))?;
    let words = text.lines().take_while(|l| !l.starts_with(HEX));
    for line in words.take(SHOWN) {
        println!("{line}");
    }
    println!("written whole to {}", path.display());
    Ok(())
}

/// Where two answers part first, by name and place.
pub fn difference(r: &Request, expected: &[u32], got: Option<&[u32]>) -> String {
    let Some(got) = got else {
        return "the program gave no whole answer\n".to_string();
    };
    let Some(at) = (0..expected.len().max(got.len())).find(|&i| expected.get(i) != got.get(i))
    else {
        return "no difference\n".to_string();
    };
    let word = |w: Option<&u32>| match w {
        Some(&w) => format!("{w:08X} ({w}, as a float {:?})", f32::from_bits(w)),
        None => "nothing".to_string(),
    };
    let (name, place) = places(r, expected.len())
        .into_iter()
        .find(|(_, range)| range.contains(&at))
        .map_or(("the end", at), |(name, range)| (name, at - range.start));
    format!(
        "first difference: {name}, place {place}: expected {}, got {}\n",
        word(expected.get(at)),
        word(got.get(at))
    )
}

/// A request in words.
pub fn dump(r: &Request) -> String {
    let mut out = format!("call {}, k {}, {} bytes\n", r.call, r.k, r.bytes.len());
    for (name, length) in NAMES.iter().zip(r.lengths) {
        out.push_str(&format!("  {name}: {length}\n"));
    }
    if r.call == READ {
        for (i, line) in r.bytes.split_inclusive(|&b| b == b'\n').enumerate() {
            out.push_str(&format!("line {}: \"{}\"\n", i + 1, line.escape_ascii()));
        }
    } else if r.call == TUBE {
        let mut tubes = decode_words(&r.bytes);
        tubes.truncate(r.lengths[4] as usize);
        for (i, words) in tubes.chunks(5).enumerate() {
            out.push_str(&format!("tube {i}: {words:?}\n"));
        }
    } else if r.call == WRITE_STL {
        out.push_str(&dump_mesh(r));
    } else if r.call == READ_STL {
        out.push_str(&dump_stl(&r.bytes));
    } else if r.call == BUILD_SHARE || r.call == PLAN_RECORDS {
        out.push_str(&dump_party(r));
    } else if let Some(job) = RawJob::of(&r.bytes) {
        out.push_str(&dump_job(&job));
    }
    out
}

/// Both parties' shares, the job, and the calling party's records.
fn dump_party(r: &Request) -> String {
    let Some(party) = PartyBytes::of(r) else {
        return "the bytes end before the records do\n".to_string();
    };
    let mut out = String::new();
    for (i, shares) in party.shares.iter().flatten().enumerate() {
        let text = |(name, s): (&&str, &Share)| format!("{name} {} + {}", s.start, s.length);
        let shares: Vec<_> = NAMES.iter().zip(shares).map(text).collect();
        out.push_str(&format!("shares of party {i}: {}\n", shares.join(", ")));
    }
    match RawJob::of(&party.job) {
        Some(job) => out.push_str(&dump_job(&job)),
        None => out.push_str(&format!("a job of {} bytes\n", party.job.len())),
    }
    // Last, since they may be very many.
    out.push_str(&format!("{} bytes of records\n", party.records.len()));
    out + &dump_segments("record", &records_of(&party.records))
}

fn dump_segments(name: &str, segments: &[RawSegment]) -> String {
    let line = |(i, s): (usize, &RawSegment)| {
        format!("{name} {i}: kind {}, {} to {}\n", s.kind, s.start, s.end)
    };
    segments.iter().enumerate().map(line).collect()
}

/// K, V, T and the tubes' records; then what is not 0 in the three buffers that the file is made of, as far as it is short.
fn dump_mesh(r: &Request) -> String {
    let Some(mesh) = MeshWords::of(r) else {
        return "the bytes are not those of the six lengths\n".to_string();
    };
    let [k, v, t] = mesh.counts;
    let mut out = format!("K {k}, V {v}, T {t}\n");
    for (i, words) in mesh.lists[4].chunks(5).enumerate() {
        out.push_str(&format!("tube {i}: {words:?}\n"));
    }
    for buffer in [0, 3] {
        let words = mesh.lists[buffer].iter().enumerate();
        for (i, &w) in words.filter(|(_, w)| **w != 0).take(SHOWN) {
            let float = f32::from_bits(w);
            out.push_str(&match buffer {
                0 => format!("  {} {i}: {w:08X} ({float:?})\n", NAMES[buffer]),
                _ => format!("  {} {i}: {w}\n", NAMES[buffer]),
            });
        }
    }
    out
}

/// The size, and T where the file reaches so far.
fn dump_stl(file: &[u8]) -> String {
    let field = file.get(HEADER..HEADER + 4);
    let t = field.map(|b| u32::from_le_bytes(b.try_into().unwrap()));
    match t {
        Some(t) => format!("a file of {} bytes, T {t}\n", file.len()),
        None => format!("a file of {} bytes, too short for T\n", file.len()),
    }
}

fn dump_job(job: &RawJob) -> String {
    let index = |i: u16| match i {
        NONE => "none".to_string(),
        i => i.to_string(),
    };
    let mut out = format!("version {}, {} residues\n", job.version, job.residues);
    for (i, v) in job.visible.iter().enumerate() {
        out.push_str(&format!("chain {i}: visible {v}\n"));
    }
    out.push_str(&dump_segments("segment", &job.segments));
    for (i, a) in job.atoms.iter().enumerate() {
        out.push_str(&format!(
            "atom {i}: serial {}, role {}, residue {}, chain {}, at {:?} {:?} {:?}\n",
            a.serial,
            a.role,
            index(a.residue),
            index(a.chain),
            a.xyz[0],
            a.xyz[1],
            a.xyz[2]
        ));
    }
    out
}
