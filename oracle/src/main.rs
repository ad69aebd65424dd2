//! The program `oracle`: answers requests, generates them, compares another program with itself, writes what is recorded, and counts what
//! two recordings differ in. A bad command line gives a message on standard error and exit status 2, a difference exit status 1, unless it
//! was asked to count them.

use std::{
    fs,
    io::{self, BufReader, BufWriter, Read, Write},
    path::Path,
    process::ExitCode,
    str::FromStr,
    time::Duration,
};

use oracle::{
    angles,
    compare::{Options, compare},
    differences::{Recording, differences},
    generator::Kind,
    pdb::job_of,
    plan_text::plan_text,
    protocol::{Request, answer, encode_answer},
    record::record,
    ribbon::{ribbon, thousandths},
    ribbon_compare::{self, compare_ribbon},
    wrong::{self, Mutation},
};

const USAGE: &str = "usage:
  oracle answer [--wrong MISTAKE]                              requests on standard input, answers on standard output
  oracle compare [--kind KIND] [--jobs N] [--seed S] [--out DIR] -- PROGRAM [ARGUMENT ...]   compares PROGRAM with the oracle
  oracle generate [--kind KIND] [--jobs N] [--seed S]          requests on standard output; KIND is jobs, files, both, orders, boxes, caps, stl or parties
  oracle record --out DIR                                      writes the recorded answers
  oracle differences OLD NEW                                   which words differ between the recorded answers in two folders
  oracle read-pdb [FILE]                                       the job of a PDB file (or of standard input) on standard output
  oracle ribbon [--scale MM] [--wrong MISTAKE] [FILE]          the STL file of a PDB file (or of standard input) on standard output
  oracle compare-ribbon [--files N] [--seed S] [--room ROOM] [--wait SECONDS] [--out DIR] -- COMMAND [ARGUMENT ...]
                                                               compares COMMAND [--scale MM] with the oracle's ribbon; ROOM is large or small
  oracle plan-text                                             a job on standard input; prints what ribbon-plan prints
  oracle angles                                                the eight cosines and sines of this machine
  oracle mistakes                                              the names that --wrong takes";

/// The value of each option given, in the order of `names`; anything else on the line is an error.
fn options(args: &[String], names: &[&str]) -> Result<Vec<Option<String>>, String> {
    let mut values = vec![None; names.len()];
    for pair in args.chunks(2) {
        let at = names.iter().position(|&n| n == pair[0]);
        let at = at.ok_or(format!("unknown option '{}'", pair[0]))?;
        let value = pair.get(1).ok_or(format!("'{}' needs a value", pair[0]))?;
        values[at] = Some(value.clone());
    }
    Ok(values)
}

fn number<T: FromStr>(value: Option<String>, otherwise: T) -> Result<T, String> {
    match value {
        Some(v) => v.parse().map_err(|_| format!("'{v}' is not a number")),
        None => Ok(otherwise),
    }
}

fn kind(value: Option<String>) -> Result<Kind, String> {
    match value {
        Some(v) => Kind::by_name(&v).ok_or(format!("'{v}' is no kind of requests")),
        None => Ok(Kind::Both),
    }
}

fn mistake(value: Option<String>) -> Result<Option<Mutation>, String> {
    match value {
        Some(name) => match wrong::by_name(&name) {
            None => Err(format!("unknown mistake '{name}'")),
            known => Ok(known),
        },
        None => Ok(None),
    }
}

fn run_answer(args: &[String]) -> Result<bool, String> {
    let mistake = mistake(options(args, &["--wrong"])?.remove(0))?;
    let mut input = BufReader::new(io::stdin().lock());
    let mut output = BufWriter::new(io::stdout().lock());
    wrong::with(mistake, || -> io::Result<()> {
        while let Some(r) = Request::read(&mut input)? {
            output.write_all(&encode_answer(&r, &answer(&r)))?;
        }
        output.flush()
    })
    .map(|()| true)
    .map_err(|e| e.to_string())
}

/// The options before `--`, and the program's words behind it, which come one by one, so that none is split on a blank.
fn and_program(args: &[String]) -> Result<(&[String], Vec<String>), String> {
    let end = args.iter().position(|a| a == "--").unwrap_or(args.len());
    let program = args.get(end + 1..).unwrap_or_default().to_vec();
    if program.is_empty() {
        return Err("-- and a program are missing".to_string());
    }
    Ok((&args[..end], program))
}

fn run_compare(args: &[String]) -> Result<bool, String> {
    let (args, batch) = and_program(args)?;
    let mut o = options(args, &["--kind", "--jobs", "--seed", "--out"])?;
    compare(&Options {
        batch,
        kind: kind(o[0].take())?,
        jobs: number(o[1].take(), 10_000)?,
        seed: number(o[2].take(), 1)?,
        out: o[3].take().unwrap_or(".".to_string()).into(),
    })
}

fn run_compare_ribbon(args: &[String]) -> Result<bool, String> {
    let (args, command) = and_program(args)?;
    let mut o = options(args, &["--files", "--seed", "--room", "--wait", "--out"])?;
    compare_ribbon(&ribbon_compare::Options {
        command,
        files: number(o[0].take(), 300)?,
        seed: number(o[1].take(), 1)?,
        small: match o[2].as_deref() {
            None | Some("large") => false,
            Some("small") => true,
            Some(other) => return Err(format!("'{other}' is no room")),
        },
        wait: Duration::from_secs(number(o[3].take(), 60)?),
        out: o[4].take().unwrap_or(".".to_string()).into(),
    })
}

fn run_generate(args: &[String]) -> Result<bool, String> {
    let mut o = options(args, &["--kind", "--jobs", "--seed"])?;
    let kind = kind(o[0].take())?;
    let jobs: u64 = number(o[1].take(), 1000)?;
    let seed = number(o[2].take(), 1)?;
    let mut output = BufWriter::new(io::stdout().lock());
    (0..jobs)
        .try_for_each(|i| output.write_all(&kind.request(seed, i).encode()))
        .and_then(|()| output.flush())
        .map(|()| true)
        .map_err(|e| e.to_string())
}

fn run_record(args: &[String]) -> Result<bool, String> {
    let out = options(args, &["--out"])?.remove(0);
    let out = out.ok_or("record needs --out DIR")?;
    record(Path::new(&out)).map_err(|e| format!("cannot record in {out}: {e}"))?;
    Ok(true)
}

/// What differs, on standard output. Exit status 1 where the requests are not the same, or an answer has another length or kind.
fn run_differences(args: &[String]) -> Result<bool, String> {
    let [old, new] = args else {
        return Err("differences takes two folders".to_string());
    };
    let [old, new] = [old, new].map(|folder| Recording::read(Path::new(folder)));
    match differences(&old?, &new?) {
        Ok(found) => {
            print!("{}", found.text());
            Ok(found.unlike.is_empty())
        }
        Err(why) => {
            println!("{why}");
            Ok(false)
        }
    }
}

/// The bytes of a file, or of standard input where none is named.
fn input(file: Option<&str>) -> Result<Vec<u8>, String> {
    let mut bytes = Vec::new();
    match file {
        None => io::stdin().lock().read_to_end(&mut bytes).map(|_| bytes),
        Some(path) => fs::read(path),
    }
    .map_err(|e| format!("{}: {e}", file.unwrap_or("standard input")))
}

/// The job on standard output, or the refusal on standard error and exit status 1.
fn run_read_pdb(args: &[String]) -> Result<bool, String> {
    let file = match args {
        [] => input(None),
        [path] => input(Some(path)),
        _ => return Err("read-pdb takes one file".to_string()),
    };
    match job_of(&file?) {
        Ok(job) => {
            let written = io::stdout().lock().write_all(&job.bytes());
            written.map(|()| true).map_err(|e| e.to_string())
        }
        Err(r) => {
            eprintln!("refused {} {}", r.number, r.carried[0]);
            Ok(false)
        }
    }
}

/// The STL file on standard output, and on standard error what was read and built; or there a refusal, and exit status 1.
fn run_ribbon(args: &[String]) -> Result<bool, String> {
    // The options come in pairs, so that a word left over is the file.
    let (pairs, file) = args.split_at(args.len() / 2 * 2);
    let mut o = options(pairs, &["--scale", "--wrong"])?;
    let mistake = mistake(o[1].take())?;
    let file = file.first().map(String::as_str).filter(|&f| f != "-");
    wrong::with(mistake, || {
        let mm = o[0].take().unwrap_or("1".to_string());
        let m = thousandths(&mm).ok_or(format!("'{mm}' is no scale from 0.001 to 1000"))?;
        let outcome = ribbon(&input(file)?, m);
        let mut output = io::stdout().lock();
        output
            .write_all(&outcome.stl)
            .and_then(|()| output.flush())
            .map_err(|e| format!("the STL file cannot be written: {e}"))?;
        let lines: String = outcome.lines.iter().map(|l| format!("{l}\n")).collect();
        // Where nobody can be told, the model is no worse.
        let _ = io::stderr().write_all(lines.as_bytes());
        Ok(outcome.status() == 0)
    })
}

fn run_plan_text(args: &[String]) -> Result<bool, String> {
    options(args, &[])?;
    let mut bytes = Vec::new();
    io::stdin()
        .lock()
        .read_to_end(&mut bytes)
        .map_err(|e| e.to_string())?;
    print!("{}", plan_text(&bytes));
    Ok(true)
}

fn run(args: &[String]) -> Result<bool, String> {
    let (command, rest) = args.split_first().ok_or("no command")?;
    match command.as_str() {
        "answer" => run_answer(rest),
        "compare" => run_compare(rest),
        "generate" => run_generate(rest),
        "record" => run_record(rest),
        "differences" => run_differences(rest),
        "read-pdb" => run_read_pdb(rest),
        "ribbon" => run_ribbon(rest),
        "compare-ribbon" => run_compare_ribbon(rest),
        "plan-text" => run_plan_text(rest),
        "angles" => {
            options(rest, &[])?;
            print!("{}", angles::report());
            Ok(true)
        }
        "mistakes" => {
            options(rest, &[])?;
            for m in Mutation::ALL {
                println!("{}: {}", m.name(), m.what());
            }
            Ok(true)
        }
        _ => Err(format!("unknown command '{command}'")),
    }
}

fn main() -> ExitCode {
    let args: Vec<String> = std::env::args().skip(1).collect();
    match run(&args) {
        Ok(true) => ExitCode::SUCCESS,
        Ok(false) => ExitCode::from(1),
        Err(why) => {
            eprintln!("oracle: {why}\n{USAGE}");
            ExitCode::from(2)
        }
    }
}
