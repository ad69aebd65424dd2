//! Times the Rust of document 000 and the proved library on the same jobs. `rust` is document 000's own function on a decoded job, into
//! its own vectors; `bytes` is the oracle's build from job bytes into lent buffers; `proved` is the library's build from job bytes into lent
//! buffers. Buffers are allocated once, and not cleared between runs. Each figure is the fastest of its runs.

use std::hint::black_box;

use bench::{Serials, fastest, fitting, proved_build, proved_plan, room};
use oracle::{
    calls,
    job::{Job, decode},
    ribbon_mesh::build_ribbon_mesh,
    tubes::Pass,
};

fn rust(job: &Job) -> usize {
    let (_, mesh) = build_ribbon_mesh(&job.backbone, &job.atoms, &job.residues, &job.chains, Pass::Build);
    black_box(&mesh).vertices.len()
}

fn row(residues: u16, each: u32, segments: u16, serials: Serials) {
    let (present, bytes, [k, v, t]) = fitting(residues, each, segments, serials);
    let room = || room(v, t, k, residues);
    let (mut ours, mut theirs) = (room(), room());
    let decoded = decode(&bytes).ok().expect("an accepted job");
    assert_eq!(proved_build(&bytes, &mut ours)[..], [0, k as u32, v as u32, t as u32]);
    assert!(calls::build(&bytes, &mut theirs).is_ok() && ours.triangles == theirs.triangles);
    assert!(ours.positions.iter().zip(&theirs.positions).all(|(a, b)| a.to_bits() == b.to_bits()));
    let mut planning = room();
    let [a, b, c, p] = fastest([
        &mut || { black_box(rust(&decoded)); },
        &mut || { black_box(calls::build(&bytes, &mut theirs).is_ok()); },
        &mut || { black_box(proved_build(&bytes, &mut ours)); },
        &mut || { black_box(proved_plan(&bytes, &mut planning)); },
    ]);
    println!(
        "{residues:>6} {present:>8} {segments:>8} {v:>8} {a:>10.0} {b:>10.0} {c:>10.0} {p:>10.0} {:>10.2} {:>10.2} {:>10.3}",
        c / a, c / b, p / c
    );
}

fn main() {
    if cfg!(not(target_arch = "x86_64")) {
        println!("programs are compiled for x86-64 and emulated here, so a time measured here says nothing");
        return;
    }
    // A large block that was freed has the C library keep memory for the vectors of the Rust, as in a service that runs for long; else
    // it is mapped anew for every mesh, and the Rust takes more than twice its time on small ones.
    drop(black_box(vec![1u8; 31 << 20]));
    println!("microseconds; R residues, of which some are present; S segments");
    println!(
        "{:>6} {:>8} {:>8} {:>8} {:>10} {:>10} {:>10} {:>10} {:>10} {:>10} {:>10}",
        "R", "present", "S", "V", "rust", "bytes", "proved", "plan", "to rust", "to bytes", "plan/build"
    );
    for segments in [0, 20, 2000] {
        row(300, 8, segments, Serials::Ascend);
    }
    for segments in [0, 20, 2000] {
        row(16_384, 3, segments, Serials::Ascend);
    }
    println!("how the cost grows with R, S = 0, and with S, R = 2000");
    for residues in [75, 300, 1200, 4800] {
        row(residues, 3, 0, Serials::Ascend);
    }
    for segments in [1, 10, 100, 1000] {
        row(2000, 3, segments, Serials::Ascend);
    }
    for (words, serials) in [
        ("where the last atom's serial is low", Serials::LastIsLow),
        ("where the first atom's serial is high", Serials::FirstIsHigh),
        ("where the atoms stand in two runs", Serials::TwoRuns),
        ("where they are shuffled", Serials::Shuffled),
    ] {
        println!("{words}");
        for (residues, each) in [(300, 8), (16_384, 3)] {
            for segments in [20, 2000] {
                row(residues, each, segments, serials);
            }
        }
    }
}
