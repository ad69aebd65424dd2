//! The eight angle entries of 01, 'Floats': cosine and sine of TAU k / 8, as the bits that this machine gives. Document 000 itself calls
//! `cos` and `sin`; the proved builder has the recorded table. Where the two differ no comparison of meshes means anything, and
//! `differs` says so.

use std::{f32::consts::TAU, hint::black_box};

/// Recorded on x86-64 with glibc 2.36 by rustc 1.95 (docs/ANGLES.md): cosine, sine.
pub const RECORDED: [(u32, u32); 8] = [
    (0x3F80_0000, 0x0000_0000),
    (0x3F35_04F3, 0x3F35_04F3),
    (0xB33B_BD2E, 0x3F80_0000),
    (0xBF35_04F3, 0x3F35_04F3),
    (0xBF80_0000, 0xB3BB_BD2E),
    (0xBF35_04F1, 0xBF35_04F5),
    (0x324C_DE2E, 0xBF80_0000),
    (0x3F35_04F7, 0xBF35_04EF),
];

/// By the C library when the program runs.
pub fn at_run_time() -> [(u32, u32); 8] {
    std::array::from_fn(|k| {
        let theta = black_box(TAU * (k as f32) / 8.0);
        (theta.cos().to_bits(), theta.sin().to_bits())
    })
}

macro_rules! entry {
    ($k:literal) => {{
        let theta = TAU * ($k as f32) / 8.0;
        (theta.cos().to_bits(), theta.sin().to_bits())
    }};
}

/// Folded by the compiler where it optimises: every angle is a constant here.
pub fn folded() -> [(u32, u32); 8] {
    [
        entry!(0),
        entry!(1),
        entry!(2),
        entry!(3),
        entry!(4),
        entry!(5),
        entry!(6),
        entry!(7),
    ]
}

/// What is wrong with this machine's cosines and sines, if anything.
pub fn differs() -> Option<String> {
    for (how, table) in [("run time", at_run_time()), ("compile time", folded())] {
        if let Some(k) = (0..8).find(|&k| table[k] != RECORDED[k]) {
            return Some(format!(
                "angle entry {k} at {how} is {:08X} {:08X}, recorded {:08X} {:08X}: rings of this oracle differ from the recorded table",
                table[k].0, table[k].1, RECORDED[k].0, RECORDED[k].1
            ));
        }
    }
    None
}

/// The report of `oracle angles`.
pub fn report() -> String {
    let mut out = format!(
        "machine {} {}, compiler {}, C library {}\n k  run time           compile time       recorded\n",
        std::env::consts::ARCH,
        std::env::consts::OS,
        env!("ORACLE_RUSTC"),
        libc_version()
    );
    let (run, folded) = (at_run_time(), folded());
    for k in 0..8 {
        out.push_str(&format!(" {k}"));
        for (c, s) in [run[k], folded[k], RECORDED[k]] {
            out.push_str(&format!("  {c:08X} {s:08X}"));
        }
        out.push('\n');
    }
    out.push_str(&differs().unwrap_or_else(|| "all equal".to_string()));
    out.push('\n');
    out
}

#[cfg(all(target_os = "linux", target_env = "gnu"))]
fn libc_version() -> String {
    unsafe extern "C" {
        fn gnu_get_libc_version() -> *const std::ffi::c_char;
    }
    // The C library's own answer, a constant string.
    let version = unsafe { std::ffi::CStr::from_ptr(gnu_get_libc_version()) };
    format!("glibc {}", version.to_string_lossy())
}

#[cfg(not(all(target_os = "linux", target_env = "gnu")))]
fn libc_version() -> String {
    "not glibc".to_string()
}
