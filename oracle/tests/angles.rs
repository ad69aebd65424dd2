//! The recorded cosines and sines are those of this machine, and obey 01's rule on their squares.

use oracle::angles::{RECORDED, at_run_time, folded, report};

/// On another machine than x86-64 with glibc this prints the table first, and fails if it differs: then the oracle's rings are not those
/// of the recorded table, and no mesh can be compared there.
#[test]
fn this_machine_gives_the_recorded_table() {
    if !cfg!(all(target_arch = "x86_64", target_env = "gnu")) {
        println!("{}", report());
    }
    assert_eq!(at_run_time(), RECORDED);
    assert_eq!(folded(), RECORDED);
}

/// A float of at most 1 as a whole multiple of 2^-60; every entry is one.
fn multiple(bits: u32) -> i128 {
    let scaled = f32::from_bits(bits) as f64 * 2f64.powi(60);
    assert_eq!(scaled.fract(), 0.0);
    scaled as i128
}

#[test]
fn squares_sum_to_one_within_two_to_the_minus_22() {
    assert_eq!(RECORDED[0], (1f32.to_bits(), 0));
    for (c, s) in RECORDED {
        let sum = multiple(c).pow(2) + multiple(s).pow(2);
        assert!((sum - (1 << 120)).abs() <= 1 << 98, "{c:08X} {s:08X}");
    }
}
