//! `smooth_guides` and `smooth_positions` alone: worked cases of one pass, in which a value is smoothed with the old one before it, what the
//! two mistakes about that give, and how many bytes the Rust's clones take (02 §3).

use std::{
    alloc::{GlobalAlloc, Layout, System},
    cell::Cell,
    hint::black_box,
};

use super::{Vec3F32, smooth_guides, smooth_positions};
use crate::wrong::{self, Mutation};

type Point = [f32; 3];
type Smooth = fn(&[Vec3F32], usize) -> Vec<Vec3F32>;

fn vectors(points: &[Point]) -> Vec<Vec3F32> {
    let vector = |&[x, y, z]: &Point| Vec3F32::new(x, y, z);
    points.iter().map(vector).collect()
}

fn bits(points: &[Point]) -> Vec<u32> {
    points.as_flattened().iter().map(|f| f.to_bits()).collect()
}

/// The bits after one pass, as it is and with this mistake.
fn right_and_wrong(smooth: Smooth, points: &[Point], m: Mutation) -> [Vec<u32>; 2] {
    [None, Some(m)].map(|m| {
        let after = wrong::with(m, || smooth(&vectors(points), 1));
        bits(&after.iter().map(|v| v.to_arr()).collect::<Vec<_>>())
    })
}

/// Both ends stay. The mistake shows first at the second position between them, so on four.
#[test]
fn a_position_is_smoothed_with_the_old_one_before_it() {
    let corners = [
        [0.0, 0.0, 0.0],
        [4.0, 0.0, 0.0],
        [4.0, 4.0, 0.0],
        [8.0, 4.0, 0.0],
    ];
    let [right, wrong] =
        right_and_wrong(smooth_positions, &corners, Mutation::NewPositionNeighbour);
    let mut expected = corners;
    expected[1] = [3.0, 1.0, 0.0];
    expected[2] = [5.0, 3.0, 0.0];
    assert_eq!(right, bits(&expected));
    // ((3,1,0) + (4,4,0) * 2 + (8,4,0)) / 4
    expected[2] = [4.75, 3.25, 0.0];
    assert_eq!(wrong, bits(&expected));
}

/// The Rust's way to length 1, for a sum that is not near 0.
fn unit([x, y, z]: Point) -> Point {
    let length = ((x * x + y * y) + z * z).sqrt();
    [x, y, z].map(|c| c * (1.0 / length))
}

/// The ends are smoothed too, with themselves in the place of the missing neighbour. The mistake shows already on two.
#[test]
fn a_guide_is_smoothed_with_the_old_one_before_it() {
    let [x, y] = [[1.0, 0.0, 0.0], [0.0, 1.0, 0.0]];
    let new = Mutation::NewGuideNeighbour;
    // 3x + y
    let first = unit([3.0, 1.0, 0.0]);
    assert_eq!(bits(&[first]), bits(&[[0.948_683_26, 0.316_227_76, 0.0]]));

    let [right, wrong] = right_and_wrong(smooth_guides, &[x, y], new);
    // x + 3y, and the first one's new value + 3y
    assert_eq!(right, bits(&[first, unit([1.0, 3.0, 0.0])]));
    let last = unit([first[0], first[1] + 2.0 + 1.0, 0.0]);
    assert_eq!(wrong, bits(&[first, last]));

    let [right, wrong] = right_and_wrong(smooth_guides, &[x, y, [-1.0, 0.0, 0.0]], new);
    // x + 2y - x is 2y, so that the one between stays
    assert_eq!(right, bits(&[first, y, unit([-3.0, 1.0, 0.0])]));
    let between = unit([first[0] - 1.0, first[1] + 2.0, 0.0]);
    let last = unit([between[0] - 2.0 - 1.0, between[1], 0.0]);
    assert_eq!(wrong, bits(&[first, between, last]));
}

// ── Bytes ─────────────────────────────────────────────────────────────────────

/// What one thread has asked the allocator for since the count began, what of it is not given back, and the most of that.
#[derive(Clone, Copy)]
struct Count {
    asked: i64,
    held: i64,
    most: i64,
}

const NOTHING: Count = Count {
    asked: 0,
    held: 0,
    most: 0,
};

thread_local! {
    static COUNT: Cell<Count> = const { Cell::new(NOTHING) };
}

/// The system's allocator, counted. It is that of these tests alone: the program and the files in `tests/` have the usual one.
struct Counting;

#[global_allocator]
static COUNTING: Counting = Counting;

// SAFETY: every call goes to the system's allocator as it came, and counting asks for no memory. `realloc` is the trait's own: it asks anew,
// copies and gives back.
unsafe impl GlobalAlloc for Counting {
    unsafe fn alloc(&self, layout: Layout) -> *mut u8 {
        let (mut c, size) = (COUNT.get(), layout.size() as i64);
        c.asked += size;
        c.held += size;
        c.most = c.most.max(c.held);
        COUNT.set(c);
        unsafe { System.alloc(layout) }
    }

    unsafe fn dealloc(&self, at: *mut u8, layout: Layout) {
        let mut c = COUNT.get();
        c.held -= layout.size() as i64;
        COUNT.set(c);
        unsafe { System.dealloc(at, layout) }
    }
}

/// How many bytes `f` asks for, and how many it holds at most at once, its result among them.
fn bytes<R>(f: impl FnOnce() -> R) -> (usize, usize) {
    COUNT.set(NOTHING);
    let result = black_box(f());
    let c = COUNT.get();
    drop(result);
    (c.asked as usize, c.most as usize)
}

#[test]
fn bytes_are_counted() {
    assert_eq!(bytes(|| 7), (0, 0));
    let room = |n| black_box(Vec::<u32>::with_capacity(n));
    assert_eq!(bytes(|| room(5)), (20, 20));
    assert_eq!(bytes(|| (room(5), room(2))), (28, 28));
    // The first is given back before the second is asked for.
    let in_turn = || {
        drop(room(5));
        room(2)
    };
    assert_eq!(bytes(in_turn), (28, 20));
    // Grown in another place, so that both are held.
    let grown = |mut v: Vec<u32>| {
        v.reserve_exact(9);
        v
    };
    assert_eq!(bytes(|| grown(vec![1; 5])), (76, 76));
}

/// A list of n has 12n bytes. The result is one, and each pass clones one more: 24n bytes are held at once as soon as there is a pass.
#[test]
fn every_pass_of_the_rust_clones_the_list() {
    for smooth in [smooth_guides, smooth_positions] as [Smooth; 2] {
        for n in [2, 300, 16_384] {
            let list = vectors(&[[1.0, 0.0, 0.0], [0.0, 1.0, 0.0]].repeat(n / 2));
            for passes in 0..=3 {
                let (asked, most) = bytes(|| smooth(black_box(&list), black_box(passes)));
                assert_eq!(asked, 12 * n + passes * 12 * n, "{passes} over {n}");
                assert_eq!(most, 12 * n + passes.min(1) * 12 * n, "{passes} over {n}");
            }
        }
    }
}
