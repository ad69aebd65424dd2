//! The mistakes at an end cap. None is made in the text of document 000 itself, so that a build asks once for each tube; and none of its functions is
//! called that its own text calls once, since a second caller changes how the compiler inlines it, and the bench times that.

use super::{ResidueFrame, Vec3F32, fallback_perp};
use crate::wrong::{self, Mutation};

/// What document 000 has computed when it comes to the end cap.
pub struct Tube<'a> {
    frames: &'a [ResidueFrame],
    tangents: &'a [Vec3F32],
    guides: &'a [Vec3F32],
    spline_ca: &'a [Vec3F32],
}

impl<'a> Tube<'a> {
    pub fn new(
        frames: &'a [ResidueFrame],
        tangents: &'a [Vec3F32],
        guides: &'a [Vec3F32],
        spline_ca: &'a [Vec3F32],
    ) -> Self {
        Tube {
            frames,
            tangents,
            guides,
            spline_ca,
        }
    }

    /// The normal by the mistake in force, where that is one about end caps and changes it.
    #[cold]
    #[inline(never)]
    pub fn mistaken(&self, chord: Vec3F32, last_tan: Vec3F32) -> Option<Vec3F32> {
        let m = wrong::now()?;
        let nowhere = chord.magnitude() == 0.0;
        match m {
            Mutation::EndCapSampleTangent => Some(last_tan),
            Mutation::CapTinyChord => (chord.magnitude() < 1e-8).then_some(last_tan),
            Mutation::CapZeroChord => {
                let zeros = chord == Vec3F32::new(0., 0., 0.);
                (!zeros).then(|| chord.to_normalized())
            }
            Mutation::CapOfAlphas => {
                let n = self.frames.len();
                let alphas = self.frames[n - 1].ca - self.frames[n - 2].ca;
                let apart = alphas.magnitude() != 0.0;
                Some(if apart {
                    chord.to_normalized()
                } else {
                    last_tan
                })
            }
            _ if nowhere => self.in_its_place(m, last_tan),
            _ => None,
        }
    }

    /// What is taken in the place of a chord that has no direction.
    fn in_its_place(&self, m: Mutation, last_tan: Vec3F32) -> Option<Vec3F32> {
        let n = self.spline_ca.len();
        match m {
            Mutation::CapZero => Some(Vec3F32::new(0., 0., 0.)),
            Mutation::CapFirstTangent => Some(or_y(self.derivative(0, 0.0))),
            Mutation::CapSampleBefore => Some(or_y(self.derivative(n - 2, 0.875))),
            Mutation::CapResidueTangent => Some(self.tangents[n - 1]),
            Mutation::CapGuide => Some(self.last_guide(last_tan)),
            Mutation::CapNegated => Some(last_tan * (-1.0)),
            Mutation::CapNoFallback => Some(self.derivative(n - 2, 1.0).to_normalized()),
            Mutation::CapWholeChord => {
                Some((self.spline_ca[n - 1] - self.spline_ca[0]).to_normalized())
            }
            Mutation::CapChordBefore => {
                let mut chords = self.spline_ca.windows(2).map(|w| w[1] - w[0]).rev();
                chords
                    .find(|c| c.magnitude() != 0.0)
                    .map(|c| c.to_normalized())
            }
            _ => None,
        }
    }

    /// A spline point, extended linearly at both ends.
    fn point(&self, i: isize) -> Vec3F32 {
        let (p, n) = (self.spline_ca, self.spline_ca.len());
        match usize::try_from(i) {
            Err(_) => p[0] + (p[0] - p[1]),
            Ok(i) if i >= n => p[n - 1] + (p[n - 1] - p[n - 2]),
            Ok(i) => p[i],
        }
    }

    /// The derivative of span `i` at `t`, by document 000's formula.
    fn derivative(&self, i: usize, t: f32) -> Vec3F32 {
        let [p0, p1, p2, p3] = [-1, 0, 1, 2].map(|k| self.point(i as isize + k));
        (p2 - p0)
            + (p0 * 2.0 - p1 * 5.0 + p2 * 4.0 - p3) * (2.0 * t)
            + (p0 * (-1.0) + p1 * 3.0 - p2 * 3.0 + p3) * (3.0 * (t * t))
    }

    /// The guide at the last sample.
    fn last_guide(&self, tan: Vec3F32) -> Vec3F32 {
        let n = self.guides.len();
        let [g0, g1] = [self.guides[n - 2], self.guides[n - 1]];
        let g_lerp = g0 + (g1 - g0) * 1.0;
        let g_perp = g_lerp - tan * g_lerp.dot(tan);
        if g_perp.magnitude() < 1e-8 {
            fallback_perp(tan)
        } else {
            g_perp.to_normalized()
        }
    }
}

/// As document 000 turns a derivative into a tangent.
fn or_y(derivative: Vec3F32) -> Vec3F32 {
    if derivative.magnitude() < 1e-8 {
        Vec3F32::new(0., 1., 0.)
    } else {
        derivative.to_normalized()
    }
}
