//! Stand-ins for the types that document 000 takes from crates whose text we do not have. They obey 01, 'Floats': every operation is
//! f32 and rounds once, in the order written.

use std::ops::{Add, Mul, Sub};

#[derive(Clone, Copy, Debug, PartialEq)]
pub struct Vec3F32 {
    pub x: f32,
    pub y: f32,
    pub z: f32,
}

impl Vec3F32 {
    pub fn new(x: f32, y: f32, z: f32) -> Self {
        Self { x, y, z }
    }

    /// 01: 'Dot: (xx + yy) + zz.'
    pub fn dot(self, b: Self) -> f32 {
        (self.x * b.x + self.y * b.y) + self.z * b.z
    }

    /// 01: 'Cross of a and b: (ay bz - az by, az bx - ax bz, ax by - ay bx).'
    pub fn cross(self, b: Self) -> Self {
        Self {
            x: self.y * b.z - self.z * b.y,
            y: self.z * b.x - self.x * b.z,
            z: self.x * b.y - self.y * b.x,
        }
    }

    /// 01: 'Length: square root of (xx + yy) + zz.'
    pub fn magnitude(self) -> f32 {
        ((self.x * self.x + self.y * self.y) + self.z * self.z).sqrt()
    }

    /// 01: 'Normalising: components times (1 / length); length 0 gives the zero vector.'
    pub fn to_normalized(self) -> Self {
        let length = self.magnitude();
        if length == 0.0 {
            Self::new(0.0, 0.0, 0.0)
        } else {
            self * (1.0 / length)
        }
    }

    pub fn to_arr(self) -> [f32; 3] {
        [self.x, self.y, self.z]
    }
}

impl Add for Vec3F32 {
    type Output = Self;
    fn add(self, b: Self) -> Self {
        Self::new(self.x + b.x, self.y + b.y, self.z + b.z)
    }
}

impl Sub for Vec3F32 {
    type Output = Self;
    fn sub(self, b: Self) -> Self {
        Self::new(self.x - b.x, self.y - b.y, self.z - b.z)
    }
}

impl Mul<f32> for Vec3F32 {
    type Output = Self;
    fn mul(self, s: f32) -> Self {
        Self::new(self.x * s, self.y * s, self.z * s)
    }
}

#[derive(Clone, Copy, Debug, PartialEq)]
pub struct Vec3F64 {
    pub x: f64,
    pub y: f64,
    pub z: f64,
}

/// 01: 'the residue that `res_color` chooses', in the place of the colour.
pub type Tag = usize;

#[derive(Clone, Debug)]
pub struct Vertex {
    pub position: [f32; 3],
    pub normal: Vec3F32,
    pub color: Tag,
}

impl Vertex {
    pub fn new(position: [f32; 3], normal: Vec3F32) -> Self {
        Self {
            position,
            normal,
            color: 0,
        }
    }
}

pub struct Mesh {
    pub vertices: Vec<Vertex>,
    pub indices: Vec<usize>,
}

#[allow(non_camel_case_types)]
#[derive(Clone, Copy, Debug, PartialEq)]
pub enum AtomRole {
    C_Alpha,
    O_Backbone,
}

#[derive(Clone, Debug)]
pub struct Atom {
    pub serial_number: u32,
    pub posit: Vec3F64,
    pub role: Option<AtomRole>,
    pub residue: Option<usize>,
    pub chain: Option<usize>,
}

#[derive(Clone, Debug)]
pub struct Chain {
    pub visible: bool,
}

/// Only the number of residues matters to the part of the module that we take.
#[derive(Clone, Debug)]
pub struct Residue;

#[derive(Clone, Copy, Debug, PartialEq)]
pub enum SecondaryStructure {
    Coil,
    Helix,
    Sheet,
}

#[derive(Clone, Debug)]
pub struct BackboneSS {
    pub start_sn: u32,
    pub end_sn: u32,
    pub sec_struct: SecondaryStructure,
}
