//! A stand-in for glam 0.30.1: the operations of `Vec3` that the source uses, written from
//! document 01's rules. Each operation on f32 is rounded once, nothing is fused.

use std::ops::{Add, AddAssign, Div, DivAssign, Index, Mul, Neg, Sub};

#[derive(Clone, Copy, Debug, PartialEq)]
pub struct Vec3 {
    pub x: f32,
    pub y: f32,
    pub z: f32,
}

impl Vec3 {
    pub const ZERO: Vec3 = Vec3::splat(0.0);
    pub const ONE: Vec3 = Vec3::splat(1.0);
    pub const Y: Vec3 = Vec3::new(0.0, 1.0, 0.0);

    #[inline(always)]
    pub const fn new(x: f32, y: f32, z: f32) -> Vec3 {
        Vec3 { x, y, z }
    }

    #[inline(always)]
    pub const fn splat(v: f32) -> Vec3 {
        Vec3::new(v, v, v)
    }

    #[inline(always)]
    fn with(self, o: Vec3, f: impl Fn(f32, f32) -> f32) -> Vec3 {
        Vec3::new(f(self.x, o.x), f(self.y, o.y), f(self.z, o.z))
    }

    #[inline(always)]
    pub fn dot(self, o: Vec3) -> f32 {
        (self.x * o.x + self.y * o.y) + self.z * o.z
    }

    #[inline(always)]
    pub fn cross(self, o: Vec3) -> Vec3 {
        Vec3::new(self.y * o.z - o.y * self.z, self.z * o.x - o.z * self.x, self.x * o.y - o.x * self.y)
    }

    #[inline(always)]
    pub fn length(self) -> f32 {
        self.dot(self).sqrt()
    }

    /// Multiplies by 1/length: not the same bits as a division of each component.
    #[inline(always)]
    pub fn normalize(self) -> Vec3 {
        self * (1.0 / self.length())
    }

    #[inline(always)]
    pub fn lerp(self, o: Vec3, s: f32) -> Vec3 {
        self * (1.0 - s) + o * s
    }

    #[inline(always)]
    pub fn abs(self) -> Vec3 {
        Vec3::new(self.x.abs(), self.y.abs(), self.z.abs())
    }

    #[inline(always)]
    pub fn min(self, o: Vec3) -> Vec3 {
        self.with(o, f32::min)
    }

    #[inline(always)]
    pub fn max(self, o: Vec3) -> Vec3 {
        self.with(o, f32::max)
    }

    #[inline(always)]
    pub fn min_element(self) -> f32 {
        self.x.min(self.y.min(self.z))
    }
}

impl Add for Vec3 {
    type Output = Vec3;
    #[inline(always)]
    fn add(self, o: Vec3) -> Vec3 {
        self.with(o, |a, b| a + b)
    }
}

impl Sub for Vec3 {
    type Output = Vec3;
    #[inline(always)]
    fn sub(self, o: Vec3) -> Vec3 {
        self.with(o, |a, b| a - b)
    }
}

impl Mul for Vec3 {
    type Output = Vec3;
    #[inline(always)]
    fn mul(self, o: Vec3) -> Vec3 {
        self.with(o, |a, b| a * b)
    }
}

impl Mul<f32> for Vec3 {
    type Output = Vec3;
    #[inline(always)]
    fn mul(self, s: f32) -> Vec3 {
        self * Vec3::splat(s)
    }
}

impl Div<f32> for Vec3 {
    type Output = Vec3;
    #[inline(always)]
    fn div(self, s: f32) -> Vec3 {
        self.with(Vec3::splat(s), |a, b| a / b)
    }
}

impl Neg for Vec3 {
    type Output = Vec3;
    #[inline(always)]
    fn neg(self) -> Vec3 {
        Vec3::new(-self.x, -self.y, -self.z)
    }
}

impl AddAssign for Vec3 {
    #[inline(always)]
    fn add_assign(&mut self, o: Vec3) {
        *self = *self + o;
    }
}

impl DivAssign<f32> for Vec3 {
    #[inline(always)]
    fn div_assign(&mut self, s: f32) {
        *self = *self / s;
    }
}

impl Index<usize> for Vec3 {
    type Output = f32;
    #[inline(always)]
    fn index(&self, i: usize) -> &f32 {
        match i {
            0 => &self.x,
            1 => &self.y,
            2 => &self.z,
            _ => panic!("index out of bounds"),
        }
    }
}
