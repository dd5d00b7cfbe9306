//! f32 as a component of palette, with the library's operations.
//!
//! Every operation is rounded once. Both roots are the nearest to the exact root. A hue is a direction: palette keeps a
//! hue as one number, so a number carries a direction beside its value, that of hue 0 unless it is an angle.
use crate::roots;
use palette::angle::RealAngle;
use palette::num::{Cbrt, Hypot, IsValidDivisor, MinMax, Real, Sqrt, Trigonometry, Zero};
use palette::HasBoolMask;
use palette_math::num::{One, Powi};
use std::cmp::Ordering;
use std::ops::{Add, Div, Mul, Neg, Sub};

#[derive(Clone, Copy, Debug)]
pub struct Number {
    pub value: f32,
    /// Cosine and sine, where the number is an angle.
    direction: (f32, f32),
}

impl Number {
    pub fn new(value: f32) -> Self {
        Number {
            value,
            direction: (1.0, 0.0),
        }
    }

    pub fn angle(a: f32, b: f32) -> Self {
        Number {
            value: 0.0,
            direction: (a, b),
        }
    }

    pub fn direction(self) -> (f32, f32) {
        self.direction
    }
}

impl Default for Number {
    fn default() -> Self {
        Number::new(0.0)
    }
}

fn size(x: f32) -> f32 {
    if x < 0.0 {
        -x
    } else {
        x
    }
}

/// 0 if both are 0, else m × root of (1 + q × q), where m is the larger size, found by one comparison, and q the smaller
/// divided by m.
pub fn hypot(a: f32, b: f32) -> f32 {
    if a == 0.0 && b == 0.0 {
        return 0.0;
    }
    let (a, b) = (size(a), size(b));
    let (m, q) = if a < b { (b, a / b) } else { (a, b / a) };
    m * (1.0 + q * q).sqrt()
}

macro_rules! operators {
    ($($name:ident $function:ident $operator:tt),+) => {$(
        impl $name for Number {
            type Output = Self;
            fn $function(self, other: Self) -> Self {
                Number::new(self.value $operator other.value)
            }
        }
        impl<'a> $name<&'a Number> for Number {
            type Output = Self;
            fn $function(self, other: &Self) -> Self {
                Number::new(self.value $operator other.value)
            }
        }
    )+};
}
operators!(Add add +, Sub sub -, Mul mul *, Div div /);

impl Neg for Number {
    type Output = Self;
    fn neg(self) -> Self {
        Number::new(-self.value)
    }
}

impl PartialEq for Number {
    fn eq(&self, other: &Self) -> bool {
        self.value == other.value
    }
}

impl PartialOrd for Number {
    fn partial_cmp(&self, other: &Self) -> Option<Ordering> {
        self.value.partial_cmp(&other.value)
    }
}

impl HasBoolMask for Number {
    type Mask = bool;
}

impl Real for Number {
    /// The f32 nearest to the f64 nearest to the source's decimal.
    fn from_f64(n: f64) -> Self {
        Number::new(n as f32)
    }
}

impl Zero for Number {
    fn zero() -> Self {
        Number::new(0.0)
    }
}

impl One for Number {
    fn one() -> Self {
        Number::new(1.0)
    }
}

impl MinMax for Number {
    /// The other operand where one is not a number, the first where both are equal.
    fn min(self, other: Self) -> Self {
        let takes_other = self.value.is_nan() || other.value < self.value;
        Number::new(if takes_other { other.value } else { self.value })
    }

    fn max(self, other: Self) -> Self {
        let takes_other = self.value.is_nan() || other.value > self.value;
        Number::new(if takes_other { other.value } else { self.value })
    }

    fn min_max(self, other: Self) -> (Self, Self) {
        (self.min(other), self.max(other))
    }
}

impl Powi for Number {
    /// x² is x × x and x³ is (x × x) × x; palette's conversions use no other power.
    fn powi(self, exponent: i32) -> Self {
        match exponent {
            2 => self * self,
            3 => self * self * self,
            _ => unreachable!("power {exponent}"),
        }
    }
}

impl Sqrt for Number {
    fn sqrt(self) -> Self {
        Number::new(self.value.sqrt())
    }
}

impl Cbrt for Number {
    fn cbrt(self) -> Self {
        Number::new(roots::cbrt(self.value))
    }
}

impl Hypot for Number {
    fn hypot(self, other: Self) -> Self {
        Number::new(hypot(self.value, other.value))
    }
}

impl IsValidDivisor for Number {
    fn is_valid_divisor(&self) -> bool {
        self.value.is_normal()
    }
}

impl RealAngle for Number {
    fn radians_to_degrees(self) -> Self {
        self
    }

    fn degrees_to_radians(self) -> Self {
        self
    }
}

impl Trigonometry for Number {
    fn sin(self) -> Self {
        Number::new(self.direction.1)
    }

    fn cos(self) -> Self {
        Number::new(self.direction.0)
    }

    fn sin_cos(self) -> (Self, Self) {
        (self.sin(), self.cos())
    }

    /// The direction of (other, self): each divided by their length, or hue 0 where that is 0.
    fn atan2(self, other: Self) -> Self {
        let length = hypot(other.value, self.value);
        if length == 0.0 {
            Number::new(0.0)
        } else {
            Number::angle(other.value / length, self.value / length)
        }
    }

    fn tan(self) -> Self {
        unreachable!("not used by the conversions")
    }

    fn asin(self) -> Self {
        unreachable!("not used by the conversions")
    }

    fn acos(self) -> Self {
        unreachable!("not used by the conversions")
    }

    fn atan(self) -> Self {
        unreachable!("not used by the conversions")
    }
}
