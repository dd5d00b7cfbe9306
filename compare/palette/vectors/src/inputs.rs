//! Seeded inputs: over the whole range, dense where the conversions branch, and some that are refused.
use crate::conversions;

/// Numbers of 0..1 at which something changes, or near to which it does.
const UNIT: [f32; 20] = [
    0.0,
    -0.0,
    1e-45,
    3e-45,
    5e-40,
    f32::MIN_POSITIVE,
    1e-30,
    2.2e-20,
    1e-12,
    1e-10,
    1e-9,
    1.9e-8,
    1e-4,
    0.206,
    0.5,
    0.8,
    0.9,
    0.9999,
    0.999_999_94,
    1.0,
];

/// Numbers that are outside 0..1, or spoiled.
const OUTSIDE: [f32; 8] = [
    -1e-45,
    -0.25,
    1.000_000_1,
    1.5,
    f32::MAX,
    f32::INFINITY,
    f32::NEG_INFINITY,
    f32::NAN,
];

/// The axes, the directions of the three valves, those of red, green and blue, at which the branches of the largest
/// saturation meet, and one that the boundary refuses just below white.
const DIRECTIONS: [(f32, f32); 12] = [
    (1.0, 0.0),
    (1.0, -0.0),
    (0.0, 1.0),
    (-1.0, 0.0),
    (0.0, -1.0),
    (0.6, 0.8),
    (-0.8, 0.6),
    (5.0 / 13.0, -12.0 / 13.0),
    (0.872_633_4, 0.488_375_83),
    (-0.793_303_8, 0.608_826),
    (-0.103_625_46, -0.994_616_4),
    (-0.240_959_2, 0.970_535_2),
];

/// Chromas of greys, and the least that are none.
const GREY: [f32; 8] = [
    0.0,
    -0.0,
    1e-45,
    -1e-45,
    1e-40,
    1.175_494_2e-38,
    f32::MIN_POSITIVE,
    -f32::MIN_POSITIVE,
];

/// Numbers so large that a product or a sum is infinite.
const HUGE: [f32; 4] = [f32::MAX, -f32::MAX, 3e38, 1e30];

pub struct Inputs {
    state: u64,
}

impl Inputs {
    pub fn new(seed: u64) -> Self {
        Inputs { state: seed }
    }

    /// The generator splitmix64.
    fn next(&mut self) -> u64 {
        self.state = self.state.wrapping_add(0x9e37_79b9_7f4a_7c15);
        let z = (self.state ^ self.state >> 30).wrapping_mul(0xbf58_476d_1ce4_e5b9);
        let z = (z ^ z >> 27).wrapping_mul(0x94d0_49bb_1331_11eb);
        z ^ z >> 31
    }

    fn below(&mut self, n: u32) -> u32 {
        (((self.next() >> 32) * u64::from(n)) >> 32) as u32
    }

    fn pick<T: Copy>(&mut self, list: &[T]) -> T {
        list[self.below(list.len() as u32) as usize]
    }

    /// A multiple of 2^-24, from 0 to below 1.
    fn fraction(&mut self) -> f32 {
        self.below(1 << 24) as f32 / (1 << 24) as f32
    }

    fn signed(&mut self, size: f32) -> f32 {
        (2.0 * self.fraction() - 1.0) * size
    }

    /// A number at most three floats away from x.
    fn near(&mut self, x: f32) -> f32 {
        let steps = self.below(7) as i32 - 3;
        f32::from_bits(x.to_bits().saturating_add_signed(steps))
    }

    /// Any number, spoiled ones too.
    fn any(&mut self) -> f32 {
        f32::from_bits((self.next() >> 32) as u32)
    }

    /// A number of 0..1.
    fn inside(&mut self) -> f32 {
        match self.below(8) {
            0 => self.pick(&UNIT),
            1 => {
                let edge = self.pick(&UNIT);
                self.near(edge).clamp(0.0, 1.0)
            }
            2 => f32::from_bits(self.below(1.0f32.to_bits() + 1)),
            3 => f32::from_bits(1.0f32.to_bits() - self.below(64)),
            _ => self.fraction(),
        }
    }

    /// A number of 0..1, and at times one outside.
    pub fn unit(&mut self) -> f32 {
        match self.below(24) {
            0 => self.pick(&OUTSIDE),
            _ => self.inside(),
        }
    }

    /// A saturation: as `unit`, and more often about 0.8.
    pub fn saturation(&mut self) -> f32 {
        match self.below(8) {
            0 => self.near(0.8),
            _ => self.unit(),
        }
    }

    /// A point of the unit circle, by its rational parametrisation.
    fn circle(&mut self) -> (f64, f64) {
        let t = f64::from(self.fraction());
        let below = 1.0 + t * t;
        let (x, y) = ((1.0 - t * t) / below, 2.0 * t / below);
        let (x, y) = if self.below(2) == 0 { (x, y) } else { (y, x) };
        (
            if self.below(2) == 0 { x } else { -x },
            if self.below(2) == 0 { y } else { -y },
        )
    }

    /// An accepted direction.
    fn accepted(&mut self) -> (f32, f32) {
        match self.below(8) {
            0 => self.pick(&DIRECTIONS),
            1 => {
                let (a, b) = self.pick(&DIRECTIONS);
                (self.near(a), self.near(b))
            }
            _ => {
                let (a, b) = self.circle();
                (a as f32, b as f32)
            }
        }
    }

    /// A direction; at times at the edge of the accepted ones, or none.
    pub fn direction(&mut self) -> (f32, f32) {
        match self.below(16) {
            0 => {
                let (a, b) = self.circle();
                let stretch = 1.0 + f64::from(self.below(33) as i32 - 16) / f64::from(1 << 24);
                ((a * stretch) as f32, (b * stretch) as f32)
            }
            1 => {
                // a² + b² about 1 ± 2^-20
                let (a, b) = self.circle();
                let stretch = 1.0 + f64::from(self.pick(&[-8, 8])) / f64::from(1 << 24);
                ((a * stretch) as f32, (b * stretch) as f32)
            }
            2 => (self.unit(), self.unit()),
            _ => self.accepted(),
        }
    }

    /// Whiteness and blackness: mostly together at most 1, often just that.
    pub fn mix(&mut self) -> (f32, f32) {
        let blackness = self.unit();
        let rest = 1.0 - blackness;
        let whiteness = match self.below(8) {
            0 => rest,
            1 => self.near(rest),
            2 => self.unit(),
            3 => self.inside() * rest,
            _ => self.fraction() * rest,
        };
        (whiteness, blackness)
    }

    /// The light of three channels: inside a cube, on its surface, greys, and numbers of any size and sign.
    pub fn light(&mut self) -> [f32; 3] {
        let mut light = [self.fraction(), self.fraction(), self.fraction()];
        match self.below(12) {
            0 | 1 => light[self.below(3) as usize] = self.pick(&[0.0, 1.0]),
            2 => light = [light[0]; 3],
            3 => light = light.map(|_| self.inside()),
            4 => light = light.map(|_| self.signed(2.0)),
            5 => light = light.map(|_| self.any()),
            6 => light[self.below(3) as usize] = self.pick(&OUTSIDE),
            7 => light = light.map(|_| self.pick(&HUGE)),
            _ => {}
        }
        light
    }

    /// Oklab's a and b of a chroma near to one of sRGB's chroma values, or to a multiple.
    fn at_boundary(&mut self, l: f32) -> (f32, f32) {
        let (a, b) = self.accepted();
        let values = conversions::chroma_values(l, a, b);
        let value = self.pick(&values);
        let chroma = self.near(value) * self.pick(&[1.0, 1.0, 1.0, 2.0, 8.0]);
        (chroma * a, chroma * b)
    }

    /// A colour of Oklab: in the gamut of sRGB, on its surface, at the boundary's chroma values, outside, greys, and
    /// numbers of any size.
    pub fn oklab(&mut self) -> [f32; 3] {
        let l = self.unit();
        match self.below(14) {
            0..=2 => {
                let [red, green, blue] = self.light();
                match conversions::linear_srgb_to_oklab(red, green, blue) {
                    Ok(lab) => [lab[0], lab[1], lab[2]],
                    Err(_) => [l, 0.0, 0.0],
                }
            }
            3..=6 => {
                let (a, b) = self.at_boundary(l);
                [l, a, b]
            }
            7 => [l, self.pick(&GREY), self.pick(&GREY)],
            8 => [l, self.inside(), -self.inside()],
            9 => [l, self.any(), self.any()],
            10 => [l, self.pick(&HUGE), self.pick(&HUGE)],
            _ => [l, self.signed(0.4), self.signed(0.4)],
        }
    }

    /// A chroma: mostly below 0.4, at times below 0 or of any size.
    pub fn chroma(&mut self) -> f32 {
        match self.below(8) {
            0 => self.pick(&GREY),
            1 => self.any(),
            2 => self.signed(0.4),
            3 => self.unit(),
            4 => self.pick(&HUGE),
            _ => self.fraction() * 0.4,
        }
    }

    /// A lightness for the toe: mostly in 0..1.
    pub fn lightness(&mut self) -> f32 {
        match self.below(8) {
            0 => self.any(),
            _ => self.unit(),
        }
    }
}
