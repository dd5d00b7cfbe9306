//! When the library refuses a conversion, by palette's own numbers.
use crate::number::{hypot, Number};
use palette::opened::{chroma_values, toe_inv};

/// The refusals of a conversion. Of several, the one that is checked first is given.
#[derive(Clone, Copy, Debug, PartialEq)]
pub enum Refusal {
    /// A number outside its range, or spoiled (not finite).
    Range = 5,
    /// A direction that is not accepted.
    Direction = 6,
    /// A query that the boundary refuses.
    Boundary = 7,
    /// A spoiled number of the answer, or a spoiled chroma.
    Lost = 8,
}

pub type Checked = Result<(), Refusal>;

fn check(holds: bool, refusal: Refusal) -> Checked {
    if holds {
        Ok(())
    } else {
        Err(refusal)
    }
}

/// No given number is spoiled.
pub fn inputs(numbers: &[f32]) -> Checked {
    check(numbers.iter().all(|x| x.is_finite()), Refusal::Range)
}

/// The number is in 0..1.
pub fn unit(x: f32) -> Checked {
    check((0.0..=1.0).contains(&x), Refusal::Range)
}

/// Whiteness and blackness together are at most 1.
pub fn mixed(whiteness: f32, blackness: f32) -> Checked {
    check(whiteness <= 1.0 - blackness, Refusal::Range)
}

/// a² + b² lies within 2^-20 of 1, ends included.
pub fn direction(a: f32, b: f32) -> Checked {
    let off = f64::from(a * a + b * b) - 1.0;
    check(off.abs() <= 1.0 / 1048576.0, Refusal::Direction)
}

/// The chroma of a and b is not spoiled.
pub fn chroma(a: f32, b: f32) -> Checked {
    check(hypot(a, b).is_finite(), Refusal::Lost)
}

/// The boundary of sRGB answers for a lightness of Oklab and a direction: 0 < lightness < 1, none of its three numbers is
/// spoiled, 0 < zero and 0 < mid < max.
fn boundary(lightness: f32, a: f32, b: f32) -> Checked {
    let (zero, mid, max) = chroma_values(Number::new(lightness), Number::new(a), Number::new(b));
    let (zero, mid, max) = (zero.value, mid.value, max.value);
    let inside = 0.0 < lightness && lightness < 1.0;
    let finite = zero.is_finite() && mid.is_finite() && max.is_finite();
    let ordered = 0.0 < zero && 0.0 < mid && mid < max;
    check(inside && finite && ordered, Refusal::Boundary)
}

/// The query of Okhsl to Oklab; white and black ask none.
pub fn okhsl_query(a: f32, b: f32, lightness: f32) -> Checked {
    if lightness == 0.0 || lightness == 1.0 {
        return Ok(());
    }
    boundary(toe_inv(Number::new(lightness)).value, a, b)
}

/// The query of Oklab to Okhsl; greys ask none: where chroma or lightness is no normal number, or lightness is 1.
pub fn oklab_query(l: f32, a: f32, b: f32) -> Checked {
    let chroma = hypot(a, b);
    if !chroma.is_normal() || !l.is_normal() || l == 1.0 {
        return Ok(());
    }
    boundary(l, a / chroma, b / chroma)
}

/// No number of the answer is spoiled.
pub fn answer(numbers: Vec<f32>) -> Result<Vec<f32>, Refusal> {
    check(numbers.iter().all(|x| x.is_finite()), Refusal::Lost)?;
    Ok(numbers)
}
