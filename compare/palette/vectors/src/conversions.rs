//! The conversions: palette's own, after the checks of the library. Numbers go in and come out in the order of a row.
use crate::number::Number;
use crate::refusals::{self, Refusal};
use palette::convert::FromColorUnclamped;
use palette::opened;
use palette::{LinSrgb, Okhsl, Okhsv, Okhwb, Oklab, OklabHue, Oklch, Xyz};

pub type Answer = Result<Vec<f32>, Refusal>;

fn number(x: f32) -> Number {
    Number::new(x)
}

fn hue(a: f32, b: f32) -> OklabHue<Number> {
    OklabHue::new(Number::angle(a, b))
}

fn direction(hue: OklabHue<Number>) -> (f32, f32) {
    hue.into_inner().direction()
}

fn oklab(l: f32, a: f32, b: f32) -> Oklab<Number> {
    Oklab::new(number(l), number(a), number(b))
}

fn of_oklab(color: Oklab<Number>) -> Vec<f32> {
    vec![color.l.value, color.a.value, color.b.value]
}

fn of_okhsv(color: Okhsv<Number>) -> Vec<f32> {
    let (a, b) = direction(color.hue);
    vec![a, b, color.saturation.value, color.value.value]
}

/// A hue and two numbers in 0..1, then the direction.
fn check_cylinder(a: f32, b: f32, x: f32, y: f32) -> refusals::Checked {
    refusals::inputs(&[a, b, x, y])?;
    refusals::unit(x)?;
    refusals::unit(y)?;
    refusals::direction(a, b)
}

fn check_oklab(l: f32, a: f32, b: f32) -> refusals::Checked {
    refusals::inputs(&[l, a, b])?;
    refusals::unit(l)
}

pub fn okhsl_to_oklab(a: f32, b: f32, saturation: f32, lightness: f32) -> Answer {
    check_cylinder(a, b, saturation, lightness)?;
    refusals::okhsl_query(a, b, lightness)?;
    let color = Okhsl::new(hue(a, b), number(saturation), number(lightness));
    refusals::answer(of_oklab(Oklab::from_color_unclamped(color)))
}

pub fn oklab_to_okhsl(l: f32, a: f32, b: f32) -> Answer {
    check_oklab(l, a, b)?;
    refusals::chroma(a, b)?;
    refusals::oklab_query(l, a, b)?;
    let color = Okhsl::from_color_unclamped(oklab(l, a, b));
    let (a, b) = direction(color.hue);
    refusals::answer(vec![a, b, color.saturation.value, color.lightness.value])
}

pub fn okhsv_to_oklab(a: f32, b: f32, saturation: f32, value: f32) -> Answer {
    check_cylinder(a, b, saturation, value)?;
    let color = Okhsv::new(hue(a, b), number(saturation), number(value));
    refusals::answer(of_oklab(Oklab::from_color_unclamped(color)))
}

pub fn oklab_to_okhsv(l: f32, a: f32, b: f32) -> Answer {
    check_oklab(l, a, b)?;
    refusals::chroma(a, b)?;
    refusals::answer(of_okhsv(Okhsv::from_color_unclamped(oklab(l, a, b))))
}

pub fn okhwb_to_okhsv(a: f32, b: f32, whiteness: f32, blackness: f32) -> Answer {
    // The sum is checked with the ranges, before the direction.
    refusals::inputs(&[a, b, whiteness, blackness])?;
    refusals::mixed(whiteness, blackness)?;
    check_cylinder(a, b, whiteness, blackness)?;
    let color = Okhwb::new(hue(a, b), number(whiteness), number(blackness));
    refusals::answer(of_okhsv(Okhsv::from_color_unclamped(color)))
}

pub fn okhsv_to_okhwb(a: f32, b: f32, saturation: f32, value: f32) -> Answer {
    check_cylinder(a, b, saturation, value)?;
    let color = Okhsv::new(hue(a, b), number(saturation), number(value));
    let color = Okhwb::from_color_unclamped(color);
    let (a, b) = direction(color.hue);
    refusals::answer(vec![a, b, color.whiteness.value, color.blackness.value])
}

pub fn oklch_to_oklab(l: f32, chroma: f32, a: f32, b: f32) -> Answer {
    refusals::inputs(&[l, chroma, a, b])?;
    refusals::unit(l)?;
    refusals::direction(a, b)?;
    let color = Oklch::new(number(l), number(chroma), hue(a, b));
    refusals::answer(of_oklab(Oklab::from_color_unclamped(color)))
}

pub fn oklab_to_oklch(l: f32, a: f32, b: f32) -> Answer {
    check_oklab(l, a, b)?;
    refusals::chroma(a, b)?;
    let color = Oklch::from_color_unclamped(oklab(l, a, b));
    let (a, b) = direction(color.hue);
    refusals::answer(vec![color.l.value, color.chroma.value, a, b])
}

pub fn linear_srgb_to_oklab(red: f32, green: f32, blue: f32) -> Answer {
    refusals::inputs(&[red, green, blue])?;
    let color = LinSrgb::new(number(red), number(green), number(blue));
    refusals::answer(of_oklab(Oklab::from_color_unclamped(color)))
}

pub fn oklab_to_linear_srgb(l: f32, a: f32, b: f32) -> Answer {
    check_oklab(l, a, b)?;
    let color = LinSrgb::from_color_unclamped(oklab(l, a, b));
    refusals::answer(vec![color.red.value, color.green.value, color.blue.value])
}

pub fn xyz_to_oklab(x: f32, y: f32, z: f32) -> Answer {
    refusals::inputs(&[x, y, z])?;
    let color = Xyz::new(number(x), number(y), number(z));
    refusals::answer(of_oklab(Oklab::from_color_unclamped(color)))
}

pub fn oklab_to_xyz(l: f32, a: f32, b: f32) -> Answer {
    check_oklab(l, a, b)?;
    let color = Xyz::from_color_unclamped(oklab(l, a, b));
    refusals::answer(vec![color.x.value, color.y.value, color.z.value])
}

pub fn chroma_values(lightness: f32, a: f32, b: f32) -> Vec<f32> {
    let (zero, mid, max) = opened::chroma_values(number(lightness), number(a), number(b));
    vec![zero.value, mid.value, max.value]
}

pub fn find_cusp(a: f32, b: f32) -> Vec<f32> {
    let (lightness, chroma) = opened::find_cusp(number(a), number(b));
    vec![lightness.value, chroma.value]
}

pub fn toe(lightness: f32) -> Vec<f32> {
    vec![opened::toe(number(lightness)).value]
}

pub fn toe_inv(lightness: f32) -> Vec<f32> {
    vec![opened::toe_inv(number(lightness)).value]
}
