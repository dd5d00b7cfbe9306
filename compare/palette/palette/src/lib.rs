//! palette's Oklab family: its own text, laid out by build.rs, over small stand-ins for the modules that it rests on.
#![allow(
    unused_imports,
    unused_macros,
    dead_code,
    private_interfaces,
    private_bounds,
    deprecated
)]

#[macro_use]
extern crate palette_derive;

/// Chooses by a mask.
macro_rules! lazy_select {
    (if $mask:expr => $yes:expr, else => $no:expr $(,)?) => {
        crate::bool_mask::LazySelect::lazy_select($mask, || $yes, || $no)
    };
}
/// palette's other macros, which emit nothing here.
macro_rules! empty { ($d:tt $($name:ident)+) => {$( macro_rules! $name { ($d($d any:tt)*) => {}; } )+}; }
empty! { $
    impl_reference_component_methods impl_reference_component_methods_hue
    impl_struct_of_arrays_methods impl_struct_of_arrays_methods_hue
    impl_tuple_conversion impl_tuple_conversion_hue
    impl_is_within_bounds impl_clamp impl_mix impl_lighten impl_premultiply
    impl_euclidean_distance impl_hyab impl_lab_color_schemes
    impl_color_add impl_color_sub impl_color_mul impl_color_div
    impl_array_casts impl_simd_array_conversion impl_struct_of_array_traits impl_eq
}

include!(concat!(env!("OUT_DIR"), "/palette/root.rs"));

pub use bool_mask::HasBoolMask;
pub use convert::FromColor;
pub use hues::OklabHue;
pub use matrix::Mat3;
pub use okhsl::Okhsl;
pub use okhsv::Okhsv;
pub use okhwb::Okhwb;
pub use oklab::Oklab;
pub use oklch::Oklch;
pub use rgb::LinSrgb;
pub use xyz::Xyz;

/// Private functions of `ok_utils`.
pub use ok_utils::opened;

pub mod convert {
    pub use crate::from_into_color_unclamped::*;
    /// Only named in bounds.
    pub trait FromColor<T>: Sized {
        fn from_color(t: T) -> Self;
    }
}

pub mod bool_mask {
    pub trait HasBoolMask {
        type Mask;
    }
    pub trait LazySelect<T> {
        fn lazy_select<A: FnOnce() -> T, B: FnOnce() -> T>(self, a: A, b: B) -> T;
    }
    impl<T> LazySelect<T> for bool {
        #[inline]
        fn lazy_select<A: FnOnce() -> T, B: FnOnce() -> T>(self, a: A, b: B) -> T {
            if self {
                a()
            } else {
                b()
            }
        }
    }
    macro_rules! plain { ($($ty:ident)+) => {$( impl HasBoolMask for $ty { type Mask = bool; } )+}; }
    plain!(u8 u16 u32 u64 u128 i8 i16 i32 i64 i128 f32 f64);
}

pub mod stimulus {
    use crate::num::Zero;
    pub trait Stimulus: Zero {
        fn max_intensity() -> Self;
    }
    pub trait FromStimulus<T> {
        fn from_stimulus(t: T) -> Self;
    }
}

pub mod hues {
    use crate::{
        angle::{FromAngle, RealAngle},
        num::Trigonometry,
    };
    use core::ops::{Add, Neg};

    /// The hue, kept as palette keeps it: one number, an angle in degrees. A
    /// number type whose sine and cosine answer a direction keeps that inside.
    #[derive(Clone, Copy, Debug, Default)]
    pub struct OklabHue<T = f32>(T);

    impl<T> OklabHue<T> {
        pub const fn new(angle: T) -> Self {
            Self(angle)
        }
        pub fn into_inner(self) -> T {
            self.0
        }
        pub fn into_format<U: FromAngle<T>>(self) -> OklabHue<U> {
            OklabHue(U::from_angle(self.0))
        }
    }
    impl<T: RealAngle> OklabHue<T> {
        pub fn from_radians(radians: T) -> Self {
            Self(radians.radians_to_degrees())
        }
        pub fn into_raw_radians(self) -> T {
            self.0.degrees_to_radians()
        }
    }
    impl<T: RealAngle + Trigonometry> OklabHue<T> {
        /// palette turns the pair by half a turn and adds that to the angle, so that it is not below 0; as a hue both are the
        /// same.
        pub fn from_cartesian(a: T, b: T) -> Self
        where
            T: Add<T, Output = T> + Neg<Output = T>,
        {
            Self::from_radians(T::atan2(b, a))
        }
        pub fn into_cartesian(self) -> (T, T) {
            let (b, a) = self.into_raw_radians().sin_cos();
            (a, b)
        }
    }
    impl<T> From<T> for OklabHue<T> {
        fn from(angle: T) -> Self {
            Self(angle)
        }
    }
}

pub trait GetHue {
    type Hue;
    fn get_hue(&self) -> Self::Hue;
}

/// Only named.
pub trait RelativeContrast {
    type Scalar;
    fn get_contrast_ratio(self, other: Self) -> Self::Scalar;
}
pub fn contrast_ratio<T>(_: T, _: T) -> T {
    unreachable!("not used by the conversions")
}

/// Only named.
pub struct Yxy<Wp, T>(core::marker::PhantomData<(Wp, T)>);

pub mod encoding {
    use crate::{
        rgb::{RgbSpace, RgbStandard},
        white_point::D65,
    };
    pub trait FromLinear<L, E> {
        fn from_linear(linear: L) -> E;
    }
    pub trait IntoLinear<L, E> {
        fn into_linear(encoded: E) -> L;
    }
    pub mod linear {
        pub struct LinearFn;
        impl<T> super::FromLinear<T, T> for LinearFn {
            #[inline(always)]
            fn from_linear(linear: T) -> T {
                linear
            }
        }
        impl<T> super::IntoLinear<T, T> for LinearFn {
            #[inline(always)]
            fn into_linear(encoded: T) -> T {
                encoded
            }
        }
    }
    pub struct Srgb;
    impl RgbSpace for Srgb {
        type Primaries = Srgb;
        type WhitePoint = D65;
    }
    pub struct Linear<S>(core::marker::PhantomData<S>);
    impl<S: RgbSpace> RgbStandard for Linear<S> {
        type Space = S;
        type TransferFn = linear::LinearFn;
    }
}

pub mod xyz {
    use crate::{
        convert::FromColorUnclamped,
        matrix::multiply_3x3_and_vec3,
        num::{Arithmetics, Powi, Real},
        oklab,
        rgb::{Rgb, RgbStandard},
        white_point::D65,
        Oklab,
    };
    use core::marker::PhantomData;

    pub mod meta {
        pub trait HasXyzMeta {
            type XyzMeta;
        }
    }

    #[derive(Debug)]
    pub struct Xyz<Wp = D65, T = f32> {
        pub x: T,
        pub y: T,
        pub z: T,
        pub white_point: PhantomData<Wp>,
    }
    impl<Wp, T> Xyz<Wp, T> {
        pub const fn new(x: T, y: T, z: T) -> Xyz<Wp, T> {
            Xyz {
                x,
                y,
                z,
                white_point: PhantomData,
            }
        }
    }
    impl<Wp, T> From<Xyz<Wp, T>> for [T; 3] {
        fn from(c: Xyz<Wp, T>) -> [T; 3] {
            [c.x, c.y, c.z]
        }
    }
    /// The way of other RGB standards, which no conversion here takes.
    impl<S: RgbStandard, T> FromColorUnclamped<Rgb<S, T>> for Xyz<D65, T> {
        fn from_color_unclamped(_: Rgb<S, T>) -> Self {
            unreachable!("linear sRGB goes directly")
        }
    }
    include!(concat!(env!("OUT_DIR"), "/palette/xyz_items.rs"));
}

pub mod rgb {
    use crate::{
        convert::{FromColorUnclamped, IntoColorUnclamped},
        encoding::{self, FromLinear, IntoLinear, Linear, Srgb},
        num::{Arithmetics, Real},
        oklab::oklab_to_linear_srgb,
        white_point::{Any, D65},
        Mat3, Oklab, Xyz, Yxy,
    };
    use core::{any::TypeId, marker::PhantomData};

    pub type LinSrgb<T = f32> = Rgb<Linear<encoding::Srgb>, T>;

    #[derive(Debug)]
    pub struct Rgb<S = Srgb, T = f32> {
        pub red: T,
        pub green: T,
        pub blue: T,
        pub standard: PhantomData<S>,
    }
    impl<S, T> Rgb<S, T> {
        pub const fn new(red: T, green: T, blue: T) -> Rgb<S, T> {
            Rgb {
                red,
                green,
                blue,
                standard: PhantomData,
            }
        }
    }
    /// The way of other RGB standards, which no conversion here takes.
    impl<S: RgbStandard, T> FromColorUnclamped<Xyz<D65, T>> for Rgb<S, T> {
        fn from_color_unclamped(_: Xyz<D65, T>) -> Self {
            unreachable!("linear sRGB goes directly")
        }
    }
    include!(concat!(env!("OUT_DIR"), "/palette/rgb_traits.rs"));
    include!(concat!(env!("OUT_DIR"), "/palette/rgb_items.rs"));
}
