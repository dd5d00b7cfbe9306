//! The traits of the crate `palette_math` that palette's num.rs names.
pub mod num {
    /// The value 1.
    pub trait One {
        fn one() -> Self;
    }
    /// Whole powers.
    pub trait Powi {
        fn powi(self, exp: i32) -> Self;
    }
    /// Named by `num.rs`, used by nothing here.
    pub trait Powu {
        fn powu(self, exp: u32) -> Self;
    }
    /// Named by `num.rs`, used by nothing here.
    pub trait Powf {
        fn powf(self, exp: Self) -> Self;
    }
    /// 1 divided by the value (only `matrix_inverse` uses it).
    pub trait Recip {
        fn recip(self) -> Self;
    }
}
