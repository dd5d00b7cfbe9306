//! The cube root of an f32, rounded once to the nearest f32, by whole numbers alone.

/// The largest r with r × r × r ≤ n, for n < 2^78.
fn whole_root(n: u128) -> u64 {
    let mut root = 0u64;
    for place in (0..26).rev() {
        let tried = root | 1 << place;
        if u128::from(tried).pow(3) <= n {
            root = tried;
        }
    }
    root
}

/// A size as mantissa × 2^exponent.
fn parts(x: f32) -> (u64, i32) {
    let bits = x.abs().to_bits();
    let (exponent, mantissa) = ((bits >> 23) as i32, u64::from(bits & 0x7f_ffff));
    if exponent == 0 {
        (mantissa, -149)
    } else {
        (mantissa | 1 << 23, exponent - 150)
    }
}

/// The f32 nearest to the cube root; zeros, infinities and not-a-numbers stay.
pub fn cbrt(x: f32) -> f32 {
    if x == 0.0 || !x.is_finite() {
        return x;
    }
    // The mantissa is shifted to 75 bits, and by up to two more so that 3 divides the exponent: its root has 25 or 26.
    let (mantissa, exponent) = parts(x);
    let shift = 75 - (64 - mantissa.leading_zeros() as i32);
    let more = (exponent - shift).rem_euclid(3);
    let root = whole_root(u128::from(mantissa) << (shift + more));
    // 24 bits are kept, rounded by the first one dropped. The exact root is never half-way: the odd part of such a root
    // has 25 bits and that of its cube 73 or more, but the mantissa has at most 24.
    let dropped = 64 - root.leading_zeros() as i32 - 24;
    let kept = (root >> dropped) + (root >> (dropped - 1) & 1);
    let scale = (exponent - shift - more) / 3 + dropped;
    // The cube root of an f32 is a normal number; a kept number of 25 bits carries into the exponent.
    let bits = ((scale + 149) << 23) as u32 + kept as u32;
    f32::from_bits(bits).copysign(x)
}

#[cfg(test)]
mod tests {
    use super::{cbrt, parts};
    use std::cmp::Ordering;

    /// Compares x with the cube of `odd` × 2^exponent.
    fn compare(x: f32, odd: u128, exponent: i32) -> Ordering {
        let (mantissa, own) = parts(x);
        let (cube, shift) = (odd.pow(3), own - 3 * exponent);
        if shift >= 0 {
            (u128::from(mantissa) << shift).cmp(&cube)
        } else {
            u128::from(mantissa).cmp(&(cube << -shift))
        }
    }

    /// x lies between the cubes of the points half-way from its root to the next numbers.
    fn is_nearest(x: f32) -> bool {
        let (mantissa, exponent) = parts(cbrt(x));
        let k = u128::from(mantissa);
        let below = if k == 1 << 23 {
            compare(x, 4 * k - 1, exponent - 2)
        } else {
            compare(x, 2 * k - 1, exponent - 1)
        };
        below == Ordering::Greater && compare(x, 2 * k + 1, exponent - 1) == Ordering::Less
    }

    #[test]
    fn roots_are_nearest() {
        // The least and largest numbers, then some of every exponent.
        for bits in [1, 2, 3, 0x7f_ffff, 0x80_0000, 0x7f7f_ffff] {
            assert!(is_nearest(f32::from_bits(bits)), "{bits:08x}");
        }
        for bits in (1..0x7f80_0000u32).step_by(997) {
            assert!(is_nearest(f32::from_bits(bits)), "{bits:08x}");
        }
    }

    #[test]
    fn known_roots() {
        assert_eq!(cbrt(27.0), 3.0);
        assert_eq!(cbrt(-8.0), -2.0);
        assert_eq!(cbrt(8.0 / 27.0).to_bits(), 0x3f2a_aaab);
        assert_eq!(cbrt(f32::from_bits(1)).to_bits(), 0x26a1_4518);
        assert_eq!(cbrt(-0.0).to_bits(), 0x8000_0000);
        assert_eq!(cbrt(f32::INFINITY), f32::INFINITY);
        assert!(cbrt(f32::NAN).is_nan());
    }
}
