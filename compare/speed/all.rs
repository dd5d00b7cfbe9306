// Holds the proved roots to Rust's on every f32 that is not negative, and on one in sixteen of the
// others: the square root to the processor's, the cube root to that of f64, rounded. Whole roots are
// held to their definition next to powers and at random numbers. All not-a-numbers count as one.
// Run: (cd crates/roots_speed && rt lib) && mkdir -p target && rustc -O compare/speed/all.rs -L crates/roots_speed/out -l static=roots_speed -o target/all && target/all
unsafe extern "C" {
    fn rattle_sqrt_of(pattern: u32) -> u32;
    fn rattle_cbrt_of(pattern: u32) -> u32;
    fn rattle_whole_sqrt_of(n: u64) -> u64;
    fn rattle_whole_cbrt_of(n: u64) -> u64;
}

fn bits(x: f32) -> u32 {
    if x.is_nan() { 0x7fc0_0000 } else { x.to_bits() }
}

fn floats() -> u64 {
    let mut bad = 0;
    let mut at = |b: u32| {
        let x = f32::from_bits(b);
        let sqrt = unsafe { rattle_sqrt_of(b) };
        let cbrt = unsafe { rattle_cbrt_of(b) };
        if sqrt != bits(x.sqrt()) || cbrt != bits((x as f64).cbrt() as f32) {
            bad += 1;
            if bad < 10 {
                println!("{b:08x}: {sqrt:08x} {cbrt:08x}");
            }
        }
    };
    for b in 0..=0x7fff_ffffu32 {
        at(b);
    }
    for b in (0x8000_0000..=0xffff_ffffu32).step_by(16) {
        at(b);
    }
    bad
}

fn whole() -> u64 {
    let mut bad = 0;
    let mut at = |n: u64| {
        let (s, c) = unsafe { (rattle_whole_sqrt_of(n) as u128, rattle_whole_cbrt_of(n) as u128) };
        let n = n as u128;
        if s * s > n || n >= (s + 1) * (s + 1) || c * c * c > n || n >= (c + 1) * (c + 1) * (c + 1) {
            bad += 1;
            println!("{n}: {s} {c}");
        }
    };
    for n in 0..1000 {
        at(n);
        at(u64::MAX - n);
    }
    let mut s: u64 = 42;
    for _ in 0..5_000_000 {
        s = s.wrapping_mul(6364136223846793005).wrapping_add(1442695040888963407);
        at(s >> (s % 64));
        let r = s >> 32;
        at(r * r);
        at((r * r).wrapping_sub(1));
        let q = r >> 11;
        at(q * q * q);
        at((q * q * q).wrapping_sub(1));
    }
    bad
}

fn main() {
    println!("whole numbers: {} wrong", whole());
    println!("floats: {} differ", floats());
}
