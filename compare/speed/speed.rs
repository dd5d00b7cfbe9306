// Times the proved roots beside Rust's own, in one run over the same inputs; the sums of the results
// must be equal wherever Rust's root is correctly rounded.
// Run: (cd crates/roots_speed && rt lib) && mkdir -p target && rustc -O compare/speed/speed.rs -L crates/roots_speed/out -l static=roots_speed -o target/speed && target/speed
use std::hint::black_box;
use std::time::Instant;

const COUNT: u32 = 10_000_000;

unsafe extern "C" {
    fn rattle_nothing(count: u32) -> u64;
    fn rattle_sqrt(count: u32) -> u64;
    fn rattle_cbrt(count: u32) -> u64;
    fn rattle_cbrt_signs(count: u32) -> u64;
    fn rattle_sqrt_subnormal(count: u32) -> u64;
    fn rattle_cbrt_subnormal(count: u32) -> u64;
    fn rattle_whole_sqrt(count: u32) -> u64;
    fn rattle_whole_cbrt(count: u32) -> u64;
}

fn step(s: u64) -> u64 {
    s.wrapping_mul(6364136223846793005).wrapping_add(1442695040888963407)
}

fn input(s: u64) -> f32 {
    f32::from_bits(((s >> 33) % 0x4000_0000 + 0x2000_0000) as u32)
}

fn signed(s: u64) -> f32 {
    let x = input(s);
    if (s >> 40) % 2 == 0 { x } else { -x }
}

fn subnormal(s: u64) -> f32 {
    f32::from_bits(((s >> 33) % 0x80_0000) as u32)
}

#[inline(always)]
fn rust_loop(f: impl Fn(u64) -> u64) -> u64 {
    let mut s: u64 = black_box(42);
    let mut sum: u64 = 0;
    for _ in 0..COUNT {
        s = step(s);
        sum = sum.wrapping_add(f(s));
    }
    black_box(sum)
}

fn whole_cbrt(n: u64) -> u64 {
    let mut r = (n as f64).cbrt() as u64;
    while (r as u128).pow(3) > n as u128 {
        r -= 1;
    }
    while (r as u128 + 1).pow(3) <= n as u128 {
        r += 1;
    }
    r
}

#[inline(never)]
fn best(f: &dyn Fn() -> u64) -> (f64, u64) {
    let f = black_box(f);
    let mut least = f64::MAX;
    let mut sum = 0;
    for _ in 0..5 {
        let start = Instant::now();
        sum = black_box(f());
        least = least.min(start.elapsed().as_nanos() as f64 / COUNT as f64);
    }
    (least, sum)
}

fn show(name: &str, ours: &dyn Fn() -> u64, rusts: &dyn Fn() -> u64) {
    let (a, x) = best(ours);
    let (b, y) = best(rusts);
    println!("{name:16} ours {a:6.2} ns, Rust {b:6.2} ns, ratio {:5.2}, sums {}", a / b, if x == y { "equal" } else { "differ" });
}

fn main() {
    unsafe {
        show("loop alone", &|| rattle_nothing(COUNT), &|| rust_loop(|s| input(s).to_bits() as u64));
        show("sqrt_f32", &|| rattle_sqrt(COUNT), &|| rust_loop(|s| input(s).sqrt().to_bits() as u64));
        show("cbrt_f32", &|| rattle_cbrt(COUNT), &|| rust_loop(|s| input(s).cbrt().to_bits() as u64));
        show("cbrt, both signs", &|| rattle_cbrt_signs(COUNT), &|| rust_loop(|s| signed(s).cbrt().to_bits() as u64));
        show("sqrt, subnormal", &|| rattle_sqrt_subnormal(COUNT), &|| rust_loop(|s| subnormal(s).sqrt().to_bits() as u64));
        show("cbrt, subnormal", &|| rattle_cbrt_subnormal(COUNT), &|| rust_loop(|s| subnormal(s).cbrt().to_bits() as u64));
        show("whole_sqrt", &|| rattle_whole_sqrt(COUNT), &|| rust_loop(|s| (s >> (s % 64)).isqrt()));
        show("whole_cbrt", &|| rattle_whole_cbrt(COUNT), &|| rust_loop(|s| whole_cbrt(s >> (s % 64))));
    }
}
