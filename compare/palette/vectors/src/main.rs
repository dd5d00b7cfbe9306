//! Writes rows that tell what palette's conversions give at f32, and where the library refuses: `vectors SEED COUNT`
//! writes for each conversion its fixed rows and COUNT seeded ones, and to the standard error how many are refused.
mod conversions;
mod inputs;
mod number;
mod refusals;
mod roots;
mod table;

use conversions::Answer;
use inputs::Inputs;
use std::io::{self, BufWriter, Write};
use table::{Conversion, CONVERSIONS};

/// The bit patterns, each after a space; all not-a-numbers are alike.
fn patterns(numbers: &[f32]) -> String {
    let bits = |x: &f32| if x.is_nan() { 0x7fc0_0000 } else { x.to_bits() };
    numbers.iter().map(|x| format!(" {:08x}", bits(x))).collect()
}

fn write_row(out: &mut impl Write, name: &str, given: &[f32], answer: &Answer) -> io::Result<()> {
    let given = patterns(given);
    match answer {
        Ok(found) => writeln!(out, "{name}{given} ={}", patterns(found)),
        Err(refusal) => writeln!(out, "{name}{given} = refused {}", *refusal as u32),
    }
}

/// Writes the rows of a conversion, and answers how many are refused with 5, 6, 7 and 8.
fn write_rows(
    out: &mut impl Write,
    conversion: &Conversion,
    rows: impl Iterator<Item = Vec<f32>>,
) -> io::Result<[u32; 4]> {
    let mut refused = [0; 4];
    for given in rows {
        let answer = (conversion.convert)(&given);
        write_row(out, conversion.name, &given, &answer)?;
        if let Err(refusal) = answer {
            refused[refusal as usize - 5] += 1;
        }
    }
    Ok(refused)
}

fn argument(place: usize) -> Option<usize> {
    std::env::args().nth(place)?.parse().ok()
}

fn main() -> io::Result<()> {
    let (Some(seed), Some(count)) = (argument(1), argument(2)) else {
        eprintln!("vectors SEED COUNT");
        std::process::exit(2);
    };
    let mut inputs = Inputs::new(seed as u64);
    let mut out = BufWriter::new(io::stdout().lock());
    for conversion in &CONVERSIONS {
        let fixed = conversion.fixed.iter().map(|row| row.to_vec());
        let seeded = (0..count).map(|_| (conversion.draw)(&mut inputs));
        let refused = write_rows(&mut out, conversion, fixed.chain(seeded))?;
        let (name, rows) = (conversion.name, conversion.fixed.len() + count);
        let [range, direction, boundary, lost] = refused;
        eprintln!("{name}: {rows} rows, refused: 5 {range}, 6 {direction}, 7 {boundary}, 8 {lost}");
    }
    out.flush()
}
