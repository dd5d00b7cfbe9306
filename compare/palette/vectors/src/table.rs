//! The conversions by name, with the inputs that every table has and the way to draw more.
use crate::conversions::{self, Answer};
use crate::inputs::Inputs;

pub struct Conversion {
    pub name: &'static str,
    /// Inputs at branches and ends, which few seeds draw.
    pub fixed: &'static [&'static [f32]],
    pub draw: fn(&mut Inputs) -> Vec<f32>,
    pub convert: fn(&[f32]) -> Answer,
}

/// The distance from 1 to the next f32, 2^-23.
const STEP: f32 = f32::EPSILON;

const fn bits(pattern: u32) -> f32 {
    f32::from_bits(pattern)
}

/// The direction of the third valve.
const MIXING: (f32, f32) = (5.0 / 13.0, -12.0 / 13.0);

/// The conversions, in the order in which their rows are written.
pub const CONVERSIONS: [Conversion; 16] = [
    Conversion {
        name: "okhsl>oklab",
        fixed: &[
            &[0.6, 0.8, 0.4, 0.5],
            &[-0.8, 0.6, 0.4, 0.5],
            &[MIXING.0, MIXING.1, 0.4, 0.5],
            // about the knee
            &[0.6, 0.8, 0.799_999_95, 0.5],
            &[0.6, 0.8, 0.8, 0.5],
            &[0.6, 0.8, 0.800_000_1, 0.5],
            &[0.6, 0.8, 1.0, 0.5],
            &[MIXING.0, MIXING.1, 0.0, 0.5],
            // at the knee, where the lower piece of the curve gives another number
            &[bits(0xbf7dca6e), bits(0xbe063c4d), 0.8, bits(0x3f4ccccf)],
            // next to the hue of blue, and near to it
            &[bits(0xbdd43995), bits(0xbf7e9f30), bits(0x3ea7afe0), bits(0x3f1d84a1)],
            &[bits(0xbe1d34e4), bits(0xbf7cf716), bits(0x3f4ccccb), bits(0x3f485c1a)],
            // black, white, and next to them
            &[0.6, 0.8, 1.0, 0.0],
            &[0.6, 0.8, 1.0, -0.0],
            &[0.6, 0.8, 1.0, 1.0],
            &[0.6, 0.8, 1.0, 0.999_999_94],
            &[0.6, 0.8, 1.0, 1e-45],
            // a² + b² is 1 ± 2^-20, and one step further
            &[1.0 - 4.0 * STEP, 0.0, 0.5, 0.5],
            &[1.0 - 4.5 * STEP, 0.0, 0.5, 0.5],
            &[1.0 + 4.0 * STEP, 0.0, 0.5, 0.5],
            &[1.0 + 5.0 * STEP, 0.0, 0.5, 0.5],
        ],
        draw: |inputs| {
            let (a, b) = inputs.direction();
            vec![a, b, inputs.saturation(), inputs.unit()]
        },
        convert: |x| conversions::okhsl_to_oklab(x[0], x[1], x[2], x[3]),
    },
    Conversion {
        name: "oklab>okhsl",
        fixed: &[
            // greys, and the least chroma that is none
            &[0.5, 0.0, 0.0],
            &[0.5, 0.0, 1.175_494_2e-38],
            &[0.5, 0.0, f32::MIN_POSITIVE],
            // black and white with chroma, and next to them
            &[0.0, 0.1, 0.0],
            &[1e-40, 0.0, 1e-3],
            &[1e-20, 0.0, 1e-21],
            &[1.0, 0.0, 0.1],
            &[1.0, 0.0, 6e-8],
            &[0.999_999_94, -2.409_592e-8, 9.705_352e-8],
            // chroma is mid, and lightness that of the cusp
            &[bits(0x3f0c240f), bits(0xbdbfc78e), bits(0x3d932eb4)],
            &[bits(0x3f261632), bits(0x3e86f5ed), bits(0xbba0f500)],
            // outside the gamut
            &[0.5, 1.0, 0.0],
            &[0.9, 0.0, -0.3],
            // a chroma that is infinite
            &[0.5, 3e38, 3e38],
            &[0.0, 3e38, 3e38],
        ],
        draw: |inputs| inputs.oklab().to_vec(),
        convert: |x| conversions::oklab_to_okhsl(x[0], x[1], x[2]),
    },
    Conversion {
        name: "okhsv>oklab",
        fixed: &[
            &[MIXING.0, MIXING.1, 1.0, 1.0],
            &[MIXING.0, MIXING.1, 0.0, 0.5],
            &[MIXING.0, MIXING.1, 0.5, 0.0],
            // a spoiled answer
            &[-0.104_528_464, -0.994_521_9, 1.0, 1e-45],
        ],
        draw: |inputs| {
            let (a, b) = inputs.direction();
            vec![a, b, inputs.unit(), inputs.unit()]
        },
        convert: |x| conversions::okhsv_to_oklab(x[0], x[1], x[2], x[3]),
    },
    Conversion {
        name: "oklab>okhsv",
        fixed: &[
            &[0.5, 0.0, 0.0],
            &[0.0, 0.1, 0.0],
            &[-0.0, 0.1, 0.0],
            &[1.0, 0.0, 0.1],
            &[1e-40, 0.0, 1e-3],
            &[0.5, 0.0, 1.175_494_2e-38],
            &[0.5, 0.0, f32::MIN_POSITIVE],
            // an infinite value, and an infinite chroma
            &[0.5, f32::MAX, 0.0],
            &[0.0, 3e38, 3e38],
        ],
        draw: |inputs| inputs.oklab().to_vec(),
        convert: |x| conversions::oklab_to_okhsv(x[0], x[1], x[2]),
    },
    Conversion {
        name: "okhwb>okhsv",
        fixed: &[
            &[0.6, 0.8, 0.0, 1.0],
            &[0.6, 0.8, 0.5, 0.5],
            &[0.6, 0.8, 0.500_000_06, 0.5],
            &[0.6, 0.8, 1e-45, 1.0],
        ],
        draw: |inputs| {
            let ((a, b), (whiteness, blackness)) = (inputs.direction(), inputs.mix());
            vec![a, b, whiteness, blackness]
        },
        convert: |x| conversions::okhwb_to_okhsv(x[0], x[1], x[2], x[3]),
    },
    Conversion {
        name: "okhsv>okhwb",
        fixed: &[&[0.6, 0.8, 1.0, 1.0], &[0.6, 0.8, 0.0, 0.0]],
        draw: |inputs| {
            let (a, b) = inputs.direction();
            vec![a, b, inputs.unit(), inputs.unit()]
        },
        convert: |x| conversions::okhsv_to_okhwb(x[0], x[1], x[2], x[3]),
    },
    Conversion {
        name: "oklch>oklab",
        fixed: &[
            // a chroma below 0 counts as 0
            &[0.5, -0.1, 0.6, 0.8],
            &[0.5, -0.0, 0.6, -0.8],
            &[0.5, f32::MAX, 1.0, 0.0],
            // an infinite answer
            &[0.5, f32::MAX, 1.0 + 4.0 * STEP, 0.0],
        ],
        draw: |inputs| {
            let (l, chroma, (a, b)) = (inputs.unit(), inputs.chroma(), inputs.direction());
            vec![l, chroma, a, b]
        },
        convert: |x| conversions::oklch_to_oklab(x[0], x[1], x[2], x[3]),
    },
    Conversion {
        name: "oklab>oklch",
        fixed: &[
            &[0.5, 0.0, 0.0],
            &[0.5, -0.0, 0.0],
            // a subnormal chroma has no direction of length 1
            &[0.5, 1e-45, 1e-45],
            &[0.5, f32::MAX, 0.0],
            &[0.5, 3e38, 3e38],
        ],
        draw: |inputs| inputs.oklab().to_vec(),
        convert: |x| conversions::oklab_to_oklch(x[0], x[1], x[2]),
    },
    Conversion {
        name: "rgb>oklab",
        fixed: &[
            &[1.0, 1.0, 1.0],
            &[0.0, 0.0, 0.0],
            &[-0.0, -0.0, -0.0],
            &[1.0, 0.0, 0.0],
            &[0.0, 1.0, 0.0],
            &[0.0, 0.0, 1.0],
            &[1e-45, 1e-45, 1e-45],
            &[bits(0x3e99e610), bits(0x3e47ff90), bits(0x3f26efa1)],
        ],
        draw: |inputs| inputs.light().to_vec(),
        convert: |x| conversions::linear_srgb_to_oklab(x[0], x[1], x[2]),
    },
    Conversion {
        name: "oklab>rgb",
        fixed: &[&[1.0, 0.0, 0.0], &[0.0, 0.0, 0.0], &[0.5, 1e13, 0.0]],
        draw: |inputs| inputs.oklab().to_vec(),
        convert: |x| conversions::oklab_to_linear_srgb(x[0], x[1], x[2]),
    },
    Conversion {
        name: "xyz>oklab",
        fixed: &[
            // the white point D65
            &[0.95047, 1.0, 1.08883],
            &[0.0, 0.0, 0.0],
            &[1e-45, 0.0, 0.0],
            &[f32::MAX, f32::MAX, 0.0],
        ],
        draw: |inputs| inputs.light().to_vec(),
        convert: |x| conversions::xyz_to_oklab(x[0], x[1], x[2]),
    },
    Conversion {
        name: "oklab>xyz",
        fixed: &[&[1.0, 0.0, 0.0], &[0.0, 0.0, 0.0], &[0.5, 1e13, 0.0]],
        draw: |inputs| inputs.oklab().to_vec(),
        convert: |x| conversions::oklab_to_xyz(x[0], x[1], x[2]),
    },
    Conversion {
        name: "chroma_values",
        fixed: &[
            &[0.5, 0.6, 0.8],
            &[0.5, -0.8, 0.6],
            &[0.5, MIXING.0, MIXING.1],
            // mid is 0, and mid and max are below 0: as queries both are refused
            &[4.888_347e-10, 1.0, 0.0],
            &[0.999_999_94, -0.240_959_2, 0.970_535_2],
            // max comes of the 1,000,000 of a channel that does not count
            &[bits(0x3f72f512), bits(0x0fe82c0c), bits(0x334c7b71)],
        ],
        draw: |inputs| {
            let (l, (a, b)) = (inputs.unit(), inputs.direction());
            vec![l, a, b]
        },
        convert: |x| Ok(conversions::chroma_values(x[0], x[1], x[2])),
    },
    Conversion {
        name: "cusp",
        fixed: &[&[0.6, 0.8], &[-0.8, 0.6], &[MIXING.0, MIXING.1]],
        draw: |inputs| {
            let (a, b) = inputs.direction();
            vec![a, b]
        },
        convert: |x| Ok(conversions::find_cusp(x[0], x[1])),
    },
    Conversion {
        name: "toe",
        fixed: &[&[0.0], &[-0.0], &[1.0], &[36359.0 / 63918.0], &[f32::MAX]],
        draw: |inputs| vec![inputs.lightness()],
        convert: |x| Ok(conversions::toe(x[0])),
    },
    Conversion {
        name: "toe_inv",
        fixed: &[&[0.0], &[-0.0], &[1.0], &[0.5], &[f32::MAX]],
        draw: |inputs| vec![inputs.lightness()],
        convert: |x| Ok(conversions::toe_inv(x[0])),
    },
];
