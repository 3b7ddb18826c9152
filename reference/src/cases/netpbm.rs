//! The files of `data/`, made by Netpbm: read whole, and their headers where
//! they begin and elsewhere.

use super::Case;

/// The files, as they stand in `data/README.md`.
const FILES: [&[u8]; 12] = [
    include_bytes!("../../data/make.pgm"),
    include_bytes!("../../data/ramp.pgm"),
    include_bytes!("../../data/noise.pgm"),
    include_bytes!("../../data/small.pgm"),
    include_bytes!("../../data/flipped.pgm"),
    include_bytes!("../../data/from_ppm.pgm"),
    include_bytes!("../../data/maxval_15.pgm"),
    include_bytes!("../../data/maxval_65535.pgm"),
    include_bytes!("../../data/two_images.pgm"),
    include_bytes!("../../data/plain.pgm"),
    include_bytes!("../../data/bitmap.pbm"),
    include_bytes!("../../data/colour.ppm"),
];

/// All of them.
pub fn cases(cases: &mut Vec<Case>) {
    for file in FILES {
        for places in [13, 12, 5] {
            cases.push(Case::new("file").with("out", places).on(file));
        }
        cases.push(Case::new("text").on(file));
        for at in 0..=file.len() + 1 {
            cases.push(Case::new("header").with("at", at).on(file));
        }
    }
}
