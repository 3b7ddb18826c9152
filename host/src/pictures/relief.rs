//! A relief map as it comes off a scanner: shaded mountains with a glacier, snowfields and lakes, and dust on them.

use super::{by_chance, next, SEED};
use crate::Plate;

/// The widest speck, in pixels: 0.1 mm at 600 dots an inch.
const SPECK: f32 = 0.1 / 25.4 * 600.0;

/// A shaded relief with specks on it, light and dark by turns, each at most `SPECK` pixels across.
pub fn specked_relief(width: u32, height: u32) -> Plate {
    let (columns, rows) = (width as usize, height as usize);
    let mut greys = relief(columns, rows);
    let mut state = SEED;
    for speck in 0..columns * rows / 260 {
        let centre = (
            by_chance_below(&mut state, columns),
            by_chance_below(&mut state, rows),
        );
        let radius = SPECK * (0.6 + 0.4 * by_chance_below(&mut state, 1)) / 2.0;
        let grey = if speck % 2 == 0 { 255.0 } else { 0.0 };
        put_speck(&mut greys, columns, centre, radius, grey);
    }
    let greys: Vec<u8> = greys.iter().map(|grey| (grey + 0.5) as u8).collect();
    Plate::from_bytes(width, height, &greys)
}

/// A number from 0 up to, and not including, a bound.
fn by_chance_below(state: &mut u64, bound: usize) -> f32 {
    next(state) as f32 / 2_147_483_648.0 * bound as f32 * 0.999_999
}

/// Puts a round speck on the plate; a pixel takes of its grey what the speck covers of it.
fn put_speck(greys: &mut [f32], columns: usize, (x, y): (f32, f32), radius: f32, grey: f32) {
    const PARTS: usize = 8;
    let rows = greys.len() / columns;
    let first = |at: f32| (at - radius).max(0.0) as usize;
    let last = |at: f32, end: usize| ((at + radius) as usize).min(end - 1);
    for row in first(y)..=last(y, rows) {
        for column in first(x)..=last(x, columns) {
            let inside = (0..PARTS * PARTS).filter(|part| {
                let right = column as f32 + (0.5 + (part % PARTS) as f32) / PARTS as f32 - x;
                let down = row as f32 + (0.5 + (part / PARTS) as f32) / PARTS as f32 - y;
                right * right + down * down <= radius * radius
            });
            let part = inside.count() as f32 / (PARTS * PARTS) as f32;
            let place = &mut greys[row * columns + column];
            *place += part * (grey - *place);
        }
    }
}

/// The shaded ground, lit from the upper left, as greys from 0 to 255.
pub(super) fn relief(columns: usize, rows: usize) -> Vec<f32> {
    let scale = 1.0 / columns as f32;
    let at = |x: f32, y: f32| ground(x * scale, y * scale);
    let grey = |p: usize| {
        let (x, y) = ((p % columns) as f32, (p / columns) as f32);
        let right = (at(x + 0.5, y) - at(x - 0.5, y)) / scale;
        let down = (at(x, y + 0.5) - at(x, y - 0.5)) / scale;
        match cover(x * scale, y * scale) {
            Cover::Water => WATER,
            cover => shaded(cover, right, down),
        }
    };
    (0..columns * rows).map(grey).collect()
}

/// What the ground is under.
#[derive(Clone, Copy, PartialEq)]
enum Cover {
    Water,
    Grass,
    Ice,
}

/// The heights above which all is ice, and below which all is water.
const SNOW_LINE: f32 = 1.63;
const LAKE_LEVEL: f32 = 0.665;

/// Where snow lies below the glacier, and where water stands above the lake, on the map whose width is 1. The last
/// snowfield lies on the lower border: the map shows a part of it.
const SNOWFIELDS: [(f32, f32); 5] = [
    (0.33, 0.10),
    (0.55, 0.58),
    (0.87, 0.30),
    (0.74, 0.62),
    (0.87, 0.70),
];
const TARNS: [(f32, f32); 2] = [(0.91, 0.10), (0.60, 0.44)];

fn cover(x: f32, y: f32) -> Cover {
    let height = ground(x, y);
    let (x, y) = bent(x, y, 30.0, 0.02);
    let near = |places: &[(f32, f32)]| {
        let hills = places
            .iter()
            .map(|at| 1.2 * hill(x - at.0, y - at.1, 6_000.0));
        hills.fold(0.0, f32::max)
    };
    if height + near(&SNOWFIELDS) > SNOW_LINE {
        Cover::Ice
    } else if height - near(&TARNS) < LAKE_LEVEL {
        Cover::Water
    } else {
        Cover::Grass
    }
}

/// The grey of water.
const WATER: f32 = 74.0;

/// The grey of ice or grass, by the slopes to the right and down.
fn shaded(cover: Cover, right: f32, down: f32) -> f32 {
    let (right, down) = (right * 0.17, down * 0.17);
    let light = (right + down) * 0.55 + 0.63;
    let lit = (light / (1.0 + right * right + down * down).sqrt()).clamp(0.0, 1.0);
    if cover == Cover::Ice {
        234.0 + 18.0 * lit
    } else {
        46.0 + 170.0 * lit
    }
}

/// The height of the ground at a place of the map, whose width is 1: a range of mountains above a basin, and ridges on
/// finer and finer grids, which are the higher the higher the ridge that they stand on.
fn ground(x: f32, y: f32) -> f32 {
    let mut height =
        0.9 * hill(x - 0.66, y - 0.26, 9.0) - 0.8 * hill(x - 0.22, y - 0.50, 26.0) + 0.2;
    let (x, y) = bent(x, y, 5.0, 0.07);
    let (mut x, mut y) = (x * 3.0 + 3.0, y * 3.0 + 7.0);
    let (mut strength, mut weight) = (0.66, 1.0);
    for octave in 0..5 {
        let ridge = 1.0 - 2.0 * noise(x, y, octave).abs();
        height += strength * ridge * weight;
        weight = 0.35 + 0.65 * ridge;
        strength *= 0.38;
        (x, y) = ((0.8 * x - 0.6 * y) * 2.0, (0.6 * x + 0.8 * y) * 2.0);
    }
    height
}

/// A place, moved by noise with so many cells across the map, and of that strength.
fn bent(x: f32, y: f32, cells: f32, strength: f32) -> (f32, f32) {
    let by = |kind| strength * noise(x * cells, y * cells, kind);
    (x + by(90), y + by(91))
}

/// A round hill of height 1.
fn hill(x: f32, y: f32, steepness: f32) -> f32 {
    1.0 / (1.0 + steepness * (x * x + y * y))
}

/// Smooth noise about 0, mostly from -0.5 to 0.5: each corner of a square grid has a slope by chance.
fn noise(x: f32, y: f32, octave: usize) -> f32 {
    let (column, row) = (x.floor(), y.floor());
    let (right, down) = (x - column, y - row);
    let corner = |dx: f32, dy: f32| {
        let place = |at: f32| (at as i64 + (1 << 20)) as usize;
        let slope =
            |kind| 2.0 * by_chance(place(column + dx), place(row + dy), 2 * octave + kind) - 1.0;
        slope(0) * (right - dx) + slope(1) * (down - dy)
    };
    let eased = |t: f32| t * t * t * (t * (t * 6.0 - 15.0) + 10.0);
    let upper = corner(0.0, 0.0) * (1.0 - eased(right)) + corner(1.0, 0.0) * eased(right);
    let lower = corner(0.0, 1.0) * (1.0 - eased(right)) + corner(1.0, 1.0) * eased(right);
    upper * (1.0 - eased(down)) + lower * eased(down)
}

#[cfg(test)]
mod tests {
    use super::{put_speck, SPECK};

    /// Wherever it falls, the widest speck touches fewer pixels than the demonstration's limit, 17.
    #[test]
    fn a_speck_touches_at_most_16_pixels() {
        for part in 0..32 * 32 {
            let centre = (
                5.0 + (part % 32) as f32 / 32.0,
                5.0 + (part / 32) as f32 / 32.0,
            );
            let mut greys = vec![100.0; 12 * 12];
            put_speck(&mut greys, 12, centre, SPECK / 2.0, 255.0);
            let touched = greys.iter().filter(|&&grey| grey != 100.0).count();
            assert!((1..=16).contains(&touched), "{touched} at {centre:?}");
        }
    }
}
