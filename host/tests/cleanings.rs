//! Several cleanings, through the C function: two limits on one plate, and one limit on two plates.

mod common;

use common::{Chance, Plate};
use livukoe::lent;
use livukoe::pictures::picture;
use livukoe::{Connectivity, Side};

/// How many plates of which greatest width and height.
const CASES: [(usize, usize); 2] = [(40_000, 7), (400, 30)];

/// The plate that the C function leaves, in an output and a work space with some excess.
fn cleaned(plate: &Plate, side: Side, limit: u32) -> Plate {
    let pixels = plate.pixels();
    let (mut out, mut work) = (vec![77; pixels + 2], vec![77; 8 * pixels + 2]);
    let refusal = lent::clean(side.number(), plate.image(), limit, &mut out, &mut work);
    assert_eq!(refusal, 0);
    assert_eq!(out[pixels..], [77; 2]);
    out.truncate(pixels);
    plate.with(out)
}

/// Cleaning at a and then at b is one cleaning at the greater, which a second one leaves as it is. Says whether either of
/// the two changed the plate that it was given.
fn check_two_limits(plate: &Plate, side: Side, a: u32, b: u32) -> [bool; 2] {
    let first = cleaned(plate, side, a);
    let second = cleaned(&first, side, b);
    let greater = a.max(b);
    let once = cleaned(plate, side, greater);
    assert!(second.greys == once.greys, "{side}, {a}, {b}");
    let again = cleaned(&once, side, greater);
    assert!(again.greys == once.greys, "{side}, {greater} twice");
    [first.greys != plate.greys, second.greys != first.greys]
}

fn nowhere_darker(one: &Plate, other: &Plate) -> bool {
    let mut pairs = one.greys.iter().zip(&other.greys);
    pairs.all(|(grey, bound)| grey >= bound)
}

/// A plate nowhere darker than another stays so. Says whether both changed.
fn check_order(lighter: &Plate, darker: &Plate, side: Side, limit: u32) -> bool {
    assert!(nowhere_darker(lighter, darker));
    let (light, dark) = (cleaned(lighter, side, limit), cleaned(darker, side, limit));
    assert!(nowhere_darker(&light, &dark), "{side}, {limit}");
    light.greys != lighter.greys && dark.greys != darker.greys
}

/// Plates by chance, each with a chance of its own.
fn plates(seed: u64) -> impl Iterator<Item = (Plate, Chance)> {
    let extents = CASES
        .into_iter()
        .flat_map(|(cases, extent)| std::iter::repeat_n(extent, cases));
    extents.enumerate().map(move |(case, extent)| {
        let mut chance = Chance::new(seed + 2 * case as u64);
        (chance.plate(extent), chance)
    })
}

/// A limit from 1 to the pixels, more often a small one.
fn limit(chance: &mut Chance, plate: &Plate) -> u32 {
    let most = chance.pick(&[4, 12, plate.pixels()]).min(plate.pixels());
    1 + chance.below(most) as u32
}

#[test]
fn two_limits() {
    let mut changed = [0; 4];
    for (plate, mut chance) in plates(1) {
        let (a, b) = (limit(&mut chance, &plate), limit(&mut chance, &plate));
        for side in Side::ALL {
            let [first, second] = check_two_limits(&plate, side, a, b);
            changed[usize::from(first) + 2 * usize::from(second)] += 1;
        }
    }
    assert!(changed.iter().all(|&cases| cases > 500), "{changed:?}");
}

#[test]
fn two_plates() {
    let mut changed = 0;
    for (darker, mut chance) in plates(2) {
        let greatest = darker.greatest as usize;
        let raise = chance.pick(&[2, 5, greatest + 1]);
        let greys = darker.greys.iter();
        let raised =
            greys.map(|&grey| (usize::from(grey) + chance.below(raise)).min(greatest) as u16);
        let lighter = darker.with(raised.collect());
        let limit = limit(&mut chance, &darker);
        for side in Side::ALL {
            changed += usize::from(check_order(&lighter, &darker, side, limit));
        }
    }
    assert!(changed > 5_000, "{changed}");
}

/// A plate of as many pixels as there may be.
fn largest(kind: &str) -> Plate {
    let made = picture(kind, 4096, 4096);
    Plate {
        width: made.width(),
        height: made.height(),
        greatest: made.greatest(),
        connectivity: Connectivity::Six.number(),
        greys: made.into_greys(),
    }
}

/// Both on a plate of 16,777,216 pixels: a relief, and the same with specks.
#[test]
fn the_largest_plate() {
    let darker = largest("terrain");
    let greys = darker.greys.iter().zip(largest("noise").greys);
    let specked = greys.map(|(&grey, speck)| grey.max(speck & 127));
    let lighter = darker.with(specked.collect());
    assert_eq!(
        check_two_limits(&lighter, Side::Light, 3, 70_000),
        [true; 2]
    );
    assert_eq!(
        check_two_limits(&darker, Side::Dark, 70_000, 65_536),
        [true, false]
    );
    for side in Side::ALL {
        assert!(check_order(&lighter, &darker, side, 65_536));
    }
}

/// The claims are about one side. Both sides in turn fill the pinhole between two patches at a small limit; joined by it,
/// the smaller patch stays at a greater limit, at which it would have gone.
#[test]
fn both_sides_in_turn() {
    #[rustfmt::skip]
    let greys = vec![
        0, 0, 0, 0, 0, 0, 0,
        0, 0, 0, 9, 9, 9, 0,
        0, 0, 9, 0, 9, 9, 0,
        0, 0, 9, 9, 0, 0, 0,
        0, 0, 0, 0, 0, 0, 0,
    ];
    let plate = Plate {
        width: 7,
        height: 5,
        greatest: 9,
        connectivity: 4,
        greys,
    };
    let both =
        |plate: &Plate, limit| cleaned(&cleaned(plate, Side::Light, limit), Side::Dark, limit);
    let light = |plate: &Plate| plate.greys.iter().filter(|&&grey| grey == 9).count();
    assert_eq!(light(&both(&both(&plate, 2), 5)), 9);
    assert_eq!(light(&both(&plate, 5)), 5);
}
