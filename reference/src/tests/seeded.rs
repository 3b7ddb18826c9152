//! Plates from a seed: their greys, that rows follow one another, the file read back, the
//! refusals and what is left in the output, and slips that give other plates.

use super::helpers::*;
use super::written::check_reading_back;
use crate::case::Case;
use crate::*;

/// Makes the plate of a seed with an ample output, checks the excess, returns the plate.
fn seeded(seed: u32, width: u32, height: u32) -> Vec<u16> {
    let pixels = (width * height) as usize;
    let mut out = vec![GREY; pixels + EXCESS];
    assert_eq!(seeded_plate(seed, width, height, &mut out).refusal, 0);
    assert!(all_are(&out[pixels..], GREY));
    out.truncate(pixels);
    out
}

/// Seeds at the ends and some others.
fn seeds() -> Vec<u32> {
    let mut random = Lcg(70);
    let ends = [0, 1, 2, 0x7fff_ffff, 0x8000_0000, u32::MAX - 1, u32::MAX];
    let others = (0..40).map(|_| 65_536 * random.below(65_536) + random.below(65_536));
    ends.into_iter().chain(others).collect()
}

#[test]
fn seed_0_begins_60_71_209_170() {
    for (width, height) in [(4, 1), (2, 2), (1, 4)] {
        assert_eq!(seeded(0, width, height), [60, 71, 209, 170]);
    }
    assert_eq!(seeded(0, 3, 2)[..4], [60, 71, 209, 170]);
}

/// The number of states.
const STATES: u128 = 1 << 32;

/// A number to a power, by the remainder of a division.
fn power(number: u128, exponent: u32, by: u128) -> u128 {
    match exponent {
        0 => 1,
        _ => {
            let half = power(number, exponent / 2, by);
            let square = half * half % by;
            match exponent % 2 {
                0 => square,
                _ => square * number % by,
            }
        }
    }
}

/// The state after n steps: the nth power of the multiplier, times the seed, plus the sum
/// of the lower powers, times the number that is added. The sum is the nth power less 1,
/// divided by the multiplier less 1.
fn state_after(seed: u32, n: u32) -> u32 {
    let nth = power(1_664_525, n, 1_664_524 * STATES);
    let sum = (nth - 1) / 1_664_524;
    let state = nth % STATES * u128::from(seed) + sum * 1_013_904_223;
    (state % STATES) as u32
}

#[test]
fn the_state_after_some_steps() {
    assert_eq!([0, 1, 77].map(|seed| state_after(seed, 0)), [0, 1, 77]);
    assert_eq!(state_after(0, 1), 1_013_904_223);
    assert_eq!(state_after(1, 1), 1_015_568_748);
    let state = (1_013_904_223 * 1_664_525u64 + 1_013_904_223) % (1 << 32);
    assert_eq!(u64::from(state_after(0, 2)), state);
}

#[test]
fn each_pixel_by_the_formula() {
    for seed in seeds() {
        for (width, height) in [(7, 5), (1, 30), (30, 1), (50, 40)] {
            let steps = 1..=width * height;
            let formula = steps.map(|n| u16::from(state_after(seed, n).to_be_bytes()[0]));
            assert_eq!(seeded(seed, width, height), formula.collect::<Vec<u16>>());
        }
    }
}

#[test]
fn the_largest_plates() {
    let plate = seeded(3, 4_096, 4_096);
    for p in (0..16_777_216).step_by(9_973).chain([16_777_215]) {
        assert_eq!(u32::from(plate[p as usize]), state_after(3, p + 1) >> 24);
    }
    assert!(seeded(3, 32_768, 512) == plate);
    assert_eq!(seeded(3, 32_768, 1), plate[..32_768]);
    assert_eq!(seeded(3, 1, 32_768), plate[..32_768]);
}

#[test]
fn the_state_goes_on_at_the_end_of_a_row() {
    for seed in seeds() {
        let row = seeded(seed, 120, 1);
        for width in (1..=120).filter(|width| 120 % width == 0) {
            assert_eq!(seeded(seed, width, 120 / width), row);
        }
    }
}

#[test]
fn a_larger_plate_begins_with_the_smaller() {
    for seed in seeds() {
        let large = seeded(seed, 12, 13);
        for (width, height) in [(1, 1), (12, 1), (1, 13), (12, 12), (11, 13), (5, 7)] {
            let small = seeded(seed, width, height);
            assert_eq!(small, large[..small.len()]);
        }
    }
}

#[test]
fn the_state_after_a_plate_is_the_seed_of_the_pixels_that_follow() {
    for seed in seeds() {
        let whole = seeded(seed, 10, 4);
        for rows in 1..4 {
            let behind = seeded(state_after(seed, 10 * rows), 10, 4 - rows);
            assert_eq!(behind, whole[10 * rows as usize..]);
        }
    }
}

#[test]
fn every_grey_up_to_255_occurs_and_none_above() {
    for seed in seeds() {
        let plate = seeded(seed, 64, 64);
        assert!((0..=255).all(|grey| plate.contains(&grey)));
        assert!(plate.iter().all(|&grey| grey <= 255));
    }
}

#[test]
fn the_plate_read_back_from_its_file_is_the_generated_one() {
    for seed in seeds() {
        for (width, height) in [(1, 1), (4, 1), (1, 4), (2, 2), (4, 3), (17, 3), (100, 10)] {
            check_reading_back(&seeded(seed, width, height), width, height, 255);
        }
    }
    for (width, height) in [(32_768, 1), (1, 32_768), (999, 101)] {
        check_reading_back(&seeded(9, width, height), width, height, 255);
    }
}

/// The refusal of a plate with an output of so many places, which it leaves untouched.
fn refusal(seed: u32, (width, height): (u32, u32), places: usize) -> u32 {
    let mut out = vec![GREY; places];
    let done = seeded_plate(seed, width, height, &mut out);
    assert_eq!(all_are(&out, GREY), done.refusal != 0);
    done.refusal
}

#[test]
fn sizes_beyond_the_grid_are_refused_by_2() {
    let most = u32::MAX;
    let zeros = [(0, 0), (0, 3), (4, 0), (0, most), (most, 0)];
    let above = [(32_769, 1), (1, 32_769), (most, 1), (1, most), (most, most)];
    let products = [(4_097, 4_096), (4_096, 4_097), (32_768, 513), (513, 32_768)];
    let wrapped = [(65_536, 65_536), (2_147_483_654, 2), (6, 2_147_483_650)];
    let sizes = zeros.into_iter().chain(above).chain(products);
    for size in sizes.chain(wrapped) {
        for places in [0, 1, 12, 33_000] {
            assert_eq!(refusal(0, size, places), 2);
        }
    }
}

#[test]
fn short_outputs_are_refused_by_5() {
    let large = [(32_768, 512), (512, 32_768), (4_096, 4_096), (32_768, 1)];
    for size in large.into_iter().chain([(1, 32_768), (4, 3), (2, 2)]) {
        for places in [0, 1, 3] {
            assert_eq!(refusal(u32::MAX, size, places), 5);
        }
    }
    assert_eq!(refusal(0, (1, 1), 0), 5);
    assert_eq!(refusal(0, (4_096, 4_096), 16_777_215), 5);
}

#[test]
fn the_conditions_in_order() {
    for seed in seeds() {
        for (size, places, number) in [
            ((0, 3), 11, 2),
            ((0, 3), 12, 2),
            ((4, 3), 0, 5),
            ((4, 3), 11, 5),
            ((4, 3), 12, 0),
        ] {
            assert_eq!(refusal(seed, size, places), number);
        }
    }
}

#[test]
fn the_output_gets_the_whole_plate_or_nothing() {
    let plate = seeded(8, 5, 7);
    for places in 0..50 {
        let mut out = vec![GREY; places];
        let done = seeded_plate(8, 5, 7, &mut out);
        let (number, pixels) = if places < 35 { (5, 0) } else { (0, 35) };
        assert_eq!(done.refusal, number);
        assert_eq!(out[..pixels], plate[..pixels]);
        assert!(all_are(&out[pixels..], GREY));
    }
}

/// The states of twelve pixels with this multiplier and this number added, the seed first.
fn states(seed: u32, times: u32, plus: u32) -> Vec<u32> {
    let next = |state: &u32| Some(state.wrapping_mul(times).wrapping_add(plus));
    std::iter::successors(Some(seed), next).take(13).collect()
}

/// Eight bits of each state, from this bit upwards.
fn bits(states: &[u32], from: u32) -> Vec<u16> {
    let eight = |state: &u32| (state >> from & 255) as u16;
    states.iter().map(eight).collect()
}

#[test]
fn slips_give_other_plates() {
    let (times, plus) = (1_664_525, 1_013_904_223);
    for seed in seeds() {
        let plate = seeded(seed, 4, 3);
        let right = states(seed, times, plus);
        assert_eq!(plate, bits(&right[1..], 24));
        let mut others = vec![
            bits(&right[..12], 24),
            bits(&right[1..], 0),
            bits(&right[1..], 8),
            bits(&right[1..], 23),
            bits(&right[1..5].repeat(3), 24),
        ];
        for (times, plus) in [(times + 1, plus), (times - 1, plus), (times, 0)] {
            others.push(bits(&states(seed, times, plus)[1..], 24));
        }
        // the plate column by column
        others.push((0..12).map(|p| plate[p % 4 * 3 + p / 4]).collect());
        assert!(!others.contains(&plate), "{seed}");
    }
}

#[test]
fn first_states_at_the_ends_are_among_the_cases() {
    let cases = cases_text();
    let cases = cases.lines().map(Case::of);
    let seeds: Vec<u32> = cases
        .filter(|case| case.name == "seeded" && case.number("out") == 12)
        .map(|case| case.number("seed"))
        .collect();
    let ends = [0, 0x00ff_ffff, 0x0100_0000, 0x7fff_ffff, 0x8000_0000];
    for state in ends.into_iter().chain([0xfeff_ffff, 0xff00_0000, u32::MAX]) {
        let leads = |seed: &u32| state_after(*seed, 1) == state;
        assert!(seeds.iter().any(leads), "{state}");
    }
}
