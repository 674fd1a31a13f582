//! Request 4: marks with positions, worked by hand, at the extremes and by its
//! laws.

mod common;

use common::maps::*;
use common::random::Random;
use second::positions::{float, measure, sums, Measure, Metres};
use second::shapes::TYPES;
use second::{Memory, Refusal};

const LOW: i16 = i16::MIN;
const HIGH: i16 = i16::MAX;

/// The four types with a measure.
const MEASURED: [&str; 4] = ["BAR_2", "TRI_3", "QUAD_4", "TETRA_4"];

fn at(x: i16, y: i16, z: i16) -> Metres {
    let whole = i64::from;
    Metres {
        x: whole(x),
        y: whole(y),
        z: whole(z),
    }
}

/// A map with one cell of each type, and positions for its marks.
fn one_of_each() -> (Memory, Vec<i16>) {
    let map = mesh(
        10,
        9,
        &[
            (0, BAR, &[3, 1]),
            (1, TRI, &[0, 1, 2]),
            (2, QUAD, &[0, 1, 3, 2]),
            (3, TETRA, &[0, 1, 2, 4]),
            (4, PYRA, &[0, 1, 3, 2, 4]),
            (5, PENTA, &[0, 1, 2, 4, 5, 6]),
            (6, HEXA, &[0, 1, 3, 2, 4, 5, 7, 6]),
        ],
    );
    let corners = [
        [0, 0, 0],
        [4, 0, 0],
        [0, 3, 0],
        [4, 3, 0],
        [0, 0, 5],
        [4, 0, 5],
        [0, 3, 5],
        [4, 3, 5],
        [-1, -2, -3],
        [HIGH, LOW, 1],
    ];
    (map, corners.concat())
}

#[test]
fn worked_by_hand() {
    let (map, positions) = one_of_each();
    assert_eq!(
        map.points(&positions, 0, 6),
        Ok(vec![at(4, 3, 0), at(4, 0, 0)])
    );
    assert_eq!(map.measure(&positions, 0), Ok(Measure::SquaredLength(9)));
    assert_eq!(map.measure(&positions, 1), Ok(Measure::DoubledArea(12)));
    assert_eq!(map.measure(&positions, 2), Ok(Measure::DoubledArea(24)));
    assert_eq!(map.measure(&positions, 3), Ok(Measure::SixfoldVolume(60)));
    assert_eq!(map.centre(&positions, 1), Ok((at(4, 3, 0), 3)));
    assert_eq!(map.centre(&positions, 6), Ok((at(16, 12, 20), 8)));
}

/// "6 for a solid without a measure", whose points and centre are given.
#[test]
fn a_solid_without_a_measure() {
    let (map, positions) = one_of_each();
    for (cell, corners) in [(4, 5), (5, 6), (6, 8)] {
        assert_eq!(map.measure(&positions, cell), Err(Refusal::TypeUnknown));
        assert_eq!(map.measure(&[], cell), Err(Refusal::TypeUnknown));
        assert_eq!(
            map.points(&positions, cell, 24).map(|it| it.len()),
            Ok(corners)
        );
        assert_eq!(
            map.centre(&positions, cell).map(|it| it.1),
            Ok(corners as i64)
        );
    }
}

/// "16 for a position list shorter than three numbers per mark": of the whole
/// list, whatever marks the cell has.
#[test]
fn a_list_for_every_mark_of_the_capacity() {
    let (map, positions) = one_of_each();
    for numbers in [0, 12, 27, 28, 29] {
        let short = &positions[..numbers];
        for cell in 0..7 {
            assert_eq!(map.points(short, cell, 24), Err(Refusal::PositionsShort));
            assert_eq!(map.centre(short, cell), Err(Refusal::PositionsShort));
        }
        assert_eq!(map.measure(short, 0), Err(Refusal::PositionsShort));
    }
    let longer = [&positions[..], &[7]].concat();
    assert_eq!(map.measure(&longer, 0), map.measure(&positions, 0));
}

/// 12 after 16: three numbers a corner.
#[test]
fn room_for_every_point() {
    let (map, positions) = one_of_each();
    for (cell, row) in TYPES.iter().enumerate() {
        let due = 3 * row.marks;
        assert!(map.points(&positions, cell as u32, due).is_ok());
        let short = map.points(&positions, cell as u32, due - 1);
        assert_eq!(short, Err(Refusal::OutputShort));
        let both = map.points(&positions[..29], cell as u32, due - 1);
        assert_eq!(both, Err(Refusal::PositionsShort));
    }
}

/// Every corner at an extreme, in every way: no measure is rounded, and none is
/// beyond the largest that there can be.
#[test]
fn at_the_extremes() {
    let side = i64::from(HIGH) - i64::from(LOW);
    let ends = [LOW, HIGH];
    let bit = |of: u32, place: u32| ends[(of >> place & 1) as usize];
    let mut most = [0; 4];
    for (row, name) in MEASURED.iter().enumerate() {
        let count = TYPES[row].marks as u32;
        for ways in 0..1u32 << (3 * count) {
            let corner = |k: u32| at(bit(ways, 3 * k), bit(ways, 3 * k + 1), bit(ways, 3 * k + 2));
            let corners: Vec<Metres> = (0..count).map(corner).collect();
            let whole = measure(name, &corners).expect("a measure").whole();
            assert_eq!(float(whole) as i64, whole);
            most[row] = most[row].max(whole.abs());
        }
    }
    let (area, volume) = (side * side, side * side * side);
    assert_eq!(most, [3 * area, area, 2 * area, 2 * volume]);
}

/// Positions of so many corners by chance, now and then at an extreme.
fn corners_by_chance(random: &mut Random, count: usize) -> Vec<Metres> {
    let mut number = || match random.below(8) {
        0 => LOW,
        1 => HIGH,
        2 => 0,
        _ => (random.below(65_536) as i32 - 32_768) as i16,
    };
    (0..count)
        .map(|_| at(number(), number(), number()))
        .collect()
}

#[test]
fn reversed_swapped_and_moved() {
    let mut random = Random::from_seed(4);
    for _ in 0..20_000 {
        for (row, name) in MEASURED.iter().enumerate() {
            let corners = corners_by_chance(&mut random, TYPES[row].marks);
            let whole = |corners: &[Metres]| measure(name, corners).expect("a measure").whole();
            let before = whole(&corners);
            let mut other = corners.clone();
            match *name {
                "BAR_2" => {
                    other.reverse();
                    assert_eq!(whole(&other), before);
                }
                "TETRA_4" => {
                    let one = random.below(4);
                    other.swap(one, (one + 1 + random.below(3)) % 4);
                    assert_eq!(whole(&other), -before);
                }
                _ => {
                    other.reverse();
                    assert_eq!(whole(&other), -before);
                }
            }
            let moved = |corner: &Metres| Metres {
                x: corner.x - 1_000,
                y: corner.y + 77,
                z: corner.z + 31_000,
            };
            let moved: Vec<Metres> = corners.iter().map(moved).collect();
            assert_eq!(whole(&moved), before);
        }
    }
}

/// "each coordinate sum held exactly, then divided once": the quotient is the
/// nearest float, which is held to its neighbours in whole numbers.
#[test]
fn one_division_is_the_nearest_float() {
    let mut random = Random::from_seed(44);
    for _ in 0..50_000 {
        let count = 2 + random.below(7);
        let sum = sums(&corners_by_chance(&mut random, count)).x;
        let centre = float(sum) / float(count as i64);
        let off = |float: f64| {
            // |float × count - sum| × 2^60, exactly: a float of 1 or more has no bit below 2^-52
            let scaled = (float * 2f64.powi(60)) as i128;
            (scaled * count as i128 - (i128::from(sum) << 60)).abs()
        };
        if centre.abs() >= 1.0 {
            let bits = centre.to_bits();
            assert!(off(centre) <= off(f64::from_bits(bits + 1)));
            assert!(off(centre) <= off(f64::from_bits(bits - 1)));
        }
        assert!(sum != 0 || centre.to_bits() == 0);
    }
}
