//! Drawing and counting page maps.

use super::lent::{pattern, Lent};
use super::Amounts;
use crate::definitions::{Tree, TALLEST};
use crate::generate::{any_fill, holders_for, seat};
use crate::page_map::MAP_BYTES;
use crate::random::Random;
use crate::subject::{table_image, Oracle, Subject};

/// The lengths of maps worth trying.
const MAP_LENGTHS: [usize; 6] = [0, 1, MAP_BYTES - 1, MAP_BYTES, MAP_BYTES + 1, 2 * MAP_BYTES];

/// So many places next to each other are tried as the beginning of a map: as many as a vector register has bytes.
const PLACES: usize = 16;

/// Has both planners draw into lent bytes of a length, and count what was drawn.
pub fn same_map(subject: &mut dyn Subject, height: u32, table: &[u8], length: usize) -> Result<(), String> {
    let mut right_map = pattern(length);
    let mut lent_map = Lent::new(&right_map);
    let mut lent_table = Lent::new(table);
    let right = Oracle.draw(height, table, &mut right_map);
    let answer = subject.draw(height, lent_table.lend(), lent_map.lend());
    ensure!(answer == right, "drawing answers {answer}, and {right} is right");
    lent_map.expect("map", &right_map)?;
    lent_table.expect("table", table)?;
    same_count(subject, &right_map)
}

/// Has both planners count a map.
pub fn same_count(subject: &mut dyn Subject, map: &[u8]) -> Result<(), String> {
    let right = Oracle.count(map);
    let count = subject.count(map);
    ensure!(
        count == right,
        "counting {} bytes gives {count:?}, and {right:?} is right",
        map.len()
    );
    Ok(())
}

/// Maps of tables of all kinds, in lent bytes of all lengths.
pub fn maps(subject: &mut dyn Subject, amounts: &Amounts, random: &mut Random) -> Result<usize, String> {
    let mut comparisons = map_edges(subject)?;
    for round in 0..amounts.maps {
        let tree = Tree::new(round as u32 % (TALLEST + 1));
        let counts = any_fill(random, tree);
        let table = table_image(&seat(tree, &holders_for(random, &counts)));
        for length in MAP_LENGTHS {
            same_map(subject, tree.height(), &table, length)
                .map_err(|finding| format!("  height {}, {counts:?}, {length} bytes: {finding}", tree.height()))?;
            comparisons += 1;
        }
    }
    Ok(comparisons)
}

/// Counts of maps that nobody drew: each bit alone and each bit missing, each byte behind the map, and maps of all lengths
/// with equal or with random bytes. Random ones begin anywhere in memory.
pub fn counts(subject: &mut dyn Subject, amounts: &Amounts, random: &mut Random) -> Result<usize, String> {
    let mut comparisons = 0;
    for fill in [0, 0xff] {
        for page in 0..8 * MAP_BYTES {
            let mut map = vec![fill; MAP_BYTES];
            map[page / 8] ^= 1 << (page % 8);
            same_count(subject, &map).map_err(|finding| format!("  page {page} alone among {fill}: {finding}"))?;
            comparisons += 1;
        }
    }
    for place in MAP_BYTES..2 * MAP_BYTES {
        let mut map = vec![0; 2 * MAP_BYTES];
        map[place] = 0xff;
        same_count(subject, &map).map_err(|finding| format!("  byte {place} alone: {finding}"))?;
        comparisons += 1;
    }
    for fill in [0, 1, 0x80, 0xff] {
        for length in MAP_LENGTHS {
            same_count(subject, &vec![fill; length]).map_err(|finding| format!("  bytes of {fill}: {finding}"))?;
            comparisons += 1;
        }
    }
    for round in 0..amounts.maps {
        for length in MAP_LENGTHS {
            let start = round % PLACES;
            let bytes = sparse_or_dense(random, start + length);
            same_count(subject, &bytes[start..])
                .map_err(|finding| format!("  {:?}, from byte {start} on: {finding}", &bytes[start..]))?;
            comparisons += 1;
        }
    }
    Ok(comparisons)
}

/// Bytes with a quarter, half or three quarters of their bits set.
fn sparse_or_dense(random: &mut Random, length: usize) -> Vec<u8> {
    let [one, other] = [random.bytes(length), random.bytes(length)];
    let combine = random.pick(&[|one, _| one, |one, other| one & other, |one, other| one | other]);
    let pairs = one.into_iter().zip(other);
    pairs.map(|(one, other): (u8, u8)| combine(one, other)).collect()
}

/// Heights, tables and maps that are wrong in all combinations.
fn map_edges(subject: &mut dyn Subject) -> Result<usize, String> {
    let mut comparisons = 0;
    let most = subject.reach().height;
    for height in [0, 12, 13, 255, 0x100, 0x1_0000, most]
        .into_iter()
        .filter(|&h| h <= most)
    {
        for table_length in [0, 8190, 8191, 8192, 8193] {
            for fill in [0, 0xff] {
                for map_length in MAP_LENGTHS {
                    same_map(subject, height, &vec![fill; table_length], map_length).map_err(|finding| {
                        format!("  height {height}, {table_length} bytes of {fill}, map {map_length}: {finding}")
                    })?;
                    comparisons += 1;
                }
            }
        }
    }
    Ok(comparisons)
}
