//! The line of those who wait for a block: how many they are, then tenant, level and passed count of each, the oldest first, and
//! zeros behind them.

use crate::TENANTS;

/// The most that wait.
const PLACES: usize = 64;

/// The numbers of a line.
pub const NUMBERS: usize = 1 + 3 * PLACES;

/// How often one that waits may be passed.
const MOST_PASSES: u16 = 8;

pub type Line = [u16; NUMBERS];

/// Tenant, level and passed count of each that waits; none if the line has more than there are places.
fn waiting(line: &Line) -> &[[u16; 3]] {
    let places = line[1..].as_chunks().0;
    places.get(..usize::from(line[0])).unwrap_or_default()
}

pub fn in_order(height: u16, table: &[u16; TENANTS], line: &Line) -> bool {
    let number = usize::from(line[0]);
    number <= PLACES && all_zero(&line[3 * number + 1..]) && orderly(height, table, waiting(line))
}

/// All are put together and not looked at one by one, because that takes vector instructions.
fn all_zero(numbers: &[u16]) -> bool {
    numbers.iter().fold(0, |bits, number| bits | number) == 0
}

/// Whether each may wait, and no tenant stands there twice.
fn orderly(height: u16, table: &[u16; TENANTS], waiting: &[[u16; 3]]) -> bool {
    waiting.iter().enumerate().all(|(place, &[tenant, level, passed])| {
        let holds_none = table.get(usize::from(tenant)) == Some(&0);
        passed <= MOST_PASSES && level <= height && holds_none && place_in(&waiting[place + 1..], tenant).is_none()
    })
}

fn place_in(waiting: &[[u16; 3]], tenant: u16) -> Option<usize> {
    waiting.iter().position(|one| one[0] == tenant)
}

pub fn place_of(line: &Line, tenant: u16) -> Option<usize> {
    place_in(waiting(line), tenant)
}

/// Whether somebody was passed as often as may be.
pub fn bars(line: &Line) -> bool {
    waiting(line).iter().any(|one| one[2] >= MOST_PASSES)
}

/// The place, tenant and level of the first that waits for one of the lowest so many levels, but of nobody behind one that was
/// passed as often as may be.
pub fn choose(line: &Line, levels: u16) -> Option<(usize, u16, u16)> {
    for (place, &[tenant, level, passed]) in waiting(line).iter().enumerate() {
        if level < levels {
            return Some((place, tenant, level));
        }
        if passed >= MOST_PASSES {
            return None;
        }
    }
    None
}

/// Passes the oldest so many once more.
pub fn pass(line: &mut Line, number: usize) {
    for one in &mut line[1..].as_chunks_mut::<3>().0[..number] {
        one[2] += 1;
    }
}

pub fn pass_all(line: &mut Line) {
    pass(line, waiting(line).len());
}

/// Puts a tenant at the end; whether there was a place.
pub fn join(line: &mut Line, tenant: u16, level: u16) -> bool {
    let number = usize::from(line[0]);
    let Some(place) = line[1..].as_chunks_mut().0.get_mut(number) else {
        return false;
    };
    *place = [tenant, level, 0];
    line[0] += 1;
    true
}

/// Takes the one at a place out of the line.
pub fn take_out(line: &mut Line, place: usize) {
    let from = 3 * place + 1;
    line.copy_within(from + 3.., from);
    line[NUMBERS - 3..].fill(0);
    line[0] -= 1;
}
