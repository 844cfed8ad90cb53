//! Arguments at and beside their bounds.

use super::calls::{check_one, same_call, same_opening};
use super::{Amounts, State};
use crate::definitions::{Counts, Tree, TALLEST};
use crate::generate::{any_fill, holders_for, Call, Start};
use crate::planner::{level_for_pages, Request, TENANTS};
use crate::random::Random;
use crate::subject::{fewest_move_bytes, Reach, Subject, LINE_BYTES, MOVE_BYTES, TABLE_BYTES};

/// The lengths of the images of tables and of lines worth trying.
const TABLE_LENGTHS: [usize; 7] = [0, 1, 8190, 8191, 8192, 8193, 8194];
const LINE_LENGTHS: [usize; 7] = [0, 1, 384, 385, 386, 387, 388];

/// Every argument at and beside its bounds, in all combinations: on an empty table and on a spoilt one, and with an empty line
/// and with a spoilt one.
pub fn edges(subject: &mut dyn Subject, _: &Amounts, _: &mut Random) -> Result<usize, String> {
    let mut comparisons = 0;
    let reach = subject.reach();
    let heights = up_to(
        reach.height,
        [0, 1, 5, 11, 12, 13, 14, 255, 0x100, 0x10c, 0x1_0000, 0x1_0005],
    );
    for height in heights {
        for state in edge_states() {
            let place = |finding| format!("  height {height}, {}: {finding}", show(&state));
            same_opening(subject, height, &state).map_err(place)?;
            comparisons += 1;
            for call in edge_calls(reach, height) {
                same_call(subject, height, &state, &call).map_err(|finding| place(format!("{call}: {finding}")))?;
                comparisons += 1;
            }
        }
    }
    Ok(comparisons)
}

/// Tables and lines of all lengths, filled with one byte: all tables beside an empty line, all lines beside an empty table, and
/// a few that are both of the wrong length or both spoilt.
fn edge_states() -> Vec<State> {
    let fills = [0, 0xff];
    let filled = |length: usize| fills.map(|fill| vec![fill; length]);
    let state = |table: Vec<u8>, line: Vec<u8>| State { table, line };
    let (no_table, no_line) = (vec![0; TABLE_BYTES], vec![0; LINE_BYTES]);
    let tables = TABLE_LENGTHS.into_iter().flat_map(filled);
    let lines = LINE_LENGTHS.into_iter().flat_map(filled);
    let both = [
        state(vec![0; TABLE_BYTES - 1], vec![0; LINE_BYTES - 1]),
        state(vec![0xff; TABLE_BYTES], vec![0xff; LINE_BYTES]),
        // Each has the other's length.
        state(no_line.clone(), no_table.clone()),
    ];
    tables
        .map(|table| state(table, no_line.clone()))
        .chain(lines.map(|line| state(no_table.clone(), line)))
        .chain(both)
        .collect()
}

fn show(state: &State) -> String {
    let bytes = |image: &[u8]| format!("{} bytes of {}", image.len(), image.first().copied().unwrap_or(0));
    format!("{} as table, {} as line", bytes(&state.table), bytes(&state.line))
}

fn edge_calls(reach: Reach, height: u32) -> Vec<Call> {
    let pages_in_all = 1u32.checked_shl(height).unwrap_or(1 << TALLEST);
    let tenants = up_to(reach.tenant, [0, 4095, 4096, 0xffff, 0x1_0000, 0x1_0fff]);
    let levels = up_to(reach.level, [0, height, height.saturating_add(1), 255, 0x100, 0x1_0000]);
    let pages = up_to(reach.pages, sizes_beside(pages_in_all));
    let mut requests = vec![Request::Admit];
    for tenant in tenants {
        requests.extend([Request::Release { tenant }, Request::Withdraw { tenant }]);
        requests.extend(levels.iter().map(|&level| Request::Join { tenant, level }));
        requests.extend(levels.iter().map(|&level| Request::GrantLevel { tenant, level }));
        requests.extend(levels.iter().map(|&level| Request::Grow { tenant, level }));
        requests.extend(pages.iter().map(|&pages| Request::GrantPages { tenant, pages }));
    }
    requests.into_iter().flat_map(with_lengths_beside).collect()
}

/// A request with the move lists worth trying: nothing, an entry or a byte too few, enough, and a byte more; or with none if it
/// takes none.
pub(super) fn with_lengths_beside(request: Request) -> Vec<Call> {
    let lengths = match fewest_move_bytes(request) {
        0 => vec![0],
        enough => vec![0, enough - MOVE_BYTES, enough - 1, enough, enough + 1],
    };
    let with = |move_bytes| Call { request, move_bytes };
    lengths.into_iter().map(with).collect()
}

/// Sizes at and beside the number of pages that there are.
fn sizes_beside(pages_in_all: u32) -> [u32; 7] {
    let all = pages_in_all;
    [0, 1, all.saturating_sub(2), all - 1, all, all + 1, 0xffff]
}

/// So many reserves of each height, filled to any degree, are asked for no size.
const FILLS: usize = 12;

/// Grants by pages at every height, with sizes at and beside their bounds: on an empty reserve, where the block just fits,
/// where it lacks a page, and on a full one; to a newcomer and to a holder. Images that name no size come to all kinds of
/// reserves.
pub fn sizes(subject: &mut dyn Subject, _: &Amounts, random: &mut Random) -> Result<usize, String> {
    let mut comparisons = 0;
    for tree in (0..=TALLEST).map(Tree::new) {
        let all = tree.pages_in_all();
        for pages in sizes_beside(all) {
            let block = 1 << level_for_pages(tree, pages).min(tree.height());
            for room in [all, block, block - 1, 0] {
                comparisons += check_size(subject, random, tree, &all_but(tree, room), pages)?;
            }
        }
        for _ in 0..FILLS {
            let counts = any_fill(random, tree);
            comparisons += check_size(subject, random, tree, &counts, 0)?;
        }
    }
    Ok(comparisons)
}

/// Asks for a size where so many blocks are held, for a tenant that holds nothing and for one that holds a block.
fn check_size(
    subject: &mut dyn Subject,
    random: &mut Random,
    tree: Tree,
    counts: &Counts,
    pages: u32,
) -> Result<usize, String> {
    let holders = holders_for(random, counts);
    let newcomer = (0..TENANTS as u16).find(|&tenant| holders.iter().all(|holder| holder.tenant != tenant));
    let tenants = newcomer.into_iter().chain(holders.first().map(|holder| holder.tenant));
    let mut comparisons = 0;
    for tenant in tenants.map(u32::from) {
        let call = Call::with_shortest_list(Request::GrantPages { tenant, pages });
        check_one(subject, tree.height(), &Start::held_by(&holders), call)?;
        comparisons += 1;
    }
    Ok(comparisons)
}

/// The fewest blocks that leave so many pages of a reserve.
fn all_but(tree: Tree, room: u32) -> Counts {
    let held = tree.pages_in_all() - room;
    let mut counts = Counts::default();
    for (level, count) in tree.levels().zip(&mut counts) {
        *count = held >> level & 1;
    }
    counts
}

/// The numbers of a list that a door takes, and the largest it takes.
fn up_to<const N: usize>(most: u32, numbers: [u32; N]) -> Vec<u32> {
    let mut fitting: Vec<u32> = numbers
        .into_iter()
        .chain([most])
        .filter(|&number| number <= most)
        .collect();
    fitting.sort_unstable();
    fitting.dedup();
    fitting
}
