//! What can be asked beside the calls: a tenant's entry, and the level of a number of pages.

use super::Amounts;
use crate::definitions::TALLEST;
use crate::planner::TENANTS;
use crate::random::Random;
use crate::subject::{Oracle, Subject, TABLE_BYTES};

/// Asks both planners for a tenant's entry.
pub fn same_entry(subject: &mut dyn Subject, table: &[u8], tenant: u32) -> Result<(), String> {
    let right = Oracle.look(table, tenant);
    let entry = subject.look(table, tenant);
    ensure!(
        entry == right,
        "tenant {tenant} in {} bytes has {entry:?}, and {right:?} is right",
        table.len()
    );
    Ok(())
}

/// Asks both planners which level a number of pages takes.
pub fn same_level(subject: &mut dyn Subject, height: u32, pages: u32) -> Result<(), String> {
    let right = Oracle.level_of_pages(height, pages);
    let level = subject.level_of_pages(height, pages);
    ensure!(
        level == right,
        "{pages} pages at height {height} take {level:?}, and {right:?} is right"
    );
    Ok(())
}

/// Every tenant, and numbers that no tenant has, in tables of any bytes, also of other lengths.
pub fn entries(subject: &mut dyn Subject, _: &Amounts, random: &mut Random) -> Result<usize, String> {
    let mut comparisons = 0;
    let most = subject.reach().tenant;
    let tenants = || {
        (0..TENANTS as u32 + 2)
            .chain([0x1_0000, most])
            .filter(|&tenant| tenant <= most)
    };
    for length in [
        0,
        1,
        2,
        TABLE_BYTES - 2,
        TABLE_BYTES - 1,
        TABLE_BYTES,
        TABLE_BYTES + 1,
        TABLE_BYTES + 2,
    ] {
        let table: Vec<u8> = (0..length).map(|_| random.below(256) as u8).collect();
        for tenant in tenants() {
            same_entry(subject, &table, tenant).map_err(|finding| format!("  {finding}"))?;
            comparisons += 1;
        }
    }
    Ok(comparisons)
}

/// Every number of pages at every height, and at heights above the tallest.
pub fn levels(subject: &mut dyn Subject, _: &Amounts, _: &mut Random) -> Result<usize, String> {
    let mut comparisons = 0;
    let reach = subject.reach();
    let heights = (0..=TALLEST + 2).chain([255, 0x100, 0x10c, reach.height]);
    for height in heights.filter(|&height| height <= reach.height) {
        for pages in 0..=reach.pages {
            same_level(subject, height, pages).map_err(|finding| format!("  {finding}"))?;
            comparisons += 1;
        }
    }
    Ok(comparisons)
}
