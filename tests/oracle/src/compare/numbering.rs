//! Tenants numbered so that every order of the movers' numbers comes up.

use crate::definitions::Tree;
use crate::generate::{seat, Holder};
use crate::line;
use crate::planner::{self, Lent, Request};

/// The holders as they are, and with those whom a request moves numbered among themselves in every other order. A grant by
/// pages moves whom the one by level moves, so for it they are left as they are.
pub fn every_numbering(tree: Tree, holders: &[Holder], request: Request) -> Vec<Vec<Holder>> {
    if matches!(request, Request::GrantPages { .. }) {
        return vec![holders.to_vec()];
    }
    let lent = Lent {
        height: tree.height(),
        table: &seat(tree, holders),
        line: &line::EMPTY,
        entries: request.fewest_entries(),
    };
    let moves = planner::call(lent, request).moves;
    let movers: Vec<u16> = moves.iter().map(|step| step.tenant).collect();
    orders(&movers)
        .iter()
        .map(|order| renumbered(holders, &movers, order))
        .collect()
}

/// A list in every order, as it is first.
fn orders(list: &[u16]) -> Vec<Vec<u16>> {
    if list.is_empty() {
        return vec![Vec::new()];
    }
    let beginning_with = |place: usize| {
        let mut others = list.to_vec();
        let first = others.remove(place);
        let rests = orders(&others).into_iter();
        rests.map(move |rest| [&[first], &rest[..]].concat())
    };
    (0..list.len()).flat_map(beginning_with).collect()
}

/// The holders with the numbers of some exchanged for others.
fn renumbered(holders: &[Holder], tenants: &[u16], others: &[u16]) -> Vec<Holder> {
    let number = |tenant: u16| match tenants.iter().position(|&other| other == tenant) {
        Some(place) => others[place],
        None => tenant,
    };
    let renumber = |&holder: &Holder| Holder {
        tenant: number(holder.tenant),
        ..holder
    };
    holders.iter().map(renumber).collect()
}

#[cfg(test)]
mod tests {
    use super::{every_numbering, orders};
    use crate::definitions::Tree;
    use crate::generate::{seat, Holder};
    use crate::planner::Request;

    #[test]
    fn three_can_be_ordered_in_six_ways() {
        let all = [[1, 2, 3], [1, 3, 2], [2, 1, 3], [2, 3, 1], [3, 1, 2], [3, 2, 1]];
        assert_eq!(orders(&[1, 2, 3]), all);
        assert_eq!(orders(&[]), [[0; 0]]);
    }

    /// A release that moves three: the places stay as they are, and each numbering comes once.
    #[test]
    fn movers_are_numbered_in_every_order_on_the_same_places() {
        let tree = Tree::new(3);
        let holders = [(0, 0), (1, 0), (7, 0), (3, 0), (4, 1)].map(|(tenant, level)| Holder { tenant, level });
        let numberings = every_numbering(tree, &holders, Request::Release { tenant: 0 });
        assert_eq!(numberings[0], holders);
        let mut tables: Vec<_> = numberings.iter().map(|holders| seat(tree, holders)).collect();
        for table in &tables {
            assert_eq!(table[..2], [8, 9]);
            let mut movers = [3, 4, 7].map(|tenant| table[tenant]);
            movers.sort_unstable();
            assert_eq!(movers, [6, 10, 11]);
        }
        tables.sort_unstable();
        tables.dedup();
        assert_eq!(tables.len(), 6);
    }
}
