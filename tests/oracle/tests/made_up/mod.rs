//! Tables before and after calls that no reserve makes: places that are apart, but safe only by accident, with up to seven
//! movers.

use oracle::definitions::{is_free, Node, Tree};
use oracle::random::Random;

/// The most movers.
const MOST: usize = 7;

/// So many tenants are enough for the movers, those who stay, and one more.
const TENANTS: usize = 16;

pub struct MadeUp {
    pub tree: Tree,
    pub before: Vec<Node>,
    pub after: Vec<Node>,
}

impl MadeUp {
    /// Tables drawn until all blocks found places.
    pub fn draw(random: &mut Random, tree: Tree) -> Self {
        loop {
            if let Some(made_up) = MadeUp::attempt(random, tree) {
                return made_up;
            }
        }
    }

    fn attempt(random: &mut Random, tree: Tree) -> Option<Self> {
        let mut made_up = MadeUp {
            tree,
            before: vec![0; TENANTS],
            after: vec![0; TENANTS],
        };
        let mut tenants: Vec<usize> = (0..TENANTS).collect();
        random.shuffle(&mut tenants);
        let (caller, others) = tenants.split_first()?;
        let (movers, stayers) = others.split_at(1 + random.index(MOST));
        for &tenant in &stayers[..random.index(4)] {
            made_up.before[tenant] = any_free(random, tree, &made_up.before)?;
            made_up.after[tenant] = made_up.before[tenant];
        }
        for &tenant in movers {
            made_up.before[tenant] = any_free(random, tree, &made_up.before)?;
            let level = tree.level(made_up.before[tenant]);
            made_up.after[tenant] = free_at(random, tree, &made_up.after, level)?;
        }
        // One more is released, or comes, or neither, or grows.
        let (released, comes) = random.pick(&[(true, false), (false, true), (false, false), (true, true)]);
        if released {
            made_up.before[*caller] = any_free(random, tree, &made_up.before)?;
        }
        if comes {
            made_up.after[*caller] = any_free(random, tree, &made_up.after)?;
        }
        let is_mover = released && comes && tree.level(made_up.before[*caller]) == tree.level(made_up.after[*caller]);
        (!is_mover).then_some(made_up)
    }
}

/// A free node of any level but the root's.
fn any_free(random: &mut Random, tree: Tree, table: &[Node]) -> Option<Node> {
    let level = random.below(tree.height());
    free_at(random, tree, table, level)
}

/// A free node of a level.
fn free_at(random: &mut Random, tree: Tree, table: &[Node], level: u32) -> Option<Node> {
    let held: Vec<Node> = table.iter().copied().filter(|&node| node != 0).collect();
    let free: Vec<Node> = tree.nodes_at(level).filter(|&node| is_free(&held, node)).collect();
    (!free.is_empty()).then(|| random.pick(&free))
}
