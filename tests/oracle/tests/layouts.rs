//! The definitions against themselves on small trees, and the lifting rule against the definitions.

mod small;

use oracle::definitions::{depth, families, is_free, is_legal, is_meager, is_under, Counts, Family, Node, Tree};
use oracle::generate::any_fill;
use oracle::lifting::layout;
use oracle::occupancy::{is_legal_and_safe, Occupancy};
use oracle::random::Random;
use small::{trees, trees_with_counts};

/// Every counts vector with up to one block more at each level than the level has nodes.
fn every_counts(tree: Tree) -> Vec<Counts> {
    let mut all = vec![Counts::default()];
    for level in tree.levels() {
        let most = tree.nodes_at(level).len() as u32 + 1;
        all = all
            .into_iter()
            .flat_map(|counts| {
                (0..=most).map(move |number| {
                    let mut counts = counts;
                    counts[level as usize] = number;
                    counts
                })
            })
            .collect();
    }
    all
}

fn fits(tree: Tree, counts: &Counts) -> bool {
    tree.pages_taken(counts) <= tree.pages_in_all()
}

/// Every counts vector up to height 3, fitting or not, with the family that all sets give it; without a legal set that is
/// an empty one.
fn every_family() -> impl Iterator<Item = (Tree, Counts, Family)> {
    trees(0..=3).flat_map(|tree| {
        let mut families = families(tree, tree.every_set().filter(|set| is_legal(set)));
        every_counts(tree)
            .into_iter()
            .map(move |counts| (tree, counts, families.remove(&counts).unwrap_or_default()))
    })
}

#[test]
fn words_about_single_nodes() {
    let tree = Tree::new(3);
    assert_eq!([1, 2, 3, 4, 7, 8, 15].map(depth), [0, 1, 1, 2, 2, 3, 3]);
    assert_eq!([1, 2, 7, 8].map(|node| tree.level(node)), [3, 2, 1, 0]);
    assert_eq!(tree.pages(1), 0..8);
    assert_eq!(tree.pages(5), 2..4);
    assert_eq!(tree.pages(15), 7..8);
    assert!(is_under(11, 5) && is_under(11, 2) && is_under(11, 1));
    assert!(!is_under(11, 4) && !is_under(11, 11) && !is_under(2, 11));
    assert!(tree.is_left_of(4, 10) && tree.is_left_of(8, 3));
    assert!(!tree.is_left_of(10, 4) && !tree.is_left_of(2, 4) && !tree.is_left_of(4, 4));
}

#[test]
fn words_about_sets() {
    let tree = Tree::new(3);
    let held = [4, 10, 3];
    assert!(is_legal(&held) && !is_legal(&[4, 8]) && !is_legal(&[4, 4]));
    assert!(is_free(&held, 11));
    assert!(!is_free(&held, 8) && !is_free(&held, 2) && !is_free(&held, 4) && !is_free(&held, 6));
    assert!(is_meager(&held, 5));
    assert!(!is_meager(&held, 2) && !is_meager(&held, 4) && !is_meager(&held, 3));
    assert_eq!([4, 10, 3].map(|node| tree.tails(&held, node)), [1, 0, 0]);
    assert!(tree.is_dense(&held) && !tree.is_dense(&[4, 11]));
    assert!(tree.is_safe(&held));
}

/// The two ways in which a dense set can fail to be safe, each alone.
#[test]
fn a_second_tail_or_a_meager_tree_in_front_is_not_safe() {
    let tree = Tree::new(3);
    let two_tails = [4, 10, 11];
    assert!(tree.is_dense(&two_tails) && tree.tails(&two_tails, 4) == 2);
    assert!(!tree.is_safe(&two_tails));
    let meager_in_front = [8, 5];
    assert!(tree.is_dense(&meager_in_front) && is_meager(&meager_in_front, 4));
    assert!(!tree.is_safe(&meager_in_front));
}

#[test]
fn both_enumerations_find_the_same_legal_sets() {
    for tree in trees(0..=3) {
        let mut by_filter: Vec<_> = tree.every_set().filter(|set| is_legal(set)).collect();
        let mut by_halves = tree.every_legal_set();
        by_halves.iter_mut().for_each(|set| set.sort_unstable());
        by_filter.sort();
        by_halves.sort();
        assert_eq!(by_filter, by_halves);
    }
}

/// "No room" means that no legal set exists, and wherever one exists just one is safe.
#[test]
fn one_safe_set_exactly_where_the_pages_fit() {
    for (tree, counts, family) in every_family() {
        assert_eq!(family.legal > 0, fits(tree, &counts), "{counts:?}");
        assert_eq!(family.safe.len(), usize::from(fits(tree, &counts)), "{counts:?}");
    }
}

#[test]
fn one_safe_set_for_all_counts_at_height_4() {
    let tree = Tree::new(4);
    let families = families(tree, tree.every_legal_set());
    let mut fitting = tree.every_fitting_counts();
    fitting.sort_unstable();
    assert!(families.keys().eq(&fitting));
    for (counts, family) in &families {
        assert_eq!(family.safe.len(), 1, "{counts:?}");
        assert_eq!(layout(tree, counts).as_ref(), family.safe.first(), "{counts:?}");
    }
}

#[test]
fn lifting_finds_the_one_safe_set_up_to_height_3() {
    for (tree, counts, family) in every_family() {
        assert_eq!(layout(tree, &counts).as_ref(), family.safe.first(), "{counts:?}");
    }
}

#[test]
fn fitting_counts_are_counted_right() {
    let numbers: Vec<usize> = trees(0..=5).map(|tree| tree.every_fitting_counts().len()).collect();
    // For heights 0 to 3 the number can be had from the bare list of vectors as well.
    for (tree, &number) in trees(0..=3).zip(&numbers) {
        let by_filter = every_counts(tree).iter().filter(|counts| fits(tree, counts)).count();
        assert_eq!(number, by_filter);
    }
    assert_eq!(numbers, [2, 4, 10, 36, 202, 1828]);
}

/// A layout that is legal, safe and of the right counts is the right one, since there is only one.
fn assert_layout_is_the_safe_one(tree: Tree, counts: &Counts) {
    let held = layout(tree, counts).unwrap_or_else(|| panic!("no layout for {counts:?}"));
    assert_eq!(tree.counts(&held), *counts);
    assert!(is_legal(&held), "{counts:?}: {held:?}");
    assert!(tree.is_safe(&held), "{counts:?}: {held:?}");
}

#[test]
fn lifting_is_safe_for_all_counts_at_heights_4_and_5() {
    for (tree, counts) in trees_with_counts(4..=5) {
        assert_layout_is_the_safe_one(tree, &counts);
        for level in tree.levels() {
            let mut more = counts;
            more[level as usize] += 1;
            assert_eq!(layout(tree, &more).is_some(), fits(tree, &more), "{more:?}");
        }
    }
}

#[test]
fn lifting_is_safe_for_random_counts_at_heights_6_to_8() {
    let mut random = Random::new(678);
    for round in 0..240 {
        let tree = Tree::new(6 + round % 3);
        let mut counts = Counts::default();
        let mut room = random.below(tree.pages_in_all() + 1);
        while room > 0 {
            let level = random.below(room.ilog2() + 1);
            let number = 1 + random.below(room >> level).min(random.below(6));
            counts[level as usize] += number;
            room -= number << level;
        }
        assert_layout_is_the_safe_one(tree, &counts);
    }
}

/// Bare definitions are too slow here.
#[test]
fn lifting_is_safe_for_random_counts_at_heights_9_to_12() {
    let mut random = Random::new(912);
    for round in 0..400 {
        let tree = Tree::new(9 + round % 4);
        let counts = any_fill(&mut random, tree);
        let held = layout(tree, &counts).unwrap_or_else(|| panic!("no layout for {counts:?}"));
        assert_eq!(tree.counts(&held), counts);
        assert!(is_legal_and_safe(tree, &held), "{counts:?}: {held:?}");
    }
}

/// Counted beforehand, every word says what its definition says.
fn assert_counted_as_defined(tree: Tree, held: &[Node]) {
    let occupancy = Occupancy::new(tree, held);
    for node in tree.nodes() {
        assert_eq!(occupancy.is_free(node), is_free(held, node), "{held:?}: {node}");
        assert_eq!(occupancy.is_meager(node), is_meager(held, node), "{held:?}: {node}");
        assert_eq!(occupancy.tails(node), tree.tails(held, node), "{held:?}: {node}");
    }
    assert_eq!(occupancy.is_legal(), is_legal(held), "{held:?}");
    assert_eq!(occupancy.is_dense(), tree.is_dense(held), "{held:?}");
    assert_eq!(occupancy.is_safe(), tree.is_safe(held), "{held:?}");
}

#[test]
fn all_sets_up_to_height_3_are_counted_as_defined() {
    for tree in trees(0..=3) {
        tree.every_set().for_each(|held| assert_counted_as_defined(tree, &held));
    }
}

/// Lists of any nodes, some twice; and safe layouts with a few nodes changed, which stay safe, legal or dense now and
/// then.
#[test]
fn random_lists_up_to_height_7_are_counted_as_defined() {
    let mut random = Random::new(407);
    for round in 0..1_200 {
        let tree = Tree::new(4 + round % 4);
        let any_node = |random: &mut Random| 1 + random.below(tree.last_node().into()) as Node;
        let mut held = match round % 3 {
            0 => (0..random.below(20)).map(|_| any_node(&mut random)).collect(),
            _ => layout(tree, &any_fill(&mut random, tree)).expect("counts that fit"),
        };
        for _ in 0..random.below(3) {
            match held.len() {
                0 => held.push(any_node(&mut random)),
                length => held[random.index(length)] = any_node(&mut random),
            }
        }
        assert_counted_as_defined(tree, &held);
    }
}

#[test]
fn blocks_above_the_root_have_no_layout() {
    let mut counts = Counts::default();
    counts[3] = 1;
    assert_eq!(layout(Tree::new(2), &counts), None);
}
