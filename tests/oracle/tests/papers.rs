//! Everything that document 01, as changed by the requests of document 02 that have landed, gives as an example, an edge
//! or a mistake.

use oracle::carrying::Move;
use oracle::definitions::{is_free, is_legal, Counts, Node, Tree};
use oracle::generate::{journal_of, MOST_MOVED};
use oracle::journal::{self, Reading, Record, LONGEST};
use oracle::lifting::layout;
use oracle::line::{self, Waiting, LINE_NUMBERS, MOST_WAITING};
use oracle::listing::list;
use oracle::page_map::{self, MAP_BYTES};
use oracle::planner::{self, Lent, Outcome, Request, Rules, TENANTS};
use oracle::refusal::Refusal;
use oracle::subject::{
    moves_from, put_moves, Images, Oracle, Subject, FEWEST_MOVE_BYTES, FEWEST_MOVE_BYTES_TO_GROW, LINE_BYTES,
    MOVE_BYTES, TABLE_BYTES,
};

/// Counts from those of the lowest levels.
fn counts(lowest: &[u32]) -> Counts {
    let mut counts = Counts::default();
    counts[..lowest.len()].copy_from_slice(lowest);
    counts
}

fn ascending(nodes: &[Node]) -> Vec<Node> {
    let mut nodes = nodes.to_vec();
    nodes.sort_unstable();
    nodes
}

/// A table in which tenants 0, 1, 2, .. hold the given nodes.
fn table(nodes: &[Node]) -> Vec<Node> {
    let mut table = nodes.to_vec();
    table.resize(TENANTS, 0);
    table
}

fn call(height: u32, table: &[Node], request: Request) -> Outcome {
    call_beside(height, table, &line::EMPTY, request)
}

/// The same with a line.
fn call_beside(height: u32, table: &[Node], line: &[u16], request: Request) -> Outcome {
    let entries = request.fewest_entries();
    let lent = Lent {
        height,
        table,
        line,
        entries,
    };
    planner::call(lent, request)
}

fn grant(tenant: u32, level: u32) -> Request {
    Request::GrantLevel { tenant, level }
}

fn grant_pages(tenant: u32, pages: u32) -> Request {
    Request::GrantPages { tenant, pages }
}

fn release(tenant: u32) -> Request {
    Request::Release { tenant }
}

fn grow(tenant: u32, level: u32) -> Request {
    Request::Grow { tenant, level }
}

fn join(tenant: u32, level: u32) -> Request {
    Request::Join { tenant, level }
}

fn withdraw(tenant: u32) -> Request {
    Request::Withdraw { tenant }
}

/// The numbers of a line in which these wait: tenant, level, and how often it was passed.
fn line_of(waiting: &[(u16, u32, u32)]) -> Vec<u16> {
    let waiting: Vec<Waiting> = waiting
        .iter()
        .map(|&(tenant, level, passed)| Waiting { tenant, level, passed })
        .collect();
    line::numbers(&waiting)
}

fn direct(tenant: u16, old: Node, new: Node) -> Move {
    let staged = false;
    Move {
        tenant,
        old,
        new,
        staged,
    }
}

fn staged(tenant: u16, old: Node, new: Node) -> Move {
    Move {
        staged: true,
        ..direct(tenant, old, new)
    }
}

const LAYOUTS: [(u32, &[u32], &[Node]); 12] = [
    (3, &[0, 0, 0, 0], &[]),
    (3, &[1, 0, 0, 0], &[8]),
    (3, &[1, 1, 0, 0], &[4, 10]),
    (3, &[2, 1, 0, 0], &[8, 9, 5]),
    (3, &[3, 1, 0, 0], &[8, 9, 5, 12]),
    (3, &[1, 0, 1, 0], &[2, 12]),
    (3, &[2, 0, 1, 0], &[8, 9, 3]),
    (3, &[1, 1, 1, 0], &[4, 10, 3]),
    (3, &[0, 1, 1, 0], &[2, 6]),
    (3, &[1, 2, 0, 0], &[4, 5, 12]),
    (3, &[0, 0, 0, 1], &[1]),
    (0, &[1], &[1]),
];

#[test]
fn starred_layouts() {
    for (height, lowest, nodes) in LAYOUTS {
        let tree = Tree::new(height);
        assert_eq!(layout(tree, &counts(lowest)), Some(ascending(nodes)), "{lowest:?}");
        assert!(is_legal(nodes) && tree.is_safe(nodes), "{lowest:?}");
    }
}

#[test]
fn nine_pages_do_not_fit_into_eight() {
    assert_eq!(layout(Tree::new(3), &counts(&[1, 2, 1, 0])), None);
    let held = table(&[4, 10, 3]);
    let outcome = call(3, &held, grant(9, 1));
    assert_eq!(outcome.answer, 10);
    assert_eq!((outcome.node, outcome.moves.len()), (0, 0));
    assert_eq!(outcome.table, held);
}

const BEFORE: [Node; 5] = [16, 34, 9, 12, 5];

#[test]
fn the_height_5_grant_and_release() {
    let granted = call(5, &table(&BEFORE), grant(77, 1));
    assert_eq!((granted.answer, granted.node), (0, 17));
    // Tenants 3 and 4 lie in each other's way, and 3 has fewer pages; 1 goes where 4 was.
    assert_eq!(granted.moves, [direct(4, 5, 6), direct(1, 34, 44), staged(3, 12, 10)]);
    assert_eq!(granted.table[..5], [16, 44, 9, 10, 6]);
    assert_eq!(granted.table[77], 17);

    let released = call(5, &granted.table, release(0));
    assert_eq!((released.answer, released.node), (0, 16));
    // Nobody but 77 can go at first, onto the pages given up; 1 goes where it was, and 4 where 1 and 3 were.
    assert_eq!(
        released.moves,
        [
            direct(77, 17, 16),
            direct(1, 44, 34),
            direct(4, 6, 5),
            staged(3, 10, 12)
        ]
    );
    assert_eq!(released.table[..5], [0, 34, 9, 12, 5]);
    assert_eq!(released.table[77], 16);
}

/// On four pages: the others settle as if the tenant were not there, and it takes what nobody stays on.
#[test]
fn a_tenant_grows_and_shrinks() {
    let held = table(&[4, 5, 3]);
    // Two blocks of two pages and one of one are five pages.
    assert_eq!(call(2, &held, grow(0, 1)).answer, 10);
    let shrunk = call(2, &held, grow(2, 0));
    assert_eq!((shrunk.answer, shrunk.node, shrunk.moves.len()), (0, 6, 0));
    // The page of tenant 0 is free from the start, so tenant 2 goes there.
    let grown = call(2, &shrunk.table, grow(0, 1));
    assert_eq!((grown.answer, grown.node), (0, 3));
    assert_eq!(grown.moves, [direct(2, 6, 4)]);
    assert_eq!(grown.table[..3], [3, 5, 4]);
}

/// Somebody alone in the reserve: each block begins at the front, on its own old pages.
#[test]
fn a_tenant_may_grow_onto_its_own_pages() {
    for height in 0..=12 {
        let tree = Tree::new(height);
        for from in tree.levels() {
            let held = table(&[tree.nodes_at(from).start]);
            for to in tree.levels() {
                let outcome = call(height, &held, grow(0, to));
                let node = tree.nodes_at(to).start;
                assert_eq!(
                    (outcome.answer, outcome.node),
                    (0, node),
                    "{from} to {to} at height {height}"
                );
                assert_eq!((outcome.moves, outcome.table), (vec![], table(&[node])));
            }
            assert_eq!(call(height, &held, grow(0, height + 1)).answer, 5);
            assert_eq!(call(height, &held, grow(1, from)).answer, 9);
        }
    }
}

/// A table in which tenants 0, 1, 2, .. hold the nodes of a layout, from the lowest number on.
fn seated(height: u32, counts: &Counts) -> Vec<Node> {
    table(&layout(Tree::new(height), counts).expect("counts that fit"))
}

/// A full reserve has room for smaller blocks and for none that is larger, and then the tenant keeps its own.
#[test]
fn pages_after_the_change_decide_whether_there_is_room() {
    let full = seated(5, &counts(&[4, 2, 2, 2]));
    for (tenant, node) in (0..).zip(full.iter().copied().take_while(|&node| node != 0)) {
        let level = Tree::new(5).level(node);
        for to in 0..=5 {
            let outcome = call(5, &full, grow(tenant, to));
            assert_eq!(
                outcome.answer,
                if to > level { 10 } else { 0 },
                "tenant {tenant} to level {to}"
            );
            if to > level {
                assert_eq!((outcome.node, outcome.moves.len(), &outcome.table), (0, 0, &full));
            }
        }
    }
    // The whole reserve has room where its own half is given up, and the other half is not held.
    assert_eq!(call(5, &table(&[2, 3]), grow(0, 5)).answer, 10);
    assert_eq!(call(5, &table(&[2]), grow(0, 5)).node, 1);
}

/// Its own level answers its node, moves nobody and changes nothing, whoever else is there.
#[test]
fn the_same_level_changes_nothing() {
    for lowest in [&[4, 2, 2, 2][..], &[1, 1, 1, 1], &[3, 3, 3, 1], &[32]] {
        let held = seated(5, &counts(lowest));
        for (tenant, node) in (0..).zip(held.iter().copied().take_while(|&node| node != 0)) {
            let outcome = call(5, &held, grow(tenant, Tree::new(5).level(node)));
            assert_eq!((outcome.answer, outcome.node), (0, node));
            assert_eq!((outcome.moves.len(), &outcome.table), (0, &held));
        }
    }
}

/// Seven entries are needed whatever the level, and whether or not anybody moves.
#[test]
fn fewer_than_56_bytes_are_too_short_a_list_for_a_growth() {
    for (length, level) in (0..=72).flat_map(|length| [0, 1, 2].map(|level| (length, level))) {
        let mut moves = vec![0xa5; length];
        let mut image = vec![0; 2 * TENANTS];
        image[0] = 2;
        let mut images = Images {
            height: 2,
            table: &mut image,
            line: &mut [],
            moves: &mut moves,
        };
        let reply = Oracle.call(&mut images, grow(0, level));
        assert_eq!(
            reply.answer,
            if length < 56 { 3 } else { 0 },
            "{length} bytes, level {level}"
        );
        assert!(moves.iter().all(|&byte| byte == 0xa5));
    }
}

/// The bound of seven is reached, also on taller reserves, and not from the third place.
#[test]
fn a_growth_moves_seven_others() {
    for height in MOST_MOVED.height..=12 {
        let tree = Tree::new(height);
        let held = seated(height, &MOST_MOVED.counts);
        let first = tree.nodes_at(MOST_MOVED.from).start;
        for (node, moves) in [(first + 1, 7), (first + 2, 7), (first + 3, 6)] {
            let tenant = held.iter().position(|&other| other == node).expect("a held node") as u32;
            let outcome = call(height, &held, grow(tenant, MOST_MOVED.to));
            assert_eq!(
                (outcome.answer, outcome.moves.len()),
                (0, moves),
                "height {height}, node {node}"
            );
            let six = Lent {
                height,
                table: &held,
                line: &line::EMPTY,
                entries: 6,
            };
            assert_eq!(planner::call(six, grow(tenant, MOST_MOVED.to)).answer, 3);
        }
    }
    assert_eq!(Tree::new(9).nodes_at(MOST_MOVED.from).start + 1, 257);
}

/// What a grant answers that is repeated: the node that the tenant has, and no moves; the table stays.
fn kept(held: &[Node], tenant: u32) -> Outcome {
    Outcome {
        answer: 0,
        admitted: None,
        node: held[tenant as usize],
        moves: Vec::new(),
        table: held.to_vec(),
        line: line::EMPTY.to_vec(),
    }
}

/// The listing's fourth line moves everybody. Made once more it moves nobody, though the reserve is full now.
#[test]
fn a_start_may_be_repeated() {
    let granted = call(2, &table(&[2, 6]), grant(2, 0));
    assert_eq!((granted.answer, granted.moves.len()), (0, 2));
    let held = granted.table;
    assert_eq!(call(2, &held, grant(2, 0)), kept(&held, 2));
    // Its node is 5, and tenant 0 has two pages.
    assert_eq!(kept(&held, 2).node, 5);
    assert_eq!(call(2, &held, grant(0, 1)), kept(&held, 0));
    assert_eq!(call(2, &held, grant_pages(0, 1)), kept(&held, 0));
    for other in [
        grant(2, 1),
        grant(2, 2),
        grant(0, 0),
        grant(0, 2),
        grant_pages(0, 2),
        grant_pages(0, 0),
    ] {
        assert_eq!(call(2, &held, other).answer, 8, "{other:?}");
    }
}

/// With their guard page four to seven pages take a block of eight, and eight do not. Sixteen pages are had by an image that
/// names eight to fifteen, and by one that names none.
#[test]
fn pages_are_rounded_before_they_are_compared() {
    let held = table(&[2, 6]);
    let same = |tenant: u32| -> Vec<u32> {
        let is_same = |&pages: &u32| call(5, &held, grant_pages(tenant, pages)) == kept(&held, tenant);
        (0..32).filter(is_same).collect()
    };
    assert_eq!(same(1), [4, 5, 6, 7]);
    assert_eq!(same(0), [0, 8, 9, 10, 11, 12, 13, 14, 15]);
}

/// Whatever is wrong with the arguments comes before, and so does a table that is not in order.
#[test]
fn a_repeated_start_is_judged_where_8_is() {
    let held = table(&[4, 10, 3]);
    let short = Lent {
        height: 3,
        table: &held,
        line: &line::EMPTY,
        entries: 3,
    };
    assert_eq!(planner::call(short, grant(0, 1)).answer, 3);
    assert_eq!(planner::call(Lent { entries: 4, ..short }, grant(0, 1)), kept(&held, 0));
    assert_eq!(planner::call(Lent { height: 13, ..short }, grant(0, 1)).answer, 1);
    for wrong in [table(&[4, 8]), table(&[5]), table(&[4, 4])] {
        assert_eq!(call(3, &wrong, grant(0, 1)).answer, 7);
        assert_eq!(call(3, &wrong, grant_pages(0, 1)).answer, 7);
    }
}

/// After a growth its new level is the one that may be asked for again.
#[test]
fn a_start_may_be_repeated_after_a_growth() {
    let grown = call(3, &table(&[4, 10]), grow(0, 2));
    assert_eq!((grown.answer, grown.node), (0, 2));
    assert_eq!(call(3, &grown.table, grant(0, 2)), kept(&grown.table, 0));
    assert_eq!(call(3, &grown.table, grant_pages(0, 3)), kept(&grown.table, 0));
    assert_eq!(call(3, &grown.table, grant(0, 1)).answer, 8);
}

#[test]
fn a_line_is_193_numbers() {
    assert_eq!((LINE_NUMBERS, LINE_BYTES, MOST_WAITING), (193, 386, 64));
    let line = line_of(&[(4095, 12, 8), (0, 0, 0)]);
    assert_eq!(line[..8], [2, 4095, 12, 8, 0, 0, 0, 0]);
    assert!(line.len() == 193 && line[8..].iter().all(|&number| number == 0));
    assert_eq!(line_of(&[]), line::EMPTY);
}

/// Whoever joins stands at the end and has not been passed, though there be room.
#[test]
fn a_tenant_may_wait() {
    let held = table(&[4, 10, 3]);
    for (before, after) in [
        (line_of(&[]), line_of(&[(7, 0, 0)])),
        (line_of(&[(9, 3, 2)]), line_of(&[(9, 3, 2), (7, 0, 0)])),
        (line_of(&[(9, 3, 8)]), line_of(&[(9, 3, 8), (7, 0, 0)])),
    ] {
        let outcome = call_beside(3, &held, &before, join(7, 0));
        assert_eq!((outcome.answer, outcome.node, outcome.moves.len()), (0, 0, 0));
        assert_eq!((outcome.table, outcome.line), (held.clone(), after));
    }
}

/// The listing's fourth line, from the line: the same node, moves and table, and the line is empty then.
#[test]
fn whoever_is_admitted_is_granted_its_block() {
    let held = table(&[2, 6]);
    let granted = call(2, &held, grant(2, 0));
    let admitted = call_beside(2, &held, &line_of(&[(2, 0, 0)]), Request::Admit);
    assert_eq!(admitted.admitted, Some(2));
    assert_eq!((admitted.answer, admitted.node), (0, 5));
    assert_eq!((&admitted.table, &admitted.moves), (&granted.table, &granted.moves));
    assert_eq!(admitted.moves, [direct(0, 2, 3), staged(1, 6, 4)]);
    assert_eq!(admitted.line, line::EMPTY);
}

/// On four pages of which one is free: the first who fits, whoever would fit better, and those in front are passed.
#[test]
fn the_first_from_the_front_who_fits_is_admitted() {
    let held = table(&[2, 6]);
    let before = line_of(&[(7, 2, 3), (8, 1, 0), (9, 0, 1), (10, 0, 0)]);
    let outcome = call_beside(2, &held, &before, Request::Admit);
    assert_eq!(outcome.admitted, Some(9));
    assert_eq!(outcome.line, line_of(&[(7, 2, 4), (8, 1, 1), (10, 0, 0)]));
    // With two pages more it is the turn of one further in front.
    let outcome = call_beside(2, &table(&[4]), &before, Request::Admit);
    assert_eq!(outcome.admitted, Some(8));
    assert_eq!(outcome.line, line_of(&[(7, 2, 4), (9, 0, 1), (10, 0, 0)]));
}

#[test]
fn behind_a_tenant_passed_eight_times_all_are_barred() {
    let held = table(&[2, 6]);
    let nobody = |line: &[u16]| {
        let outcome = call_beside(2, &held, line, Request::Admit);
        assert_eq!((outcome.answer, outcome.admitted, outcome.node), (0, None, 0));
        assert_eq!(
            (outcome.moves.len(), outcome.table == held, outcome.line == line),
            (0, true, true)
        );
    };
    nobody(&line_of(&[(7, 1, 8), (9, 0, 0)]));
    nobody(&line_of(&[(6, 2, 7), (7, 1, 8), (9, 0, 0)]));
    nobody(&line_of(&[]));
    // Whoever was passed that often gets in itself, and so does one in front of it, which the other does not bar.
    for (line, admitted) in [
        (line_of(&[(7, 0, 8), (9, 0, 0)]), 7),
        (line_of(&[(6, 0, 0), (7, 2, 8), (9, 0, 0)]), 6),
    ] {
        let outcome = call_beside(2, &held, &line, Request::Admit);
        assert_eq!(outcome.admitted, Some(admitted), "{line:?}");
    }
}

#[test]
fn a_direct_grant_counts_as_last_in_line() {
    let held = table(&[2]);
    let outcome = call_beside(2, &held, &line_of(&[(7, 2, 7), (8, 0, 0)]), grant(9, 0));
    assert_eq!((outcome.answer, &outcome.line), (0, &line_of(&[(7, 2, 8), (8, 0, 1)])));
    for request in [grant(10, 0), grant_pages(10, 1), grant(10, 2)] {
        let barred = call_beside(2, &outcome.table, &outcome.line, request);
        assert_eq!((barred.answer, &barred.line), (10, &outcome.line), "{request:?}");
    }
    // Without room nobody is passed.
    let full = call_beside(2, &table(&[1]), &line_of(&[(7, 2, 7)]), grant(9, 0));
    assert_eq!((full.answer, full.line), (10, line_of(&[(7, 2, 7)])));
}

/// A repeated grant is no grant: it is not barred, and nobody is passed by it.
#[test]
fn a_start_may_be_repeated_beside_a_line() {
    let held = table(&[2, 6]);
    for line in [line_of(&[(7, 0, 3)]), line_of(&[(7, 0, 8), (8, 2, 0)])] {
        for request in [grant(1, 0), grant(0, 1), grant_pages(0, 1)] {
            let outcome = call_beside(2, &held, &line, request);
            assert_eq!((outcome.answer, outcome.moves.len()), (0, 0), "{request:?}");
            assert_eq!((&outcome.table, &outcome.line), (&held, &line), "{request:?}");
        }
        assert_eq!(call_beside(2, &held, &line, grant(0, 0)).answer, 8);
    }
}

/// The others keep their counts, and whoever comes back has none.
#[test]
fn a_tenant_may_wait_no_longer() {
    let held = table(&[1]);
    let before = line_of(&[(7, 0, 8), (8, 1, 5), (9, 2, 3)]);
    let left = call_beside(3, &held, &before, withdraw(8));
    assert_eq!((left.answer, left.node, left.admitted), (0, 0, None));
    assert_eq!(left.line, line_of(&[(7, 0, 8), (9, 2, 3)]));
    let back = call_beside(3, &held, &left.line, join(8, 1));
    assert_eq!(back.line, line_of(&[(7, 0, 8), (9, 2, 3), (8, 1, 0)]));
    // Neither somebody who never waited nor a holder can.
    for tenant in [0, 10] {
        assert_eq!(call_beside(3, &held, &before, withdraw(tenant)).answer, 9);
    }
}

/// A line with as many as can wait, tenants 100 and above.
fn full_line() -> Vec<u16> {
    let waiting: Vec<(u16, u32, u32)> = (100..164).map(|tenant| (tenant, 0, 0)).collect();
    line_of(&waiting)
}

/// 8 comes first, then 18, then 17.
#[test]
fn who_cannot_wait_is_told_why() {
    let held = table(&[1]);
    let answer = |line: &[u16], request| {
        let outcome = call_beside(3, &held, line, request);
        assert!(outcome.answer == 0 || outcome.line == line, "{request:?}");
        outcome.answer
    };
    let full = full_line();
    assert_eq!([join(0, 3), join(0, 1)].map(|request| answer(&full, request)), [8, 8]);
    assert_eq!(
        [join(163, 0), grant(163, 0)].map(|request| answer(&full, request)),
        [18, 18]
    );
    assert_eq!(
        [join(99, 0), grant(99, 0)].map(|request| answer(&full, request)),
        [17, 10]
    );
    let one_less = call_beside(3, &held, &full, withdraw(130)).line;
    assert_eq!(
        [join(99, 0), join(130, 0)].map(|request| answer(&one_less, request)),
        [0, 0]
    );
}

/// Every condition of 7 alone, and a line that is in order though a younger one was passed more often than an older one.
#[test]
fn a_line_has_to_be_in_order() {
    let held = table(&[2]);
    let good = line_of(&[(7, 2, 0), (8, 0, 8)]);
    let changed = |place: usize, number: u16| {
        let mut line = good.clone();
        line[place] = number;
        line
    };
    let mut too_many = full_line();
    too_many[0] = 65;
    let spoilt = [
        too_many,
        changed(0, 1),
        changed(192, 1),
        changed(7, 1),
        changed(3, 9),
        changed(2, 3),
        changed(1, 4096),
        changed(1, 8),
        changed(1, 0),
    ];
    let requests = [grant(9, 0), grant_pages(9, 0), join(9, 0), Request::Admit, withdraw(9)];
    for request in requests {
        assert_ne!(call_beside(2, &held, &good, request).answer, 7, "{request:?}");
        for line in &spoilt {
            let outcome = call_beside(2, &held, line, request);
            assert_eq!(
                (outcome.answer, outcome.node, outcome.admitted),
                (7, 0, None),
                "{request:?} {line:?}"
            );
            assert_eq!((&outcome.table, &outcome.line), (&held, line), "{request:?}");
        }
    }
    // The highest numbers that there may be.
    let highest = line_of(&[(4095, 2, 8)]);
    assert_eq!(call_beside(2, &held, &highest, withdraw(4095)).answer, 0);
}

/// A release and a growth are given no line, so none of them can be wrong for these.
#[test]
fn releases_and_growths_take_no_line() {
    for line in [&[][..], &[65; 193], &[0; 194]] {
        for request in [release(0), grow(0, 0)] {
            let outcome = call_beside(2, &table(&[2]), line, request);
            assert_eq!((outcome.answer, &outcome.line[..]), (0, line), "{request:?}");
        }
    }
}

/// The first number that applies, with everything else wrong as well.
#[test]
fn calls_of_the_line_are_judged_in_their_order() {
    let (short_table, ruined) = (vec![9; TENANTS - 1], vec![9; TENANTS]);
    let (short_line, ruined_line) = (vec![9; 192], vec![9; 193]);
    let answer = |height, table: &[Node], line: &[u16], entries, request| {
        let lent = Lent {
            height,
            table,
            line,
            entries,
        };
        planner::call(lent, request).answer
    };
    let requests = [
        grant(4096, 13),
        grant_pages(4096, 4096),
        join(4096, 13),
        Request::Admit,
        withdraw(4096),
    ];
    for request in requests {
        assert_eq!(answer(13, &short_table, &short_line, 0, request), 1);
        assert_eq!(answer(12, &short_table, &ruined_line, 0, request), 2);
        assert_eq!(answer(12, &ruined, &short_line, 0, request), 2);
        assert_eq!(answer(12, &ruined, &[9; 194], 0, request), 2);
        assert_eq!(answer(12, &ruined, &[], 0, request), 2);
    }
    let after_the_list = requests.map(|request| answer(12, &ruined, &ruined_line, 3, request));
    assert_eq!(after_the_list, [3, 3, 4, 3, 4]);
    let after_the_tenant = requests.map(|request| answer(12, &ruined, &ruined_line, 4, request));
    assert_eq!(after_the_tenant, [4, 4, 4, 7, 4]);
    assert_eq!(answer(12, &ruined, &ruined_line, 0, join(4095, 13)), 5);
    for request in [
        grant(9, 12),
        grant_pages(9, 0),
        join(9, 12),
        Request::Admit,
        withdraw(9),
    ] {
        assert_eq!(answer(12, &ruined, &line::EMPTY, 4, request), 7);
        assert_eq!(answer(12, &table(&[]), &ruined_line, 4, request), 7);
    }
}

#[test]
fn opening_empties_any_line() {
    let opened = planner::open(3, &table(&[]), &[9; 193]);
    assert_eq!((opened.answer, opened.line), (0, line::EMPTY.to_vec()));
    for (height, length, due) in [(3, 192, 2), (3, 194, 2), (3, 0, 2), (13, 0, 1)] {
        let line = vec![9; length];
        let opened = planner::open(height, &table(&[1]), &line);
        assert_eq!((opened.answer, opened.table, opened.line), (due, table(&[1]), line));
    }
}

const JOURNAL: [u8; 22] = [1, 2, 2, 0, 0, 1, 2, 1, 0, 0, 2, 2, 0, 0, 4, 7, 0, 3, 3, 0, 1, 0];

const LISTING: &str = "\
1 O 2 - 0 - 0
2 G 0 1 0 2 0
3 G 1 0 0 6 0
4 G 2 0 0 5 2 0:2>3 1:6=4
5 R 7 - 9 - 0
6 P 3 1 10 - 0
";

fn listing(journal: &[u8]) -> String {
    String::from_utf8(list(journal)).expect("a listing is plain text")
}

#[test]
fn the_listing_of_22_bytes() {
    assert_eq!(listing(&JOURNAL), LISTING);
}

/// A line of a repeated grant reads like that of a grant without moves.
#[test]
fn repeated_grants_are_lines_of_the_listing() {
    let journal = [&JOURNAL[..], &[2, 2, 0, 0], &[3, 0, 0, 1, 0], &[2, 0, 0, 0]].concat();
    let lines = "7 G 2 0 0 5 0\n8 P 0 1 0 3 0\n9 G 0 0 8 - 0\n";
    assert_eq!(listing(&journal), [LISTING, lines].concat());
}

/// A whole block is held, two wait, and the first of them gets it when it is released. The second gets tired.
#[test]
fn those_who_wait_are_lines_of_the_listing() {
    let journal = [
        &[1, 1][..],
        &[2, 0, 0, 1],
        &[9, 1, 0, 1],
        &[9, 2, 0, 0],
        &[9, 0, 0, 1],
        &[9, 1, 0, 0],
        &[9, 0, 16, 0],
        &[9, 3, 0, 2],
        &[2, 2, 0, 0],
        &[10],
        &[4, 0, 0],
        &[10],
        &[10],
        &[11, 1, 0],
        &[11, 2, 0],
        &[11, 255, 255],
    ];
    let expected = "\
1 O 1 - 0 - 0
2 G 0 1 0 1 0
3 W 1 1 0 - 0
4 W 2 0 0 - 0
5 W 0 1 8 - 0
6 W 1 0 18 - 0
7 W 4096 0 4 - 0
8 W 3 2 5 - 0
9 G 2 0 18 - 0
10 A - - 0 0 0
11 R 0 - 0 1 0
12 A 1 - 0 1 0
13 A - - 0 0 0
14 X 1 - 9 - 0
15 X 2 - 0 - 0
16 X 65535 - 4 - 0
";
    assert_eq!(listing(&journal.concat()), expected);
}

/// The fourth line once more, with an admit instead of the grant; and the 65th to join.
#[test]
fn admits_are_listed_with_their_moves_and_full_lines_with_17() {
    let journal = [&JOURNAL[..10], &[9, 2, 0, 0], &[10]].concat();
    let lines: Vec<&str> = LISTING.lines().take(3).collect();
    let expected = format!("{}\n4 W 2 0 0 - 0\n5 A 2 - 0 5 2 0:2>3 1:6=4\n", lines.join("\n"));
    assert_eq!(listing(&journal), expected);

    let joins: Vec<u8> = (0..65).flat_map(|tenant| [9, tenant, 0, 0]).collect();
    let text = listing(&[&[1, 0], &joins[..], &[10]].concat());
    let ends: Vec<&str> = text.lines().skip(64).collect();
    assert_eq!(ends, ["65 W 63 0 0 - 0", "66 W 64 0 17 - 0", "67 A 0 - 0 1 0"]);
}

#[test]
fn moves_are_four_numbers_of_two_bytes() {
    let moves = [direct(0x0102, 2, 3), staged(1, 6, 0x1004)];
    let mut image = [0xa5; 20];
    put_moves(&moves, &mut image);
    let bytes = [2, 1, 2, 0, 3, 0, 0, 0, 1, 0, 6, 0, 4, 16, 1, 0];
    assert_eq!(image, [&bytes[..], &[0xa5; 4]].concat()[..]);
    assert_eq!(moves_from(&image, 2), moves);
    assert_eq!((MOVE_BYTES, FEWEST_MOVE_BYTES, FEWEST_MOVE_BYTES_TO_GROW), (8, 32, 56));
}

#[test]
fn fewer_than_32_bytes_are_too_short_a_list() {
    for length in 0..=64 {
        let mut moves = vec![0xa5; length];
        let mut images = Images {
            height: 0,
            table: &mut [0; TABLE_BYTES],
            line: &mut [0; LINE_BYTES],
            moves: &mut moves,
        };
        let reply = Oracle.call(&mut images, grant(0, 0));
        assert_eq!(reply.answer, if length < 32 { 3 } else { 0 }, "{length} bytes");
        assert!(moves.iter().all(|&byte| byte == 0xa5));
    }
}

#[test]
fn listings_that_end_early() {
    assert_eq!(listing(&[]), "! 0 11\n");
    assert_eq!(listing(&[2, 0, 0, 0]), "! 0 11\n");
    assert_eq!(listing(&[1]), "! 0 13\n");
    assert_eq!(listing(&[1, 13, 9]), "! 0 1\n");
    assert_eq!(listing(&[1, 255]), "! 0 1\n");
    assert_eq!(listing(&[1, 12]), "1 O 12 - 0 - 0\n");
    assert_eq!(listing(&[1, 0, 200]), "1 O 0 - 0 - 0\n! 2 12\n");
    assert_eq!(listing(&[1, 0, 5]), "1 O 0 - 0 - 0\n! 2 13\n");
    assert_eq!(listing(&[1, 0, 5, 0, 0]), "1 O 0 - 0 - 0\n! 2 13\n");
    assert_eq!(listing(&[1, 0, 4, 1]), "1 O 0 - 0 - 0\n! 2 13\n");
    assert_eq!(listing(&[1, 0, 1, 0]), "1 O 0 - 0 - 0\n! 2 14\n");
    assert_eq!(listing(&[1, 0, 1]), "1 O 0 - 0 - 0\n! 2 13\n");
    assert_eq!(listing(&[1, 0, 9, 0, 0]), "1 O 0 - 0 - 0\n! 2 13\n");
    assert_eq!(listing(&[1, 0, 11, 0]), "1 O 0 - 0 - 0\n! 2 13\n");
    for unknown in [0, 6, 7, 8, 12] {
        assert_eq!(listing(&[1, 0, unknown, 10]), "1 O 0 - 0 - 0\n! 2 12\n");
        assert_eq!(listing(&[1, 0, 10, unknown]), "1 O 0 - 0 - 0\n2 A - - 0 0 0\n! 3 12\n");
    }
}

#[test]
fn refused_arguments_are_lines_of_the_listing() {
    let journal = [
        vec![1, 1],
        vec![2, 0, 16, 0],
        vec![2, 0, 0, 2],
        vec![3, 0, 0, 3, 0],
        vec![3, 255, 15, 0, 0],
        vec![2, 255, 15, 0],
        vec![4, 255, 255],
        vec![5, 255, 15, 2],
        vec![5, 0, 16, 2],
        vec![4, 255, 15],
        vec![5, 255, 15, 0],
    ]
    .concat();
    let expected = "\
1 O 1 - 0 - 0
2 G 4096 0 4 - 0
3 G 0 2 5 - 0
4 P 0 3 6 - 0
5 P 4095 0 0 1 0
6 G 4095 0 8 - 0
7 R 65535 - 4 - 0
8 Z 4095 2 5 - 0
9 Z 4096 2 4 - 0
10 R 4095 - 0 1 0
11 Z 4095 0 9 - 0
";
    assert_eq!(listing(&journal), expected);
}

/// The first kind of refusal that applies, with everything else wrong as well.
#[test]
fn arguments_are_judged_in_the_order_of_their_numbers() {
    let ruined = vec![9; TENANTS];
    let short = vec![9; TENANTS - 1];
    let long = vec![9; TENANTS + 1];
    let answer = |height, table: &[Node], entries, request| {
        let line = &line::EMPTY;
        let lent = Lent {
            height,
            table,
            line,
            entries,
        };
        let outcome = planner::call(lent, request);
        assert_eq!((outcome.node, outcome.moves.len()), (0, 0));
        assert_eq!(outcome.table, table);
        outcome.answer
    };
    for request in [grant(4096, 13), grant_pages(4096, 4097), release(4096), grow(4096, 13)] {
        assert_eq!(answer(13, &short, 3, request), 1);
        assert_eq!(answer(12, &short, 3, request), 2);
        assert_eq!(answer(12, &long, 3, request), 2);
        assert_eq!(answer(12, &[], 3, request), 2);
        let enough = request.fewest_entries();
        assert_eq!(answer(12, &ruined, enough - 1, request), 3);
        assert_eq!(answer(12, &ruined, 0, request), 3);
        assert_eq!(answer(12, &ruined, enough, request), 4);
    }
    assert_eq!(answer(12, &ruined, 4, grant(4095, 13)), 5);
    assert_eq!(answer(12, &ruined, 4, grant_pages(4095, 4096)), 6);
    assert_eq!(answer(12, &ruined, 4, grant(4095, 12)), 7);
    assert_eq!(answer(12, &ruined, 4, grant_pages(4095, 4095)), 7);
    assert_eq!(answer(12, &ruined, 4, release(4095)), 7);
    assert_eq!(answer(12, &ruined, 6, grow(4095, 13)), 3);
    assert_eq!(answer(12, &ruined, 7, grow(4095, 13)), 5);
    assert_eq!(answer(12, &ruined, 7, grow(4095, 12)), 7);
}

#[test]
fn edges_of_the_arguments() {
    let empty = table(&[]);
    assert_eq!(planner::open(12, &empty, &line::EMPTY).answer, 0);
    assert_eq!(planner::open(13, &empty, &line::EMPTY).answer, 1);
    assert_eq!(planner::open(13, &[], &line::EMPTY).answer, 1);
    assert_eq!(planner::open(0, &empty[1..], &line::EMPTY).answer, 2);
    assert_eq!(planner::open(0, &[0; TENANTS + 1], &line::EMPTY).answer, 2);
    for height in 0..=12 {
        assert_eq!(call(height, &empty, grant(4095, 0)).answer, 0);
        assert_eq!(call(height, &empty, grant(4096, 0)).answer, 4);
        assert_eq!(call(height, &empty, grant(0, height)).node, 1);
        assert_eq!(call(height, &empty, grant(0, height + 1)).answer, 5);
    }
    let three = Lent {
        height: 0,
        table: &empty,
        line: &line::EMPTY,
        entries: 3,
    };
    assert_eq!(planner::call(three, grant(0, 0)).answer, 3);
    assert_eq!(planner::call(Lent { entries: 4, ..three }, grant(0, 0)).answer, 0);
}

#[test]
fn opening_empties_any_table() {
    let ruined = vec![65_535; TENANTS];
    let opened = planner::open(3, &ruined, &line::EMPTY);
    assert_eq!((opened.answer, opened.node, opened.moves.len()), (0, 0, 0));
    assert_eq!(opened.table, table(&[]));
    assert_eq!(planner::open(13, &ruined, &line::EMPTY).table, ruined);
}

#[test]
fn pages_and_a_guard_page_are_rounded_up_to_a_block() {
    for height in 0..=12 {
        let level = |pages| planner::level_for_pages(Tree::new(height), pages);
        let levels = [1, 2, 3, 4, 7, 8, 2047, 2048, 4095, 4096, 65_535].map(level);
        assert_eq!(levels, [1, 2, 2, 3, 3, 4, 11, 12, 12, 13, 16]);
    }
    let empty = table(&[]);
    assert_eq!(call(3, &empty, grant_pages(0, 3)).node, 2);
}

#[test]
fn named_sizes_leave_a_page_for_the_guard() {
    let empty = table(&[]);
    for height in 0..=12 {
        let all = 1 << height;
        let get = |pages| call(height, &empty, grant_pages(0, pages));
        for pages in [all, all + 1, 65_535] {
            assert_eq!(get(pages).answer, 6, "{pages} pages at height {height}");
        }
        // At height 0 the only page would have to be the guard page.
        if height > 0 {
            assert_eq!(get(all - 1).node, 1);
            assert_eq!(get(1).node, all as Node / 2);
        }
    }
}

/// The levels that images get that name no size, by height: 4, or the whole reserve.
const UNNAMED: [u32; 13] = [0, 1, 2, 3, 4, 4, 4, 4, 4, 4, 4, 4, 4];

#[test]
fn images_that_name_no_size_get_sixteen_pages() {
    for (height, level) in (0..).zip(UNNAMED) {
        let tree = Tree::new(height);
        let outcome = call(height, &table(&[]), grant_pages(4095, 0));
        assert_eq!((outcome.answer, outcome.moves.len()), (0, 0), "height {height}");
        assert_eq!(outcome.node, tree.nodes_at(level).start, "height {height}");
        assert_eq!(tree.pages(outcome.node).len(), 16.min(1 << height));
        // What a grant of that level does, for the same tenant and for the next.
        assert_eq!(outcome, call(height, &table(&[]), grant(4095, level)));
        let next = call(height, &outcome.table, grant_pages(0, 0));
        assert_eq!(next, call(height, &outcome.table, grant(0, level)), "height {height}");
        assert_eq!(next.answer, if height <= 4 { 10 } else { 0 });
    }
}

/// There is no guard page: the reserve takes as many of them as sixteen pages go into its own.
#[test]
fn as_many_images_without_a_size_fit_as_sixteen_pages_go_into_a_reserve() {
    for height in 0..=12u32 {
        let mut held = table(&[]);
        let images = (1 << height) / 16.min(1 << height);
        for tenant in 0..images {
            let outcome = call(height, &held, grant_pages(tenant, 0));
            assert_eq!(outcome.answer, 0, "tenant {tenant} at height {height}");
            held = outcome.table;
        }
        let further = [grant_pages(images, 0), grant(images, 0), grant_pages(0, 0)];
        let answers = further.map(|request| call(height, &held, request).answer);
        assert_eq!(answers, [10, 10, 0], "height {height}");
    }
}

/// Fifteen free pages are too few where a block has sixteen, and so is all but one page of a small reserve.
#[test]
fn images_without_a_size_are_refused_where_a_page_is_missing() {
    for (height, level) in (0..).zip(UNNAMED) {
        let tree = Tree::new(height);
        let others = tree.pages_in_all() - (1 << level);
        let answer_beside = |single_pages: u32| {
            let nodes = layout(tree, &counts(&[single_pages])).expect("pages that fit");
            call(height, &table(&nodes), grant_pages(4095, 0)).answer
        };
        let answers = [others, others + 1].map(answer_beside);
        assert_eq!(answers, [0, 10], "height {height}");
    }
}

#[test]
fn version_3_gave_one_page_and_refused_what_is_repeated() {
    for height in 0..=12 {
        let tree = Tree::new(height);
        let held = table(&[tree.nodes_at(height / 2).start]);
        let lent = Lent {
            height,
            table: &held,
            line: &line::EMPTY,
            entries: 4,
        };
        let before = |request| planner::call_under(Rules::Version3, lent, request);
        assert_eq!(before(grant_pages(7, 0)), before(grant(7, 0)), "height {height}");
        let again = grant(0, height / 2);
        assert_eq!(
            (before(again).answer, before(again).table),
            (8, held.clone()),
            "height {height}"
        );
        // Nothing else differs from the rules of today.
        let others = [
            grant_pages(7, 1),
            grant_pages(7, 1 << height),
            grant(7, 0),
            grant(0, height / 2 + 1),
            release(0),
        ];
        for request in others {
            assert_eq!(before(request), call(height, &held, request), "height {height}");
        }
    }
}

#[test]
fn the_table_is_judged_before_the_holdings() {
    let past_the_tree = table(&[16]);
    let twice = table(&[8, 8]);
    let above_one_another = table(&[4, 8]);
    let not_dense = table(&[9]);
    let meager_in_front = table(&[8, 5]);
    for wrong in [past_the_tree, twice, above_one_another, not_dense, meager_in_front] {
        assert_eq!(call(3, &wrong, grant(0, 0)).answer, 7);
        assert_eq!(call(3, &wrong, grant(9, 3)).answer, 7);
        assert_eq!(call(3, &wrong, release(9)).answer, 7);
        assert_eq!(call(3, &wrong, grow(9, 3)).answer, 7);
        assert_eq!(call(3, &wrong, grow(0, 0)).answer, 7);
    }
    let full = table(&[1]);
    assert_eq!(call(3, &full, grant(0, 0)).answer, 8);
    assert_eq!(call(3, &full, grant(0, 3)).answer, 0);
    assert_eq!(call(3, &full, grant(1, 0)).answer, 10);
    assert_eq!(call(3, &full, release(1)).answer, 9);
    assert_eq!(call(3, &full, grow(1, 3)).answer, 9);
    assert_eq!(call(3, &full, grow(0, 3)).answer, 0);
}

#[test]
fn the_last_node_of_the_tree_is_in_it() {
    let tree = Tree::new(12);
    let full: Vec<Node> = tree.nodes_at(0).collect();
    assert_eq!(full.last(), Some(&8191));
    assert_eq!(call(12, &full, release(4095)).node, 8191);
    assert_eq!(call(12, &table(&[8192]), release(0)).answer, 7);
}

#[test]
fn maps() {
    let held = table(&[4, 10, 3]);
    let mut map = [0xff; MAP_BYTES + 1];
    assert_eq!(page_map::draw(3, &held, &mut map), Ok(()));
    assert_eq!(map[0], 0b1111_0111);
    assert!(map[1..MAP_BYTES].iter().all(|&byte| byte == 0));
    assert_eq!(map[MAP_BYTES], 0xff);
    assert_eq!(page_map::count(&map), Ok(7));
    assert_eq!(page_map::count(&map[..MAP_BYTES]), Ok(7));
    assert_eq!(page_map::count(&[0xff; MAP_BYTES]), Ok(4096));
    assert_eq!(page_map::count(&[0xff; MAP_BYTES - 1]), Err(Refusal::TooSmall));

    let mut short = [0xa5; MAP_BYTES - 1];
    assert_eq!(page_map::draw(3, &held, &mut short), Err(Refusal::TooSmall));
    assert_eq!(page_map::draw(3, &table(&[9]), &mut short), Err(Refusal::Disorder));
    assert_eq!(page_map::draw(3, &held[1..], &mut short), Err(Refusal::Length));
    assert_eq!(page_map::draw(13, &held[1..], &mut short), Err(Refusal::Height));
    assert_eq!(short, [0xa5; MAP_BYTES - 1]);
}

fn refused(refusal: Refusal, offset: usize) -> Reading {
    let number = refusal.number();
    Reading::Refused { number, offset }
}

#[test]
fn reading_record_by_record() {
    let expected = [
        Record::Open { height: 2 },
        Record::GrantLevel { tenant: 0, level: 1 },
        Record::GrantLevel { tenant: 1, level: 0 },
        Record::GrantLevel { tenant: 2, level: 0 },
        Record::Release { tenant: 7 },
        Record::GrantPages { tenant: 3, pages: 1 },
    ];
    let mut offset = 0;
    for record in expected {
        let Reading::Record { record: found, next } = journal::read(&JOURNAL, offset) else {
            panic!("no record at {offset}");
        };
        assert_eq!(found, record);
        assert_eq!(JOURNAL[offset..next], record.bytes());
        offset = next;
    }
    assert_eq!(offset, JOURNAL.len());
    for past in [22, 23, usize::MAX] {
        assert_eq!(journal::read(&JOURNAL, past), Reading::End);
    }
}

#[test]
fn reader_refusals_in_their_order() {
    for offset in [0, 1, 2, 100, usize::MAX] {
        assert_eq!(journal::read(&[], offset), refused(Refusal::NoOpening, 0));
        assert_eq!(journal::read(&[4, 0, 0], offset), refused(Refusal::NoOpening, 0));
    }
    assert_eq!(journal::read(&[1], 0), refused(Refusal::CutShort, 0));
    assert_eq!(journal::read(&[1, 9, 0], 2), refused(Refusal::UnknownKind, 2));
    assert_eq!(journal::read(&[1, 9, 200, 1], 2), refused(Refusal::UnknownKind, 2));
    assert_eq!(journal::read(&[1, 9, 5, 0, 0], 2), refused(Refusal::CutShort, 2));
    assert_eq!(journal::read(&[1, 9, 3, 0, 0, 0], 2), refused(Refusal::CutShort, 2));
    assert_eq!(journal::read(&[1, 1], 1), refused(Refusal::CutShort, 1));
    assert_eq!(journal::read(&[1, 1, 1], 1), refused(Refusal::OpenAgain, 1));
}

#[test]
fn the_longest_journal() {
    let longest = journal_of(LONGEST);
    let open = Record::Open { height: 2 };
    assert_eq!(journal::read(&longest, 0), Reading::Record { record: open, next: 2 });
    assert_eq!(journal::read(&longest, LONGEST), Reading::End);
    let text = listing(&longest);
    assert_eq!(text.lines().count(), 1 + 2 + (LONGEST - 10) / 3);
    assert!(!text.contains('!'));

    let mut too_long = journal_of(LONGEST + 1);
    assert_eq!(listing(&too_long), "! 0 16\n");
    too_long[0] = 9;
    for offset in [0, 2, LONGEST, LONGEST + 1, usize::MAX] {
        assert_eq!(journal::read(&too_long, offset), refused(Refusal::TooLong, 0));
    }
}

#[test]
fn every_record_fits_exactly_or_changes_nothing() {
    let records = [
        Record::Open { height: 255 },
        Record::GrantLevel {
            tenant: 0xfffe,
            level: 200,
        },
        Record::GrantPages {
            tenant: 0x1234,
            pages: 0xabcd,
        },
        Record::Release { tenant: 0x0102 },
        Record::Grow {
            tenant: 0x0102,
            level: 255,
        },
        Record::Join {
            tenant: 0x0102,
            level: 255,
        },
        Record::Admit,
        Record::Withdraw { tenant: 0x0102 },
    ];
    for (record, length) in records.into_iter().zip([2, 4, 5, 3, 4, 4, 1, 3]) {
        let mut lent = [0xa5; 8];
        assert_eq!(journal::write(&record, &mut lent[..length - 1]), Err(Refusal::TooSmall));
        assert_eq!(lent, [0xa5; 8]);
        assert_eq!(journal::write(&record, &mut lent), Ok(()));
        assert_eq!(lent[..length], record.bytes());
        assert_eq!(lent[length..], [0xa5; 8][length..]);
    }
    assert_eq!(records[2].bytes(), [3, 0x34, 0x12, 0xcd, 0xab]);
    assert_eq!(records[4].bytes(), [5, 0x02, 0x01, 255]);
    assert_eq!(records[5].bytes(), [9, 0x02, 0x01, 255]);
    assert_eq!(records[6].bytes(), [10]);
    assert_eq!(records[7].bytes(), [11, 0x02, 0x01]);
}

// Layouts and rules that look tidy and are wrong. Each is built here as somebody might, and must come out different.

/// The leftmost free places, level by level in some order, with no settling.
fn leftmost(tree: Tree, counts: &Counts, levels: impl Iterator<Item = u32>) -> Vec<Node> {
    let mut held = Vec::new();
    for level in levels {
        for _ in 0..counts[level as usize] {
            let free = tree.nodes_at(level).find(|&node| is_free(&held, node));
            held.push(free.expect("a free place"));
        }
    }
    ascending(&held)
}

#[test]
fn sorted_by_size_is_wrong() {
    let tree = Tree::new(3);
    let sizes = counts(&[1, 1]);
    let sorted = leftmost(tree, &sizes, tree.levels());
    assert_eq!(sorted, ascending(&[8, 5]));
    assert!(!tree.is_safe(&sorted));
    assert_ne!(Some(sorted), layout(tree, &sizes));
}

#[test]
fn meager_is_not_half_empty() {
    let tree = Tree::new(3);
    let sizes = counts(&[2, 0, 1]);
    // Taking a half empty tree for a meager one would carry both leaves behind the larger block.
    let larger_first = leftmost(tree, &sizes, tree.levels().rev());
    assert_eq!(larger_first, ascending(&[2, 12, 13]));
    assert!(!tree.is_safe(&larger_first));
    assert_eq!(layout(tree, &sizes), Some(ascending(&[8, 9, 3])));
}

#[test]
fn the_leftmost_free_node_is_not_enough() {
    let tree = Tree::new(5);
    let free = tree.nodes_at(1).find(|&node| is_free(&BEFORE, node));
    assert_eq!(free, Some(26));
    let dropped = [&BEFORE[..], &[26]].concat();
    assert!(is_legal(&dropped) && !tree.is_safe(&dropped));
    assert_eq!(call(5, &table(&BEFORE), grant(9, 1)).node, 17);
}

#[test]
fn the_largest_gap_does_not_decide() {
    // Four leaves, of which the first and third go: without settling no two free pages are next to each other.
    let tree = Tree::new(2);
    let unsettled = [5, 7];
    assert!(!tree.nodes_at(1).any(|node| is_free(&unsettled, node)));
    let mut held = table(&[4, 5, 6, 7]);
    for tenant in [0, 2] {
        held = call(2, &held, release(tenant)).table;
    }
    let outcome = call(2, &held, grant(0, 1));
    assert_eq!((outcome.answer, outcome.node), (0, 3));
}

#[test]
fn the_newcomer_is_not_paired_by_tenant_number() {
    // The listing's fourth line with the tenants renumbered so that the newcomer has the lowest number.
    let mut held = table(&[]);
    held[1] = 6;
    held[2] = 2;
    let outcome = call(2, &held, grant(0, 0));
    assert_eq!((outcome.answer, outcome.node), (0, 5));
    assert_eq!(outcome.moves, [direct(2, 2, 3), staged(1, 6, 4)]);
}

#[test]
fn movers_are_not_paired_by_tenant_number() {
    // Two movers of one level, of which the left one has the higher number.
    let mut held = table(&[]);
    for (tenant, node) in [(0, 8), (1, 9), (7, 10), (3, 11), (4, 6)] {
        held[tenant] = node;
    }
    let outcome = call(3, &held, release(0));
    assert_eq!((outcome.answer, outcome.node), (0, 8));
    assert_eq!(outcome.moves, [direct(7, 10, 8), direct(4, 6, 5), staged(3, 11, 12)]);
}
