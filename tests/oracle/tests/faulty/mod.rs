//! Planners that are right but for one mistake each, to see whether the driver notices.

/// The methods in which some planners do not differ from the second planner.
macro_rules! as_the_oracle {
    () => {
        fn look(&mut self, table: &[u8], tenant: u32) -> Entry {
            Oracle.look(table, tenant)
        }

        fn level_of_pages(&mut self, height: u32, pages: u32) -> Level {
            Oracle.level_of_pages(height, pages)
        }

        fn count(&mut self, map: &[u8]) -> Count {
            Oracle.count(map)
        }

        fn read(&mut self, journal: &[u8], offset: usize) -> Reading {
            Oracle.read(journal, offset)
        }

        fn write(&mut self, record: &Record, lent: &mut [u8]) -> u32 {
            Oracle.write(record, lent)
        }

        fn list(&mut self, journal: &[u8]) -> Vec<u8> {
            Oracle.list(journal)
        }
    };
}

pub mod growths;
pub mod lists;
pub mod repeats;
pub mod waiting;

use growths::{GrowthFault, Other};
use lists::{ListFault, Tables};
use oracle::book::level_wanted;
use oracle::carrying::Change;
use oracle::definitions::{is_free, is_legal, is_under, Counts, Node, Tree};
use oracle::journal::{Reading, Record, LONGEST};
use oracle::page_map::MAP_BYTES;
use oracle::planner::Request;
use oracle::refusal::{Refusal, DONE};
use oracle::subject::{
    fewest_move_bytes, moves_from, put_moves, table_from, table_image, Count, Entry, Images, Level, Oracle, Pages,
    Reach, Reply, Subject, MOVE_BYTES, TABLE_BYTES,
};
use repeats::RepeatFault;

/// The one mistake.
#[derive(Clone, Copy, Debug, PartialEq, Eq)]
pub enum Fault {
    // Where everybody goes.
    MoversPairedByTenant,
    NewcomerPairedByTenant,
    NewcomerTakesTheFirstPlace,
    NobodyStays,
    LeftmostGapWithoutSettling,
    FirstGrantWellLaterOnesInTheGap,
    SortedBySize,
    HalfEmptyTakenForMeager,
    NodeOneForEveryone,
    DoneWithTheTableUntouched,
    // What is reported.
    MoveCountInvented,
    StagedInTheHighByte,
    RestOfTheListCleared,
    RefusalClearsTheList,
    RefusalReportsANode,
    ReleaseReportsNoNode,
    // Who is staged, and who goes before whom.
    List(ListFault),
    // What becomes of a tenant that grows.
    Growth(GrowthFault),
    // What a tenant gets that holds a block already.
    Repeat(RepeatFault),
    // Who is turned down, and why.
    NoRoomToEveryone,
    NoRoomForTheLastPage,
    NoRoomWhereThreeWouldMove,
    HoldingsBeforeTheTable,
    LegalTakenForSafe,
    TenantBeforeTheList,
    TenantCutToTwelveBits,
    PagesBeforeTheTenant,
    LongerTableTaken,
    LongerMoveListRefused,
    ThreeEntriesTaken,
    TallerTreeTaken,
    OpeningLeavesTheTable,
    OpeningWantsAnOrderlyTable,
    // Which block a number of pages gets.
    PagesRoundedDown,
    NoGuardPage,
    TwoGuardPages,
    WholeReserveTaken,
    // What an image gets that names no size.
    NoPagesRefused,
    OnePageForNoSize,
    LevelFourOnEveryHeight,
    GuardPageForNoSize,
    // A tenant's entry.
    EntryOfTheNextTenant,
    EntryWithItsBytesExchanged,
    EntryPastTheTable,
    EntryOfAShortTable,
    // The level that pages are told to take.
    LevelWithoutGuardPage,
    LevelOfTheWholeReserve,
    LevelFourAtEveryHeight,
    LevelAboveTheTallest,
    // The pages of a node.
    LastPageForTheFirst,
    OnePageTooMany,
    PagesOfNodeZero,
    NodePastTheTreeTaken,
    // Maps.
    BitsFromTheTop,
    WholeMapDrawn,
    AnyTableDrawn,
    MapBeforeTheTable,
    // Their counts.
    WholeMapCounted,
    LastNumberLeftOut,
    HighBitShiftedOut,
    ShortMapCounted,
    // The journal.
    FirstKindBeforeLength,
    EndBeforeTheWholeJournal,
    LengthLeftOut,
    OpenAgainBeforeCutShort,
    CutShortBeforeUnknownKind,
    RefusalAtTheWrongOffset,
    HighByteFirst,
    PartlyWritten,
    RestOfTheBytesCleared,
    BytesFarBehindCleared,
    OneOffsetMisread,
    GrowthUnknown,
    GrowthWrittenWithoutItsLevel,
    JoinUnknown,
    AdmitReadWithABody,
    WithdrawalReadAsRelease,
    KindsBetweenTaken,
    JoinWrittenAsGrant,
    // The listing.
    LineForTheRefusedOpening,
    RefusedCallsLeftOut,
    ZeroForNoNode,
    NothingBeforeAnEarlyEnd,
    StagedListedAsDirect,
    GrowthListedAsGrant,
    GrowthListedWithoutItsLevel,
    FourEntriesLentToGrow,
    NobodyListedWithoutNode,
    AdmitListedWithItsLevel,
    JoinListedWithANode,
    WithdrawalListedAsRelease,
}

impl Fault {
    pub const PLACES: [Fault; 10] = [
        Fault::MoversPairedByTenant,
        Fault::NewcomerPairedByTenant,
        Fault::NewcomerTakesTheFirstPlace,
        Fault::NobodyStays,
        Fault::LeftmostGapWithoutSettling,
        Fault::FirstGrantWellLaterOnesInTheGap,
        Fault::SortedBySize,
        Fault::HalfEmptyTakenForMeager,
        Fault::NodeOneForEveryone,
        Fault::DoneWithTheTableUntouched,
    ];
    pub const REPORTS: [Fault; 6] = [
        Fault::MoveCountInvented,
        Fault::StagedInTheHighByte,
        Fault::RestOfTheListCleared,
        Fault::RefusalClearsTheList,
        Fault::RefusalReportsANode,
        Fault::ReleaseReportsNoNode,
    ];
    pub const REFUSALS: [Fault; 14] = [
        Fault::NoRoomToEveryone,
        Fault::NoRoomForTheLastPage,
        Fault::NoRoomWhereThreeWouldMove,
        Fault::HoldingsBeforeTheTable,
        Fault::LegalTakenForSafe,
        Fault::TenantBeforeTheList,
        Fault::TenantCutToTwelveBits,
        Fault::PagesBeforeTheTenant,
        Fault::LongerTableTaken,
        Fault::LongerMoveListRefused,
        Fault::ThreeEntriesTaken,
        Fault::TallerTreeTaken,
        Fault::OpeningLeavesTheTable,
        Fault::OpeningWantsAnOrderlyTable,
    ];
    pub const SIZES: [Fault; 8] = [
        Fault::PagesRoundedDown,
        Fault::NoGuardPage,
        Fault::TwoGuardPages,
        Fault::WholeReserveTaken,
        Fault::NoPagesRefused,
        Fault::OnePageForNoSize,
        Fault::LevelFourOnEveryHeight,
        Fault::GuardPageForNoSize,
    ];
    pub const ENTRIES: [Fault; 4] = [
        Fault::EntryOfTheNextTenant,
        Fault::EntryWithItsBytesExchanged,
        Fault::EntryPastTheTable,
        Fault::EntryOfAShortTable,
    ];
    pub const LEVELS: [Fault; 4] = [
        Fault::LevelWithoutGuardPage,
        Fault::LevelOfTheWholeReserve,
        Fault::LevelFourAtEveryHeight,
        Fault::LevelAboveTheTallest,
    ];
    pub const NODES: [Fault; 4] = [
        Fault::LastPageForTheFirst,
        Fault::OnePageTooMany,
        Fault::PagesOfNodeZero,
        Fault::NodePastTheTreeTaken,
    ];
    pub const MAPS: [Fault; 4] = [
        Fault::BitsFromTheTop,
        Fault::WholeMapDrawn,
        Fault::AnyTableDrawn,
        Fault::MapBeforeTheTable,
    ];
    pub const COUNTS: [Fault; 4] = [
        Fault::WholeMapCounted,
        Fault::LastNumberLeftOut,
        Fault::HighBitShiftedOut,
        Fault::ShortMapCounted,
    ];
    pub const JOURNALS: [Fault; 18] = [
        Fault::FirstKindBeforeLength,
        Fault::EndBeforeTheWholeJournal,
        Fault::LengthLeftOut,
        Fault::OpenAgainBeforeCutShort,
        Fault::CutShortBeforeUnknownKind,
        Fault::RefusalAtTheWrongOffset,
        Fault::HighByteFirst,
        Fault::PartlyWritten,
        Fault::RestOfTheBytesCleared,
        Fault::BytesFarBehindCleared,
        Fault::OneOffsetMisread,
        Fault::GrowthUnknown,
        Fault::GrowthWrittenWithoutItsLevel,
        Fault::JoinUnknown,
        Fault::AdmitReadWithABody,
        Fault::WithdrawalReadAsRelease,
        Fault::KindsBetweenTaken,
        Fault::JoinWrittenAsGrant,
    ];
    pub const LISTINGS: [Fault; 12] = [
        Fault::LineForTheRefusedOpening,
        Fault::RefusedCallsLeftOut,
        Fault::ZeroForNoNode,
        Fault::NothingBeforeAnEarlyEnd,
        Fault::StagedListedAsDirect,
        Fault::GrowthListedAsGrant,
        Fault::GrowthListedWithoutItsLevel,
        Fault::FourEntriesLentToGrow,
        Fault::NobodyListedWithoutNode,
        Fault::AdmitListedWithItsLevel,
        Fault::JoinListedWithANode,
        Fault::WithdrawalListedAsRelease,
    ];
}

/// A planner with one mistake.
pub struct Faulty(pub Fault);

fn refused(refusal: Refusal) -> Reply {
    Reply::number(refusal.number())
}

/// What the second planner replies, with nothing written.
fn right_reply(lent: &Images, request: Request) -> Reply {
    let mut unwritten = Images {
        height: lent.height,
        table: &mut lent.table.to_vec(),
        line: &mut lent.line.to_vec(),
        moves: &mut lent.moves.to_vec(),
    };
    Oracle.call(&mut unwritten, request)
}

/// The table before a call and its request, with what somebody makes of them.
struct Wrong<'a> {
    tree: Tree,
    before: &'a [Node],
    request: Request,
}

impl Wrong<'_> {
    fn tenant(&self) -> usize {
        let tenant = self.request.tenant();
        tenant.expect("a call that names its tenant") as usize
    }

    /// Makes a table the outcome: writes it, and the right list of moves to it if there can be one.
    fn commit(&self, after: &[Node], table: &mut [u8], moves: &mut [u8]) -> Reply {
        let list = Change::between(self.tree, self.before, after)
            .plan()
            .unwrap_or_default();
        table.copy_from_slice(&table_image(after));
        put_moves(&list, moves);
        let node = match after[self.tenant()] {
            0 => self.before[self.tenant()],
            node => node,
        };
        Reply {
            node: node.into(),
            moves: list.len() as u32,
            ..Reply::number(DONE)
        }
    }

    /// Deals the places that changed hands out again at each level, to the tenants in another order.
    fn dealt_again<K: Ord>(&self, after: &[Node], order: impl Fn(usize) -> K) -> Vec<Node> {
        let mut dealt = after.to_vec();
        for level in self.tree.levels() {
            let mut tenants: Vec<usize> = (0..after.len())
                .filter(|&tenant| after[tenant] != self.before[tenant] && after[tenant] != 0)
                .filter(|&tenant| self.tree.level(after[tenant]) == level)
                .collect();
            let mut places: Vec<Node> = tenants.iter().map(|&tenant| after[tenant]).collect();
            places.sort_unstable();
            tenants.sort_by_key(|&tenant| order(tenant));
            for (tenant, place) in tenants.into_iter().zip(places) {
                dealt[tenant] = place;
            }
        }
        dealt
    }

    /// Everybody at the places of a layout, at each level left to right as they stood, the tenant that gets a block last.
    fn in_order(&self, layout: &[Node]) -> Vec<Node> {
        let standing = self.others();
        let wanted = level_wanted(self.tree, self.request);
        let mut after = vec![0; standing.len()];
        for level in self.tree.levels() {
            let at_level = |node: Node| node != 0 && self.tree.level(node) == level;
            let mut tenants: Vec<usize> = (0..standing.len()).filter(|&t| at_level(standing[t])).collect();
            tenants.sort_by_key(|&tenant| standing[tenant]);
            tenants.extend((wanted == Some(level)).then_some(self.tenant()));
            let places = layout.iter().copied().filter(|&node| at_level(node));
            for (tenant, place) in tenants.into_iter().zip(places) {
                after[tenant] = place;
            }
        }
        after
    }

    /// The places that changed hands, with the first one of its level for the tenant that asked for a block.
    fn first_place_taken(&self, after: &[Node]) -> Vec<Node> {
        self.dealt_again(after, |tenant| (tenant != self.tenant(), self.before[tenant]))
    }

    fn counts_after(&self) -> Counts {
        let others: Vec<Node> = self.others().into_iter().filter(|&node| node != 0).collect();
        let mut counts = self.tree.counts(&others);
        if let Some(level) = level_wanted(self.tree, self.request) {
            counts[level as usize] += 1;
        }
        counts
    }

    /// The table without the caller's own tenant.
    fn others(&self) -> Vec<Node> {
        let mut others = self.before.to_vec();
        others[self.tenant()] = 0;
        others
    }

    fn fills_the_reserve(&self) -> bool {
        self.tree.pages_taken(&self.counts_after()) == self.tree.pages_in_all()
    }

    /// The tenant in the first gap of the size that it asks for, and everybody else where they are.
    fn in_the_gap(&self) -> Option<Vec<Node>> {
        let mut after = self.others();
        if let Some(level) = level_wanted(self.tree, self.request) {
            after[self.tenant()] = leftmost_free(self.tree, &after, level)?;
        }
        Some(after)
    }
}

fn leftmost_free(tree: Tree, table: &[Node], level: u32) -> Option<Node> {
    let held: Vec<Node> = table.iter().copied().filter(|&node| node != 0).collect();
    tree.nodes_at(level).find(|&node| is_free(&held, node))
}

fn place(tree: Tree, held: &mut Vec<Node>, level: u32) {
    let free = leftmost_free(tree, held, level).expect("pages that fit");
    held.push(free);
}

/// Smallest blocks first, each on the first free place.
fn sorted_by_size(tree: Tree, counts: &Counts) -> Vec<Node> {
    let mut held = Vec::new();
    for (level, &number) in tree.levels().zip(counts) {
        (0..number).for_each(|_| place(tree, &mut held, level));
    }
    held.sort_unstable();
    held
}

/// The lifting rule, but a subtree that is half empty is emptied as well.
fn half_empty_lifted(tree: Tree, counts: &Counts) -> Vec<Node> {
    let mut held: Vec<Node> = Vec::new();
    for (level, &number) in tree.levels().zip(counts) {
        let last = tree.nodes_at(level).rev().find(|&node| !is_free(&held, node));
        let inside: Vec<Node> = match last {
            Some(last) => held.iter().copied().filter(|&node| is_under(node, last)).collect(),
            None => Vec::new(),
        };
        let pages: usize = inside.iter().map(|&node| tree.pages(node).len()).sum();
        let lifted = if 2 * pages <= 1 << level { inside } else { Vec::new() };
        held.retain(|node| !lifted.contains(node));
        (0..number).for_each(|_| place(tree, &mut held, level));
        lifted.iter().for_each(|&node| place(tree, &mut held, tree.level(node)));
    }
    held.sort_unstable();
    held
}

/// Asks the second planner with a list that is long enough, of which as much is handed back as was lent.
fn into_longer_list(lent: &mut Images, request: Request) -> Reply {
    let mut longer = lent.moves.to_vec();
    longer.resize(fewest_move_bytes(request).max(longer.len()), 0);
    let mut with_longer = Images {
        moves: &mut longer,
        ..lent.lent_on()
    };
    let reply = Oracle.call(&mut with_longer, request);
    lent.moves.copy_from_slice(&longer[..lent.moves.len()]);
    reply
}

impl Faulty {
    fn plan(&self, lent: &mut Images, request: Request) -> Reply {
        if let Some(reply) = self.wrong_before(lent, request) {
            return reply;
        }
        let before = table_from(lent.table);
        let lent_moves = lent.moves.to_vec();
        let reply = Oracle.call(lent, request);
        if reply.answer == DONE {
            let wrong = Wrong {
                tree: Tree::new(lent.height),
                before: &before,
                request,
            };
            self.wrong_when_done(&wrong, lent.table, lent.moves, &lent_moves, reply)
        } else {
            self.wrong_when_refused(lent.moves, request, reply)
        }
    }

    /// Mistakes in the arguments and in the order of the checks.
    fn wrong_before(&self, lent: &mut Images, request: Request) -> Option<Reply> {
        let reserve_is_fine = lent.height <= 12 && lent.table.len() == TABLE_BYTES;
        let list_is_fine = lent.moves.len() >= fewest_move_bytes(request);
        let tenant = request.tenant()?;
        let reply = match (self.0, request) {
            (Fault::TenantBeforeTheList, _) if reserve_is_fine && tenant > 4095 => refused(Refusal::Tenant),
            (Fault::TenantCutToTwelveBits, Request::Release { tenant }) if tenant > 0xffff => {
                let tenant = tenant & 0xfff;
                Oracle.call(lent, Request::Release { tenant })
            }
            (Fault::PagesBeforeTheTenant, Request::GrantPages { pages, .. })
                if reserve_is_fine && list_is_fine && pages >= 1 << lent.height =>
            {
                refused(Refusal::Pages)
            }
            (_, Request::GrantPages { tenant, pages }) if reserve_is_fine && Fault::SIZES.contains(&self.0) => {
                let request = self.other_size(lent.height, tenant, pages);
                Oracle.call(lent, request)
            }
            (Fault::LongerTableTaken, _) if lent.table.len() > TABLE_BYTES => {
                let mut cut = lent.lent_on();
                cut.table = &mut cut.table[..TABLE_BYTES];
                Oracle.call(&mut cut, request)
            }
            (Fault::LongerMoveListRefused, _) if !lent.moves.len().is_multiple_of(MOVE_BYTES) => {
                let mut without_list = Images {
                    moves: &mut [],
                    ..lent.lent_on()
                };
                Oracle.call(&mut without_list, request)
            }
            (Fault::ThreeEntriesTaken, _) if lent.moves.len() / MOVE_BYTES == 3 && !request.is_growth() => {
                into_longer_list(lent, request)
            }
            (Fault::TallerTreeTaken, _) if lent.height == 13 => {
                let mut lower = Images {
                    height: 12,
                    ..lent.lent_on()
                };
                Oracle.call(&mut lower, request)
            }
            (Fault::Growth(fault), Request::Grow { tenant, level }) => return fault.instead(lent, tenant, level),
            (Fault::Repeat(fault), _) if request.is_grant() => return fault.instead(lent, request),
            (Fault::HoldingsBeforeTheTable, _) => return self.holdings_first(lent, request),
            (Fault::LegalTakenForSafe, _) => return self.legal_is_enough(lent, request),
            _ => return None,
        };
        Some(reply)
    }

    /// What is asked for instead of a number of pages.
    fn other_size(&self, height: u32, tenant: u32, pages: u32) -> Request {
        let all = 1 << height;
        let by_level = |level| Request::GrantLevel { tenant, level };
        let by_pages = |pages| Request::GrantPages { tenant, pages };
        match (self.0, pages) {
            (Fault::NoPagesRefused, 0) => by_pages(all),
            (Fault::OnePageForNoSize, 0) => by_level(0),
            (Fault::LevelFourOnEveryHeight, 0) => by_level(4),
            (Fault::GuardPageForNoSize, 0) => by_level(height.min(5)),
            (_, 0) => by_pages(0),
            (Fault::PagesRoundedDown, _) if pages < all => by_level(pages.ilog2()),
            (Fault::NoGuardPage, _) if pages < all => by_level(pages.next_power_of_two().ilog2()),
            (Fault::TwoGuardPages, _) => by_pages(pages + 1),
            (Fault::WholeReserveTaken, _) if pages == all => by_level(height),
            _ => by_pages(pages),
        }
    }

    /// Looks at the tenant's own entry before the whole table.
    fn holdings_first(&self, lent: &Images, request: Request) -> Option<Reply> {
        if right_reply(lent, request).answer != Refusal::Disorder.number() {
            return None;
        }
        let holds = table_from(lent.table)[request.tenant()? as usize] != 0;
        match (request.is_grant(), holds) {
            (true, true) => Some(refused(Refusal::HoldsAlready)),
            (false, false) => Some(refused(Refusal::HoldsNothing)),
            _ => None,
        }
    }

    /// Takes every legal table, and releases from it.
    fn legal_is_enough(&self, lent: &mut Images, request: Request) -> Option<Reply> {
        let is_due = right_reply(lent, request).answer == Refusal::Disorder.number();
        if !is_due || !matches!(request, Request::Release { .. }) {
            return None;
        }
        let tree = Tree::new(lent.height);
        let before = table_from(lent.table);
        let held: Vec<Node> = before.iter().copied().filter(|&node| node != 0).collect();
        if held.iter().any(|&node| node > tree.last_node()) || !is_legal(&held) {
            return None;
        }
        let wrong = Wrong {
            tree,
            before: &before,
            request,
        };
        match before[wrong.tenant()] {
            0 => Some(refused(Refusal::HoldsNothing)),
            _ => wrong
                .in_the_gap()
                .map(|after| wrong.commit(&after, lent.table, lent.moves)),
        }
    }

    /// Mistakes in what an accepted call does. The honest outcome is already written.
    fn wrong_when_done(
        &self,
        wrong: &Wrong,
        table: &mut [u8],
        moves: &mut [u8],
        lent_moves: &[u8],
        reply: Reply,
    ) -> Reply {
        let after = table_from(table);
        let list = moves_from(moves, reply.moves);
        let is_grant = wrong.request.is_grant();
        let mut again = |after: Option<Vec<Node>>| {
            moves.copy_from_slice(lent_moves);
            match after {
                Some(after) => wrong.commit(&after, table, moves),
                None => {
                    table.copy_from_slice(&table_image(wrong.before));
                    refused(Refusal::NoRoom)
                }
            }
        };
        match self.0 {
            Fault::MoversPairedByTenant => again(Some(
                wrong.dealt_again(&after, |tenant| (tenant == wrong.tenant(), tenant)),
            )),
            Fault::NewcomerPairedByTenant => again(Some(wrong.dealt_again(&after, |tenant| tenant))),
            Fault::NewcomerTakesTheFirstPlace if is_grant => again(Some(wrong.first_place_taken(&after))),
            Fault::NobodyStays => {
                let mut layout: Vec<Node> = after.iter().copied().filter(|&node| node != 0).collect();
                layout.sort_unstable();
                again(Some(wrong.in_order(&layout)))
            }
            Fault::LeftmostGapWithoutSettling => again(wrong.in_the_gap()),
            Fault::FirstGrantWellLaterOnesInTheGap if is_grant && wrong.before.iter().any(|&node| node != 0) => {
                again(wrong.in_the_gap())
            }
            Fault::SortedBySize => again(Some(wrong.in_order(&sorted_by_size(wrong.tree, &wrong.counts_after())))),
            Fault::HalfEmptyTakenForMeager => again(Some(
                wrong.in_order(&half_empty_lifted(wrong.tree, &wrong.counts_after())),
            )),
            Fault::NodeOneForEveryone if is_grant => {
                let mut after = wrong.before.to_vec();
                after[wrong.tenant()] = 1;
                again(Some(after))
            }
            Fault::DoneWithTheTableUntouched => {
                table.copy_from_slice(&table_image(wrong.before));
                reply
            }
            Fault::NoRoomToEveryone if is_grant => again(None),
            Fault::NoRoomForTheLastPage if is_grant && wrong.fills_the_reserve() => again(None),
            Fault::NoRoomWhereThreeWouldMove if is_grant && reply.moves == 3 => again(None),
            Fault::MoveCountInvented => Reply {
                moves: (reply.moves + 1) % 4,
                ..reply
            },
            Fault::StagedInTheHighByte => {
                let entries = moves.chunks_exact_mut(MOVE_BYTES).take(reply.moves as usize);
                entries.for_each(|entry| entry[6..].reverse());
                reply
            }
            Fault::Growth(fault) if wrong.request.is_growth() => match fault.when_done(wrong, &after, &list) {
                Some(Other::Table(after)) => again(Some(after)),
                Some(Other::Refused) => again(None),
                Some(Other::List(list)) => {
                    put_moves(&list, moves);
                    let moves = list.len() as u32;
                    Reply { moves, ..reply }
                }
                None => reply,
            },
            Fault::List(fault) => {
                let tables = Tables {
                    tree: wrong.tree,
                    before: wrong.before,
                    after: &after,
                };
                put_moves(&fault.list(tables), moves);
                reply
            }
            Fault::RestOfTheListCleared => {
                moves[reply.moves as usize * MOVE_BYTES..].fill(0);
                reply
            }
            Fault::ReleaseReportsNoNode if matches!(wrong.request, Request::Release { .. }) => {
                Reply { node: 0, ..reply }
            }
            _ => reply,
        }
    }

    /// Mistakes about records that were read.
    fn misread(&self, honest: Reading, offset: usize) -> Reading {
        let Reading::Record { record, next } = honest else {
            return honest;
        };
        let unknown = Reading::Refused {
            number: Refusal::UnknownKind.number(),
            offset,
        };
        match (self.0, record) {
            (Fault::GrowthUnknown, Record::Grow { .. }) => unknown,
            (Fault::JoinUnknown, Record::Join { .. }) => unknown,
            (Fault::AdmitReadWithABody, Record::Admit) => Reading::Record { record, next: next + 2 },
            (Fault::WithdrawalReadAsRelease, Record::Withdraw { tenant }) => Reading::Record {
                record: Record::Release { tenant },
                next,
            },
            _ => honest,
        }
    }

    /// Mistakes in what a refused call leaves behind.
    fn wrong_when_refused(&self, moves: &mut [u8], request: Request, reply: Reply) -> Reply {
        match self.0 {
            Fault::RefusalClearsTheList => moves.fill(0),
            Fault::RefusalReportsANode if reply.answer == Refusal::HoldsAlready.number() => {
                let node = 1 + request.tenant().unwrap_or(0);
                return Reply { node, ..reply };
            }
            _ => {}
        }
        reply
    }
}

impl Subject for Faulty {
    fn open(&mut self, height: u32, table: &mut [u8], line: &mut [u8]) -> u32 {
        match self.0 {
            Fault::OpeningLeavesTheTable => Oracle.open(height, &mut table.to_vec(), line),
            Fault::OpeningWantsAnOrderlyTable => {
                let mut map = [0; MAP_BYTES];
                let answer = Oracle.draw(height, table, &mut map);
                if answer == DONE {
                    Oracle.open(height, table, line)
                } else {
                    answer
                }
            }
            Fault::LongerTableTaken if table.len() > TABLE_BYTES => {
                Oracle.open(height, &mut table[..TABLE_BYTES], line)
            }
            Fault::TallerTreeTaken if height == 13 => Oracle.open(12, table, line),
            _ => Oracle.open(height, table, line),
        }
    }

    /// There is no mistake in the calls of the line.
    fn call(&mut self, lent: &mut Images, request: Request) -> Reply {
        match request {
            Request::Join { .. } | Request::Admit | Request::Withdraw { .. } => Oracle.call(lent, request),
            _ => self.plan(lent, request),
        }
    }

    fn look(&mut self, table: &[u8], tenant: u32) -> Entry {
        let entry = Oracle.look(table, tenant);
        match self.0 {
            Fault::EntryOfTheNextTenant if entry.answer == DONE && tenant < 4095 => Oracle.look(table, tenant + 1),
            Fault::EntryWithItsBytesExchanged => Entry {
                node: u32::from((entry.node as u16).swap_bytes()),
                ..entry
            },
            Fault::EntryPastTheTable if entry.answer == Refusal::Tenant.number() && tenant == 4096 => {
                Entry { answer: DONE, ..entry }
            }
            Fault::EntryOfAShortTable if table.len() == TABLE_BYTES - 2 && tenant < 4095 => {
                Oracle.look(&[table, &[0, 0]].concat(), tenant)
            }
            _ => entry,
        }
    }

    fn level_of_pages(&mut self, height: u32, pages: u32) -> Level {
        let level = Oracle.level_of_pages(height, pages);
        let told = |level| Level { answer: DONE, level };
        match self.0 {
            Fault::LevelWithoutGuardPage if level.answer == DONE && pages > 0 => {
                told(pages.next_power_of_two().ilog2())
            }
            Fault::LevelOfTheWholeReserve if height <= 12 && pages == 1 << height => told(height),
            Fault::LevelFourAtEveryHeight if height <= 12 && pages == 0 => told(4),
            Fault::LevelAboveTheTallest if height == 13 => Oracle.level_of_pages(12, pages),
            _ => level,
        }
    }

    fn node_pages(&mut self, height: u32, node: Node) -> Pages {
        let mut pages = Oracle.node_pages(height, node);
        match self.0 {
            Fault::LastPageForTheFirst if pages.answer == DONE => pages.first += pages.count - 1,
            Fault::OnePageTooMany if pages.answer == DONE => pages.count += 1,
            Fault::PagesOfNodeZero if node == 0 && height <= 12 => pages.answer = DONE,
            Fault::NodePastTheTreeTaken if height < 12 && node == 2 << height => {
                return Oracle.node_pages(height + 1, node);
            }
            _ => {}
        }
        pages
    }

    fn draw(&mut self, height: u32, table: &[u8], map: &mut [u8]) -> u32 {
        let answer = Oracle.draw(height, table, map);
        match self.0 {
            Fault::BitsFromTheTop if answer == DONE => {
                map[..MAP_BYTES].iter_mut().for_each(|byte| *byte = byte.reverse_bits());
                answer
            }
            Fault::WholeMapDrawn if answer == DONE => {
                map[MAP_BYTES..].fill(0);
                answer
            }
            Fault::AnyTableDrawn if answer == Refusal::Disorder.number() && map.len() >= MAP_BYTES => {
                map[..MAP_BYTES].fill(0);
                DONE
            }
            Fault::MapBeforeTheTable if answer == Refusal::Disorder.number() && map.len() < MAP_BYTES => {
                Refusal::TooSmall.number()
            }
            _ => answer,
        }
    }

    fn count(&mut self, map: &[u8]) -> Count {
        let count = Oracle.count(map);
        let ones = |bytes: &[u8]| bytes.iter().map(|byte| byte.count_ones()).sum();
        let pages = match self.0 {
            Fault::WholeMapCounted if count.answer == DONE => ones(map),
            Fault::LastNumberLeftOut if count.answer == DONE => ones(&map[..MAP_BYTES - 8]),
            Fault::HighBitShiftedOut if count.answer == DONE => {
                let numbers = map[..MAP_BYTES].as_chunks().0.iter().copied().map(u64::from_be_bytes);
                numbers.map(|number| (number << 1).count_ones()).sum()
            }
            Fault::ShortMapCounted if map.len() == MAP_BYTES - 1 => ones(map),
            _ => return count,
        };
        Count { answer: DONE, pages }
    }

    fn read(&mut self, journal: &[u8], offset: usize) -> Reading {
        let honest = Oracle.read(journal, offset);
        let refused = |refusal: Refusal, offset| Reading::Refused {
            number: refusal.number(),
            offset,
        };
        let is = |refusal: Refusal| matches!(honest, Reading::Refused { number, .. } if number == refusal.number());
        match self.0 {
            Fault::FirstKindBeforeLength if journal.first() != Some(&1) => refused(Refusal::NoOpening, 0),
            Fault::EndBeforeTheWholeJournal if offset >= journal.len() && !journal.is_empty() => Reading::End,
            Fault::LengthLeftOut if is(Refusal::TooLong) && offset < LONGEST => {
                Oracle.read(&journal[..LONGEST], offset)
            }
            Fault::OpenAgainBeforeCutShort if is(Refusal::CutShort) && offset > 0 && journal[offset] == 1 => {
                refused(Refusal::OpenAgain, offset)
            }
            Fault::CutShortBeforeUnknownKind if is(Refusal::UnknownKind) && offset + 1 == journal.len() => {
                refused(Refusal::CutShort, offset)
            }
            Fault::RefusalAtTheWrongOffset if is(Refusal::CutShort) => refused(Refusal::CutShort, journal.len()),
            Fault::OneOffsetMisread if offset == 43_210 => Oracle.read(journal, offset + 1),
            Fault::KindsBetweenTaken if is(Refusal::UnknownKind) && matches!(journal[offset], 6..=8) => {
                let record = Record::Admit;
                Reading::Record {
                    record,
                    next: offset + 1,
                }
            }
            _ => self.misread(honest, offset),
        }
    }

    fn write(&mut self, record: &Record, lent: &mut [u8]) -> u32 {
        let answer = Oracle.write(record, lent);
        match (self.0, record) {
            (Fault::HighByteFirst, Record::Release { .. }) if answer == DONE => lent[1..3].reverse(),
            (Fault::PartlyWritten, _) if answer != DONE && !lent.is_empty() => lent[0] = record.bytes()[0],
            (Fault::RestOfTheBytesCleared, _) if answer == DONE => lent[record.bytes().len()..].fill(0),
            (Fault::BytesFarBehindCleared, _) if lent.len() > 5_000 => lent[5_000..].fill(0),
            (Fault::GrowthWrittenWithoutItsLevel, Record::Grow { .. }) if answer == DONE => lent[3] = 0,
            (Fault::JoinWrittenAsGrant, Record::Join { .. }) if answer == DONE => lent[0] = 2,
            _ => {}
        }
        answer
    }

    fn list(&mut self, journal: &[u8]) -> Vec<u8> {
        let honest = String::from_utf8(Oracle.list(journal)).expect("a listing is plain text");
        let answer_of = |line: &str| line.split(' ').nth(4).unwrap_or("0").to_string();
        let lines = honest.split_inclusive('\n');
        let wrong: String = match self.0 {
            Fault::LineForTheRefusedOpening if honest == "! 0 1\n" => format!("1 O {} - 1 - 0\n{honest}", journal[1]),
            Fault::RefusedCallsLeftOut => lines.filter(|line| answer_of(line) == "0").collect(),
            Fault::ZeroForNoNode => honest.replace(" - 0\n", " 0 0\n"),
            Fault::NothingBeforeAnEarlyEnd if honest.contains('!') => {
                lines.filter(|line| line.starts_with('!')).collect()
            }
            Fault::StagedListedAsDirect => honest.replace('=', ">"),
            Fault::GrowthListedAsGrant => honest.replace(" Z ", " G "),
            Fault::GrowthListedWithoutItsLevel => lines.map(without_the_level).collect(),
            Fault::FourEntriesLentToGrow => lines.map(refused_for_its_list).collect(),
            Fault::NobodyListedWithoutNode => honest.replace(" A - - 0 0 0\n", " A - - 0 - 0\n"),
            Fault::AdmitListedWithItsLevel => lines.map(with_a_level).collect(),
            Fault::JoinListedWithANode => lines.map(with_node_0).collect(),
            Fault::WithdrawalListedAsRelease => honest.replace(" X ", " R "),
            _ => honest,
        };
        wrong.into_bytes()
    }
}

/// A line about a growth with a hyphen for its level.
fn without_the_level(line: &str) -> String {
    let mut fields: Vec<&str> = line.split(' ').collect();
    if fields.get(1) == Some(&"Z") {
        fields[3] = "-";
    }
    fields.join(" ")
}

/// A line about an admit with a level instead of the hyphen.
fn with_a_level(line: &str) -> String {
    let mut fields: Vec<&str> = line.split(' ').collect();
    if fields.get(1) == Some(&"A") && fields[2] != "-" {
        fields[3] = "0";
    }
    fields.join(" ")
}

/// A line about a join that was accepted, with 0 as its node.
fn with_node_0(line: &str) -> String {
    let mut fields: Vec<&str> = line.split(' ').collect();
    if fields.get(1) == Some(&"W") && fields[4] == "0" {
        fields[5] = "0";
    }
    fields.join(" ")
}

/// A line about a growth that was lent too short a list.
fn refused_for_its_list(line: &str) -> String {
    let fields: Vec<&str> = line.split(' ').collect();
    match fields[..] {
        [ordinal, "Z", tenant, level, ..] => format!("{ordinal} Z {tenant} {level} 3 - 0\n"),
        _ => line.to_string(),
    }
}

/// A planner that goes wrong only in one rare situation: a grant of a size of which just two blocks are held, unless it is
/// repeated.
pub struct ThirdOfItsSize;

impl Subject for ThirdOfItsSize {
    fn open(&mut self, height: u32, table: &mut [u8], line: &mut [u8]) -> u32 {
        Oracle.open(height, table, line)
    }

    fn call(&mut self, lent: &mut Images, request: Request) -> Reply {
        let before = table_from(lent.table);
        let reply = Oracle.call(lent, request);
        if !request.is_grant() || reply.answer != DONE || table_from(lent.table) == before {
            return reply;
        }
        let tree = Tree::new(lent.height);
        let level = level_wanted(tree, request);
        let same_size = |&&node: &&Node| node != 0 && Some(tree.level(node)) == level;
        match before.iter().filter(same_size).count() {
            2 => Reply {
                node: reply.node ^ 1,
                ..reply
            },
            _ => reply,
        }
    }

    fn node_pages(&mut self, height: u32, node: Node) -> Pages {
        Oracle.node_pages(height, node)
    }

    fn draw(&mut self, height: u32, table: &[u8], map: &mut [u8]) -> u32 {
        Oracle.draw(height, table, map)
    }

    as_the_oracle!();
}

/// A planner without mistakes whose door takes heights and levels of 8 bits and tenants and pages of 16.
pub struct Narrow;

fn eight_bits(number: u32) -> u32 {
    u8::try_from(number).expect("a number of 8 bits").into()
}

impl Subject for Narrow {
    fn reach(&self) -> Reach {
        Reach {
            height: u8::MAX.into(),
            tenant: u16::MAX.into(),
            level: u8::MAX.into(),
            pages: u16::MAX.into(),
        }
    }

    fn open(&mut self, height: u32, table: &mut [u8], line: &mut [u8]) -> u32 {
        Oracle.open(eight_bits(height), table, line)
    }

    fn call(&mut self, lent: &mut Images, request: Request) -> Reply {
        let reach = self.reach();
        assert!(lent.height <= reach.height);
        assert!(request.tenant().is_none_or(|tenant| tenant <= reach.tenant));
        assert!(request.level().is_none_or(|level| level <= reach.level));
        assert!(!matches!(request, Request::GrantPages { pages, .. } if pages > reach.pages));
        Oracle.call(lent, request)
    }

    fn node_pages(&mut self, height: u32, node: Node) -> Pages {
        Oracle.node_pages(eight_bits(height), node)
    }

    fn draw(&mut self, height: u32, table: &[u8], map: &mut [u8]) -> u32 {
        Oracle.draw(eight_bits(height), table, map)
    }

    as_the_oracle!();
}
