//! Planners that are right but for one mistake each in what they do with the line.

use std::cmp::Reverse;
use std::collections::BTreeMap;

use oracle::audit::is_in_order;
use oracle::book::level_wanted;
use oracle::definitions::{Node, Tree};
use oracle::journal::{Reading, Record};
use oracle::line::{self, bars, pass, place_of, Waiting, MOST_PASSED, MOST_WAITING};
use oracle::planner::Request;
use oracle::refusal::{Refusal, DONE};
use oracle::subject::{
    fewest_move_bytes, line_from, line_image, table_from, Count, Entry, Images, Level, Oracle, Pages, Reply, Subject,
    LINE_BYTES, NOBODY,
};

use super::growths::pages_held;
use super::{refused, right_reply};

/// The one mistake.
#[derive(Clone, Copy, Debug, PartialEq, Eq)]
pub enum WaitingFault {
    // Whom an admit grants a block.
    YoungestFirst,
    LargestFirst,
    SmallestFirst,
    OldestAlone,
    BarOverlooked,
    EightBarsItself,
    // Whom it names.
    NobodyIsTenantZero,
    NobodyIsNamed,
    NobodyIsRefused,
    // What becomes of the line.
    AdmitCountsNothing,
    AdmitPassesThoseBehind,
    AdmittedStayInLine,
    DirectGrantCountsNothing,
    RepeatedGrantCounts,
    WithdrawalCounts,
    CountSurvivesWithdrawal,
    JoinsInFront,
    NumbersStayBehind,
    OpeningLeavesTheLine,
    // Who is turned down, and why.
    DirectGrantPassesEight,
    WaitingAreGranted,
    NoRoomBeforeWaiting,
    RoomCheckedForJoins,
    HolderJoins,
    RefusedJoinWrites,
    FullBeforeWaiting,
    FullWithSixtyThree,
    AnybodyWithdraws,
    // What is judged before, and what is not.
    WaitingBeforeTheLine,
    ListBeforeTheLine,
    LongerLineTaken,
    Overlooked(Wrong),
}

/// What can be wrong with a line.
#[derive(Clone, Copy, Debug, PartialEq, Eq)]
pub enum Wrong {
    TooMany,
    NumberBehind,
    PassedTooOften,
    LevelAbove,
    TenantAbove,
    TenantTwice,
    HolderWaits,
}

impl WaitingFault {
    pub const CHOICES: [WaitingFault; 9] = [
        WaitingFault::YoungestFirst,
        WaitingFault::LargestFirst,
        WaitingFault::SmallestFirst,
        WaitingFault::OldestAlone,
        WaitingFault::BarOverlooked,
        WaitingFault::EightBarsItself,
        WaitingFault::NobodyIsTenantZero,
        WaitingFault::NobodyIsNamed,
        WaitingFault::NobodyIsRefused,
    ];
    pub const LINES_LEFT: [WaitingFault; 8] = [
        WaitingFault::AdmitCountsNothing,
        WaitingFault::AdmitPassesThoseBehind,
        WaitingFault::AdmittedStayInLine,
        WaitingFault::DirectGrantCountsNothing,
        WaitingFault::RepeatedGrantCounts,
        WaitingFault::WithdrawalCounts,
        WaitingFault::JoinsInFront,
        WaitingFault::NumbersStayBehind,
    ];
    pub const REFUSALS: [WaitingFault; 7] = [
        WaitingFault::DirectGrantPassesEight,
        WaitingFault::WaitingAreGranted,
        WaitingFault::NoRoomBeforeWaiting,
        WaitingFault::RoomCheckedForJoins,
        WaitingFault::HolderJoins,
        WaitingFault::RefusedJoinWrites,
        WaitingFault::AnybodyWithdraws,
    ];
    /// Those that show when many wait, or after other calls.
    pub const IN_HISTORIES: [WaitingFault; 4] = [
        WaitingFault::CountSurvivesWithdrawal,
        WaitingFault::FullBeforeWaiting,
        WaitingFault::FullWithSixtyThree,
        WaitingFault::OpeningLeavesTheLine,
    ];
    /// Those that a large image suffers from, or gains by.
    pub const OF_LARGE_IMAGES: [WaitingFault; 6] = [
        WaitingFault::OldestAlone,
        WaitingFault::BarOverlooked,
        WaitingFault::EightBarsItself,
        WaitingFault::AdmitCountsNothing,
        WaitingFault::DirectGrantCountsNothing,
        WaitingFault::DirectGrantPassesEight,
    ];
    pub const ORDERS: [WaitingFault; 3] = [
        WaitingFault::WaitingBeforeTheLine,
        WaitingFault::ListBeforeTheLine,
        WaitingFault::FullBeforeWaiting,
    ];
    pub const LENGTHS: [WaitingFault; 2] = [WaitingFault::LongerLineTaken, WaitingFault::OpeningLeavesTheLine];
    pub const OVERLOOKED: [WaitingFault; 7] = [
        WaitingFault::Overlooked(Wrong::TooMany),
        WaitingFault::Overlooked(Wrong::NumberBehind),
        WaitingFault::Overlooked(Wrong::PassedTooOften),
        WaitingFault::Overlooked(Wrong::LevelAbove),
        WaitingFault::Overlooked(Wrong::TenantAbove),
        WaitingFault::Overlooked(Wrong::TenantTwice),
        WaitingFault::Overlooked(Wrong::HolderWaits),
    ];
}

/// A planner with one mistake.
pub struct Impatient {
    fault: WaitingFault,
    /// How often those had been passed who have withdrawn.
    withdrawn: BTreeMap<u16, u32>,
}

/// A call on a table and a line that are in order.
struct Case {
    tree: Tree,
    table: Vec<Node>,
    line: Vec<Waiting>,
    request: Request,
}

impl Case {
    fn of(lent: &Images, request: Request) -> Self {
        let tree = Tree::new(lent.height);
        let table = table_from(lent.table);
        let line = line::read(tree, &table, &line_from(lent.line)).unwrap_or_default();
        Case {
            tree,
            table,
            line,
            request,
        }
    }

    fn fits(&self, level: u32) -> bool {
        pages_held(self.tree, &self.table) + (1 << level) <= self.tree.pages_in_all()
    }

    fn has_no_room(&self) -> bool {
        level_wanted(self.tree, self.request)
            .or(self.request.level())
            .is_some_and(|level| !self.fits(level))
    }

    /// The places of those who fit, up to the first that bars the others.
    fn candidates(&self) -> Vec<usize> {
        let fit = |&place: &usize| self.fits(self.line[place].level) && !bars(&self.line[..place]);
        (0..self.line.len()).filter(fit).collect()
    }

    fn level_at(&self, place: usize) -> u32 {
        self.line[place].level
    }
}

fn write(lent: &mut Images, line: &[Waiting]) {
    lent.line.copy_from_slice(&line_image(&line::numbers(line)));
}

/// Counts a grant for these, as far as a count goes.
fn pass_up_to_eight(line: &mut [Waiting]) {
    pass(line);
    line.iter_mut()
        .for_each(|waiting| waiting.passed = waiting.passed.min(MOST_PASSED));
}

impl Impatient {
    pub fn new(fault: WaitingFault) -> Self {
        Impatient {
            fault,
            withdrawn: BTreeMap::new(),
        }
    }

    fn plan(&mut self, lent: &mut Images, request: Request) -> Reply {
        let due = right_reply(lent, request);
        let disorder = Refusal::Disorder.number();
        let instead = match due.answer {
            DONE => self.when_accepted(lent, request),
            answer if answer < disorder => self.when_unfit(lent, request, due),
            answer if answer == disorder => self.when_spoilt(lent, request),
            _ => self.when_refused(lent, request, due),
        };
        match instead {
            Some(reply) => reply,
            None if due.answer == DONE => self.with_another_line(lent, request),
            None => due,
        }
    }

    /// Mistakes about the length of the line.
    fn when_unfit(&self, lent: &mut Images, request: Request, due: Reply) -> Option<Reply> {
        let length_is_due = due.answer == Refusal::Length.number();
        let list_is_short = lent.moves.len() < fewest_move_bytes(request);
        match self.fault {
            WaitingFault::ListBeforeTheLine if length_is_due && list_is_short && lent.line.len() != LINE_BYTES => {
                Some(refused(Refusal::MoveEntries))
            }
            WaitingFault::LongerLineTaken if length_is_due && lent.line.len() > LINE_BYTES => {
                let mut cut = lent.lent_on();
                cut.line = &mut cut.line[..LINE_BYTES];
                Some(Oracle.call(&mut cut, request))
            }
            _ => None,
        }
    }

    /// Mistakes about what a line may have in it.
    fn when_spoilt(&self, lent: &Images, request: Request) -> Option<Reply> {
        let (table, line) = (table_from(lent.table), line_from(lent.line));
        let tree = Tree::new(lent.height);
        let waits = request
            .tenant()
            .is_some_and(|tenant| line[1..].iter().step_by(3).any(|&other| u32::from(other) == tenant));
        match self.fault {
            WaitingFault::WaitingBeforeTheLine if waits && (request.is_grant() || request.level().is_some()) => {
                Some(refused(Refusal::Waits))
            }
            WaitingFault::Overlooked(wrong)
                if is_in_order(tree, &table) && all_wrong(tree, &table, &line) == [wrong] =>
            {
                Some(Reply::number(DONE))
            }
            _ => None,
        }
    }

    /// Mistakes about who is turned down.
    fn when_refused(&self, lent: &mut Images, request: Request, due: Reply) -> Option<Reply> {
        let case = Case::of(lent, request);
        let is_due = |refusal: Refusal| due.answer == refusal.number();
        let tenant = request.tenant()? as u16;
        match self.fault {
            WaitingFault::DirectGrantPassesEight if is_due(Refusal::NoRoom) && !case.has_no_room() => {
                let mut line = case.line;
                pass_up_to_eight(&mut line);
                Some(granted_beside(lent, request, &line))
            }
            WaitingFault::WaitingAreGranted if is_due(Refusal::Waits) && request.is_grant() => {
                let mut line = case.line;
                line.remove(place_of(&line, tenant)?);
                pass_up_to_eight(&mut line);
                Some(granted_beside(lent, request, &line))
            }
            WaitingFault::NoRoomBeforeWaiting if is_due(Refusal::Waits) && request.is_grant() => {
                (bars(&case.line) || case.has_no_room()).then_some(refused(Refusal::NoRoom))
            }
            WaitingFault::HolderJoins if is_due(Refusal::HoldsAlready) && case.line.len() < MOST_WAITING => {
                let mut line = case.line;
                line.push(Waiting {
                    tenant,
                    level: request.level()?,
                    passed: 0,
                });
                write(lent, &line);
                Some(Reply::number(DONE))
            }
            WaitingFault::RefusedJoinWrites if is_due(Refusal::Waits) => {
                let mut line = case.line;
                let place = place_of(&line, tenant)?;
                line[place].level = request.level()?;
                write(lent, &line);
                Some(due)
            }
            WaitingFault::FullBeforeWaiting if is_due(Refusal::Waits) => {
                let is_full = case.line.len() == MOST_WAITING && !request.is_grant();
                is_full.then_some(refused(Refusal::LineFull))
            }
            WaitingFault::AnybodyWithdraws if matches!(request, Request::Withdraw { .. }) => Some(Reply::number(DONE)),
            _ => None,
        }
    }

    /// Mistakes about what an accepted call does or says at all.
    fn when_accepted(&self, lent: &mut Images, request: Request) -> Option<Reply> {
        let case = Case::of(lent, request);
        match request {
            Request::Admit => self.admit(lent, &case),
            Request::Join { .. } => match self.fault {
                WaitingFault::RoomCheckedForJoins => case.has_no_room().then_some(refused(Refusal::NoRoom)),
                WaitingFault::FullWithSixtyThree => {
                    (case.line.len() == MOST_WAITING - 1).then_some(refused(Refusal::LineFull))
                }
                _ => None,
            },
            _ => None,
        }
    }

    fn admit(&self, lent: &mut Images, case: &Case) -> Option<Reply> {
        let candidates = case.candidates();
        let chosen = match self.fault {
            WaitingFault::YoungestFirst => candidates.last(),
            WaitingFault::LargestFirst => candidates
                .iter()
                .min_by_key(|&&place| (Reverse(case.level_at(place)), place)),
            WaitingFault::SmallestFirst => candidates.iter().min_by_key(|&&place| (case.level_at(place), place)),
            WaitingFault::OldestAlone => candidates.first().filter(|&&place| place == 0),
            WaitingFault::EightBarsItself => candidates
                .first()
                .filter(|&&place| case.line[place].passed < MOST_PASSED),
            WaitingFault::BarOverlooked => {
                let first = (0..case.line.len()).find(|&place| case.fits(case.level_at(place)));
                return Some(admit_at(lent, case, first));
            }
            WaitingFault::NobodyIsTenantZero if candidates.is_empty() => {
                return Some(Reply {
                    tenant: 0,
                    ..Reply::number(DONE)
                });
            }
            WaitingFault::NobodyIsRefused if candidates.is_empty() => return Some(refused(Refusal::NoRoom)),
            WaitingFault::NobodyIsNamed => {
                let tenant = NOBODY;
                return Some(Reply {
                    tenant,
                    ..Oracle.call(lent, Request::Admit)
                });
            }
            _ => return None,
        };
        Some(admit_at(lent, case, chosen.copied()))
    }

    /// Carries out an accepted call, and leaves another line than it should.
    fn with_another_line(&mut self, lent: &mut Images, request: Request) -> Reply {
        let case = Case::of(lent, request);
        let reply = Oracle.call(lent, request);
        if self.fault == WaitingFault::NumbersStayBehind {
            let after = line_from(lent.line);
            let mut numbers = line::numbers(&case.line);
            let end = 1 + 3 * usize::from(after[0]);
            numbers[..end].copy_from_slice(&after[..end]);
            lent.line.copy_from_slice(&line_image(&numbers));
        } else if let Some(line) = self.other_line(&case, lent, reply) {
            write(lent, &line);
        }
        reply
    }

    /// The line that is left instead of the right one.
    fn other_line(&mut self, case: &Case, lent: &Images, reply: Reply) -> Option<Vec<Waiting>> {
        let mut line = Case::of(lent, case.request).line;
        let admitted = reply.admitted().and_then(|tenant| place_of(&case.line, tenant as u16));
        let is_repeated = case.request.is_grant() && table_from(lent.table) == case.table;
        match (self.fault, case.request) {
            (WaitingFault::AdmitCountsNothing, _) => {
                line = case.line.clone();
                line.remove(admitted?);
            }
            (WaitingFault::AdmitPassesThoseBehind, _) => pass_up_to_eight(&mut line[admitted?..]),
            (WaitingFault::AdmittedStayInLine, _) => line.insert(admitted?, case.line[admitted?]),
            (WaitingFault::DirectGrantCountsNothing, _) if case.request.is_grant() => line = case.line.clone(),
            (WaitingFault::RepeatedGrantCounts, _) if is_repeated => pass_up_to_eight(&mut line),
            (WaitingFault::WithdrawalCounts, Request::Withdraw { .. }) => pass_up_to_eight(&mut line),
            (WaitingFault::CountSurvivesWithdrawal, Request::Withdraw { tenant }) => {
                let place = place_of(&case.line, tenant as u16)?;
                self.withdrawn.insert(tenant as u16, case.line[place].passed);
            }
            (WaitingFault::CountSurvivesWithdrawal, Request::Join { tenant, .. }) => {
                line.last_mut()?.passed = self.withdrawn.remove(&(tenant as u16))?;
            }
            (WaitingFault::JoinsInFront, Request::Join { .. }) => line.rotate_right(1),
            _ => return None,
        }
        Some(line)
    }
}

/// A direct grant as if nobody waited, after which these do.
fn granted_beside(lent: &mut Images, request: Request, line: &[Waiting]) -> Reply {
    let mut without_line = Images {
        line: &mut line_image(&line::EMPTY),
        ..lent.lent_on()
    };
    let reply = Oracle.call(&mut without_line, request);
    if reply.answer == DONE {
        write(lent, line);
    }
    reply
}

/// Admits whoever stands at a place, or nobody.
fn admit_at(lent: &mut Images, case: &Case, place: Option<usize>) -> Reply {
    let Some(place) = place else {
        return Reply::number(DONE);
    };
    let mut line = case.line.clone();
    let alone = line.remove(place);
    pass_up_to_eight(&mut line[..place]);
    let mut alone_in_line = Images {
        line: &mut line_image(&line::numbers(&[alone])),
        ..lent.lent_on()
    };
    let reply = Oracle.call(&mut alone_in_line, Request::Admit);
    write(lent, &line);
    reply
}

/// All that is wrong with a line.
fn all_wrong(tree: Tree, table: &[Node], line: &[u16]) -> Vec<Wrong> {
    let waiting = usize::from(line[0]);
    if waiting > MOST_WAITING {
        return vec![Wrong::TooMany];
    }
    let (triples, behind) = line[1..].split_at(3 * waiting);
    let triples: &[[u16; 3]] = triples.as_chunks().0;
    let tenants: Vec<u16> = triples.iter().map(|&[tenant, _, _]| tenant).collect();
    let holds = |&tenant: &u16| table.get(usize::from(tenant)).is_some_and(|&node| node != 0);
    let is_twice = |&tenant: &u16| tenants.iter().filter(|&&other| other == tenant).count() > 1;
    let conditions = [
        (Wrong::NumberBehind, behind.iter().any(|&number| number != 0)),
        (
            Wrong::PassedTooOften,
            triples.iter().any(|&[_, _, passed]| u32::from(passed) > MOST_PASSED),
        ),
        (
            Wrong::LevelAbove,
            triples.iter().any(|&[_, level, _]| u32::from(level) > tree.height()),
        ),
        (
            Wrong::TenantAbove,
            tenants.iter().any(|&tenant| usize::from(tenant) >= table.len()),
        ),
        (Wrong::TenantTwice, tenants.iter().any(is_twice)),
        (Wrong::HolderWaits, tenants.iter().any(holds)),
    ];
    conditions
        .into_iter()
        .filter(|&(_, is_so)| is_so)
        .map(|(wrong, _)| wrong)
        .collect()
}

impl Subject for Impatient {
    fn open(&mut self, height: u32, table: &mut [u8], line: &mut [u8]) -> u32 {
        match self.fault {
            WaitingFault::OpeningLeavesTheLine => Oracle.open(height, table, &mut line.to_vec()),
            WaitingFault::LongerLineTaken if line.len() > LINE_BYTES => {
                Oracle.open(height, table, &mut line[..LINE_BYTES])
            }
            _ => Oracle.open(height, table, line),
        }
    }

    fn call(&mut self, lent: &mut Images, request: Request) -> Reply {
        if request.takes_line() {
            self.plan(lent, request)
        } else {
            Oracle.call(lent, request)
        }
    }

    fn node_pages(&mut self, height: u32, node: Node) -> Pages {
        Oracle.node_pages(height, node)
    }

    fn draw(&mut self, height: u32, table: &[u8], map: &mut [u8]) -> u32 {
        Oracle.draw(height, table, map)
    }

    as_the_oracle!();
}
