//! A large image that waits while small ones come and go.

use std::vec;

use crate::compare::calls::Run;
use crate::compare::Amounts;
use crate::definitions::{Counts, Tree, TALLEST};
use crate::generate::{Call, History, Start};
use crate::line::MOST_PASSED;
use crate::planner::Request;
use crate::random::Random;
use crate::refusal::DONE;
use crate::subject::{Reply, Subject};

/// Small blocks are so many levels lower than the reserve, or fewer.
const MOST_LEVELS_LOWER: u32 = 4;

/// How small images get a block.
#[derive(Clone, Copy, Debug)]
enum Entrance {
    /// By grants of their own.
    Direct,
    /// From the line, in which they stand behind the large one.
    Behind,
    /// Now so, now so.
    Either,
}

/// On full reserves of all heights, for all sizes of small and large blocks: whoever waits for a large one is passed eight times,
/// and then all room is left to it until it has enough.
pub fn large_images(subject: &mut dyn Subject, _: &Amounts, random: &mut Random) -> Result<usize, String> {
    let mut comparisons = 0;
    for tree in (1..=TALLEST).map(Tree::new) {
        let height = tree.height();
        for small in height.saturating_sub(MOST_LEVELS_LOWER)..height {
            for large in small + 1..=height {
                for entrance in [Entrance::Direct, Entrance::Behind, Entrance::Either] {
                    let mut wait = Wait::begin(subject, random, tree, small, large)?;
                    wait.until_admitted(subject, random, entrance).map_err(|finding| {
                        format!("  height {height}, small {small}, large {large}, {entrance:?}: {finding}")
                    })?;
                    comparisons += wait.calls;
                }
            }
        }
    }
    Ok(comparisons)
}

/// A large image at a reserve that small ones fill.
struct Wait {
    run: Run,
    small: u32,
    large: u32,
    /// Tenants that have not come yet.
    outside: vec::IntoIter<u16>,
    calls: usize,
}

impl Wait {
    fn begin(
        subject: &mut dyn Subject,
        random: &mut Random,
        tree: Tree,
        small: u32,
        large: u32,
    ) -> Result<Self, String> {
        let mut counts = Counts::default();
        counts[small as usize] = tree.pages_in_all() >> small;
        let start = Start::draw(random, tree, &counts, 0);
        let mut outside = start.others();
        random.shuffle(&mut outside);
        let history = History {
            height: tree.height(),
            start: Some(start),
            calls: Vec::new(),
        };
        Ok(Wait {
            run: Run::begin(subject, &history)?,
            small,
            large,
            outside: outside.into_iter(),
            calls: 0,
        })
    }

    fn next_outside(&mut self) -> u32 {
        let next = self.outside.next();
        next.expect("a tenant without a block").into()
    }

    fn ask(&mut self, subject: &mut dyn Subject, request: Request) -> Result<Reply, String> {
        self.calls += 1;
        let reply = self.run.step(subject, &Call::with_shortest_list(request));
        reply.map_err(|finding| format!("call {}, {request:?}: {finding}", self.calls))
    }

    /// The large image joins the line. Small ones leave one after the other, and until there is room for the large one another
    /// comes after each, if it is let in. Eight are.
    fn until_admitted(
        &mut self,
        subject: &mut dyn Subject,
        random: &mut Random,
        entrance: Entrance,
    ) -> Result<(), String> {
        let (waiting, level) = (self.next_outside(), self.large);
        let tenant = waiting;
        self.ask(subject, Request::Join { tenant, level })?;
        let mut came = 0;
        loop {
            let tenant = random.pick(&self.run.book.holders());
            self.ask(subject, Request::Release { tenant })?;
            if 1 << self.large <= self.run.book.room() {
                break;
            }
            let is_let_in = match entrance {
                Entrance::Direct => self.comes_by_itself(subject)?,
                Entrance::Behind => self.comes_from_behind(subject)?,
                Entrance::Either if random.one_in(2) => self.comes_by_itself(subject)?,
                Entrance::Either => self.comes_from_behind(subject)?,
            };
            ensure!(
                is_let_in == (came < MOST_PASSED),
                "after {came} that came before the large one the next is let in: {is_let_in}"
            );
            came += u32::from(is_let_in);
        }
        ensure!(came == MOST_PASSED, "{came} came before the large one");
        let admitted = self.ask(subject, Request::Admit)?.admitted();
        ensure!(
            admitted == Some(waiting),
            "{admitted:?} is admitted, and there is room for tenant {waiting}"
        );
        Ok(())
    }

    /// Whether a small image gets a block by a grant of its own.
    fn comes_by_itself(&mut self, subject: &mut dyn Subject) -> Result<bool, String> {
        let (tenant, level) = (self.next_outside(), self.small);
        let reply = self.ask(subject, Request::GrantLevel { tenant, level })?;
        Ok(reply.answer == DONE)
    }

    /// Whether a small image gets a block from the line.
    fn comes_from_behind(&mut self, subject: &mut dyn Subject) -> Result<bool, String> {
        let (tenant, level) = (self.next_outside(), self.small);
        self.ask(subject, Request::Join { tenant, level })?;
        let reply = self.ask(subject, Request::Admit)?;
        Ok(reply.admitted().is_some())
    }
}
