//! Calls thought up one after the other.

use super::{pages_for, Call, Step};
use crate::book::{level_wanted, Book, Told};
use crate::planner::{Request, TENANTS};
use crate::random::Random;
use crate::refusal::{Refusal, DONE};
use crate::subject::{fewest_move_bytes, Reach, MOVE_BYTES};

/// What a reserve is going through.
#[derive(Clone, Copy, Debug)]
enum Mood {
    Filling,
    Draining,
    /// As full as it gets, with somebody leaving whenever nothing is left.
    Full,
}

/// Somebody who thinks up calls, with a book at hand to know what is worth asking.
pub struct Author<'a> {
    random: &'a mut Random,
    reach: Reach,
    book: Book,
    /// Tenants are drawn below this number; in a small crowd the same ones come back all the time.
    crowd: u32,
    mood: Mood,
    /// One in so many requests is about the line, those left aside that follow from others.
    about_the_line: u32,
    /// What comes next because of what came before.
    next_up: Option<Request>,
}

impl<'a> Author<'a> {
    pub fn new(random: &'a mut Random, reach: Reach, book: Book) -> Self {
        let crowd = random.pick(&[6, 40, TENANTS as u32]);
        Author {
            random,
            reach,
            book,
            crowd,
            mood: Mood::Filling,
            about_the_line: 17,
            next_up: None,
        }
    }

    /// The same with an eye to the line.
    pub fn beside_a_line(random: &'a mut Random, reach: Reach, book: Book) -> Self {
        Author {
            about_the_line: 2,
            ..Author::new(random, reach, book)
        }
    }

    pub fn into_book(self) -> Book {
        self.book
    }

    /// The next call, with its answer entered.
    pub fn call(&mut self) -> Call {
        let request = self.request();
        let move_bytes = self.move_bytes(fewest_move_bytes(request));
        self.enter(request, move_bytes / MOVE_BYTES);
        Call { request, move_bytes }
    }

    pub fn calls(&mut self, number: usize) -> Vec<Call> {
        (0..number).map(|_| self.call()).collect()
    }

    /// The length of a list that is mostly long enough; nothing where no list is lent.
    fn move_bytes(&mut self, enough: usize) -> usize {
        if enough == 0 {
            0
        } else if self.random.one_in(25) {
            self.random.pick(&[0, 1, MOVE_BYTES, enough - MOVE_BYTES, enough - 1])
        } else {
            self.random
                .pick(&[enough, enough, enough, enough + 1, enough + MOVE_BYTES, 2 * enough])
        }
    }

    /// The next request of a journal, where lists suffice, and its answer, which is entered.
    pub(super) fn answered(&mut self) -> (Request, u32) {
        let request = self.request();
        let told = self.enter(request, request.fewest_entries());
        (request, told.answer)
    }

    /// Enters a request with what it has to tell, and thinks of what comes of it.
    fn enter(&mut self, request: Request, entries: usize) -> Told {
        let told = self.book.due(request, entries);
        self.book.enter(request, told);
        if self.next_up.is_none() {
            self.next_up = self.consequence(request, told);
        }
        told
    }

    /// Whoever finds no room may wait. When somebody has left its pages or the line, those in line are often admitted until nobody
    /// gets in.
    fn consequence(&mut self, request: Request, told: Told) -> Option<Request> {
        let is_done = told.answer == DONE;
        match request {
            Request::GrantLevel { tenant, .. } | Request::GrantPages { tenant, .. } => {
                let level = level_wanted(self.book.tree(), request)?;
                let joins = told.answer == Refusal::NoRoom.number() && self.random.one_in(2);
                joins.then_some(Request::Join { tenant, level })
            }
            Request::Release { .. } | Request::Grow { .. } | Request::Withdraw { .. } => {
                let somebody_waits = !self.book.waiting().is_empty();
                (is_done && somebody_waits && self.random.one_in(2)).then_some(Request::Admit)
            }
            Request::Admit => (told.admitted.is_some() && !self.random.one_in(5)).then_some(Request::Admit),
            Request::Join { .. } => None,
        }
    }

    /// The next request of a journal. A grant is repeated as it is and, if it was accepted, by its level and by pages as well.
    pub(super) fn step(&mut self) -> Step {
        let (request, answer) = self.answered();
        let mut again = Vec::new();
        if request.is_grant() {
            again.push(request);
            if answer == DONE {
                again.extend(self.in_other_words(request));
            }
        }
        Step { request, again }
    }

    /// Grants of the level that a grant asks for: by that level, and by a number of pages that gets it, if there is one.
    fn in_other_words(&mut self, grant: Request) -> Vec<Request> {
        let tree = self.book.tree();
        let tenant = grant.tenant().expect("a grant has a tenant");
        let level = level_wanted(tree, grant).expect("a grant has a level");
        let mut words = vec![Request::GrantLevel { tenant, level }];
        let sizes = pages_for(tree, level);
        if let (Some(&least), Some(&most)) = (sizes.first(), sizes.last()) {
            let any = self.random.pick(&sizes);
            let pages = self.random.pick(&[least, most, any]);
            words.push(Request::GrantPages { tenant, pages });
        }
        words
    }

    fn request(&mut self) -> Request {
        if self.random.one_in(20) {
            self.mood = self.random.pick(&[Mood::Filling, Mood::Draining, Mood::Full]);
        }
        if let Some(request) = self.next_up.take() {
            return request;
        }
        if self.random.one_in(self.about_the_line) {
            return self.request_of_the_line();
        }
        match self.random.below(16) {
            0 => self.unfit_request(),
            1 => self.change_of_level(),
            2..=4 => self.growth(),
            5 => self.second_grant(),
            _ => self.everyday_request(),
        }
    }

    fn everyday_request(&mut self) -> Request {
        let grants = match self.mood {
            Mood::Filling => !self.random.one_in(5),
            Mood::Draining => self.random.one_in(5),
            Mood::Full => self.book.room() > 0 || self.random.one_in(4),
        };
        if grants {
            let tenant = self.tenant_to_grant();
            let level = self.level_to_grant();
            self.grant(tenant, level)
        } else {
            let tenant = self.tenant_to_release();
            Request::Release { tenant }
        }
    }

    /// A release whose tenant comes back at once with another size.
    fn change_of_level(&mut self) -> Request {
        let tenant = self.tenant_to_release();
        let level = self.level_to_grant();
        self.next_up = Some(self.grant(tenant, level));
        Request::Release { tenant }
    }

    /// A growth up, down or to the same level.
    fn growth(&mut self) -> Request {
        let tenant = self.tenant_to_release();
        let level = match self.book.level_of(tenant) {
            Some(level) if self.random.one_in(6) => level,
            _ => self.level_for(self.book.room_for(tenant)),
        };
        Request::Grow { tenant, level }
    }

    /// A place in line for somebody who has none, or has one, or holds a block; an admit; or a place given up.
    fn request_of_the_line(&mut self) -> Request {
        let level = self.level_to_grant();
        match self.random.below(7) {
            0 | 1 => Request::Join {
                tenant: self.tenant_to_grant(),
                level,
            },
            2 => Request::Join {
                tenant: self.tenant_in_line(),
                level,
            },
            3 => Request::Join {
                tenant: self.tenant_to_release(),
                level,
            },
            4 => Request::Admit,
            _ => Request::Withdraw {
                tenant: self.tenant_in_line(),
            },
        }
    }

    /// A grant to somebody who holds a block: mostly of its level, as when a start is repeated. Now and then it waits for one.
    fn second_grant(&mut self) -> Request {
        let tenant = if self.random.one_in(4) {
            self.tenant_in_line()
        } else {
            self.tenant_to_release()
        };
        let level = match self.book.level_of(tenant) {
            Some(level) if !self.random.one_in(4) => level,
            _ => self.level_to_grant(),
        };
        self.grant(tenant, level)
    }

    /// Arguments that are out of range, one or all of them.
    fn unfit_request(&mut self) -> Request {
        let tree = self.book.tree();
        let tenant = if self.random.one_in(2) {
            self.above(TENANTS as u32 - 1, self.reach.tenant)
        } else {
            self.random.below(self.crowd)
        };
        let level = self.above(tree.height(), self.reach.level);
        match self.random.below(10) {
            0 | 1 => Request::GrantLevel { tenant, level },
            2..=4 => Request::GrantPages {
                tenant,
                pages: self.above(tree.pages_in_all() - 1, self.reach.pages),
            },
            5 | 6 => Request::Grow { tenant, level },
            7 => Request::Join { tenant, level },
            8 => Request::Withdraw { tenant },
            _ => Request::Release { tenant },
        }
    }

    /// A number above a bound, often one that would be below it if it were cut to fewer bits.
    fn above(&mut self, bound: u32, most: u32) -> u32 {
        let small = self.random.below(bound + 1);
        let candidates = [bound + 1, bound + 2, 0x100 | small, 0xffff, 0x1_0000 + small, most];
        let fitting: Vec<u32> = candidates
            .into_iter()
            .filter(|&number| bound < number && number <= most)
            .collect();
        self.random.pick(&fitting)
    }

    fn grant(&mut self, tenant: u32, level: u32) -> Request {
        if self.random.one_in(2) {
            return Request::GrantLevel { tenant, level };
        }
        // A block of this level is the smallest for half its pages and up to all but the guard page. No number of pages gets a
        // single page; instead the image names no size, and gets another level.
        let pages = match level {
            0 => 0,
            _ => (1 << (level - 1)) + self.random.below(1 << (level - 1)),
        };
        Request::GrantPages { tenant, pages }
    }

    /// Mostly somebody who holds nothing, if the crowd still has such a tenant.
    fn tenant_to_grant(&mut self) -> u32 {
        let mut tenant = self.random.below(self.crowd);
        if !self.random.one_in(10) {
            for _ in 0..8 {
                if self.book.level_of(tenant).is_none() {
                    break;
                }
                tenant = self.random.below(self.crowd);
            }
        }
        tenant
    }

    /// Mostly somebody who holds a block.
    fn tenant_to_release(&mut self) -> u32 {
        self.mostly_one_of(&self.book.holders())
    }

    /// Mostly somebody who waits.
    fn tenant_in_line(&mut self) -> u32 {
        self.mostly_one_of(&self.book.waiting())
    }

    fn mostly_one_of(&mut self, tenants: &[u32]) -> u32 {
        if tenants.is_empty() || self.random.one_in(10) {
            self.random.below(self.crowd)
        } else {
            self.random.pick(tenants)
        }
    }

    fn level_to_grant(&mut self) -> u32 {
        self.level_for(self.book.room())
    }

    /// A size that just fits into so many pages, one that just does not, a small one, or any.
    fn level_for(&mut self, room: u32) -> u32 {
        let height = self.book.tree().height();
        let largest = room.checked_ilog2();
        match self.random.below(6) {
            0 => largest.unwrap_or(0),
            1 => largest.map_or(0, |level| level + 1).min(height),
            2..=4 => self.random.below(height.min(2) + 1),
            _ => self.random.below(height + 1),
        }
    }
}
