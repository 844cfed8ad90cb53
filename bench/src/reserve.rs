//! Reserves with tenants in them.

use oracle::definitions::{Counts, Tree};
use oracle::generate::{holders_for, seat, Holder};
use oracle::line::{self, Waiting};
use oracle::planner::TENANTS;
use oracle::random::Random;
use oracle::subject::{line_image, table_image, LINE_BYTES};

use crate::contestant::{Contestant, Second};
use crate::input::{Ask, Input, Lent, Line, Table};

/// A reserve in order, who holds a block in it, and who waits for one.
#[derive(Clone)]
pub struct Reserve {
    height: u16,
    table: Box<Table>,
    line: Line,
    holders: Vec<Holder>,
    waiting: Vec<Waiting>,
}

impl Reserve {
    /// The counts' blocks, held by tenants drawn at random. Nobody waits.
    pub fn draw(height: u16, counts: &Counts, random: &mut Random) -> Reserve {
        let holders = holders_for(random, counts);
        let table = table_image(&seat(Tree::new(height.into()), &holders));
        Reserve {
            height,
            table: table.try_into().expect("the image of a table"),
            line: [0; LINE_BYTES],
            holders,
            waiting: Vec::new(),
        }
    }

    /// The same with tenants drawn at random that wait for these levels, whom nobody has passed.
    pub fn with_line(&self, levels: &[u16], random: &mut Random) -> Reserve {
        let mut reserve = self.clone();
        for &level in levels {
            let tenant = reserve.newcomer(random);
            reserve.waiting.push(Waiting {
                tenant,
                level: level.into(),
                passed: 0,
            });
        }
        let line = line_image(&line::numbers(&reserve.waiting));
        reserve.line = line.try_into().expect("the image of a line");
        reserve
    }

    /// A call on this reserve. A map is there before the call only if it is to be counted.
    pub fn input(&self, ask: Ask) -> Input {
        let mut lent = Box::new(Lent::new(*self.table, self.line));
        if ask == Ask::Count {
            Second::draw(self.height, &lent.table, &mut lent.map);
        }
        Input {
            height: self.height,
            ask,
            lent,
        }
    }

    /// A grant of each level that there is room for; of every level, if there is room for none. A tenant that has the level, as
    /// there is nobody who holds nothing, asks for the next.
    pub fn grants(&self, random: &mut Random) -> Vec<Ask> {
        let grant = |level| {
            let tenant = self.newcomer(random);
            let level = level + u16::from(self.has(tenant, level));
            Ask::Grant { tenant, level }
        };
        let fitting = self.fitting_levels();
        let levels = if fitting.is_empty() {
            (0..=self.height).collect()
        } else {
            fitting
        };
        levels.into_iter().map(grant).collect()
    }

    /// The levels that there is room for.
    pub fn fitting_levels(&self) -> Vec<u16> {
        let held: u32 = self.holders.iter().map(|holder| 1 << holder.level).sum();
        let room = (1 << self.height) - held;
        (0..=self.height).filter(|level| 1 << level <= room).collect()
    }

    /// The level of the whole reserve.
    pub fn whole(&self) -> u16 {
        self.height
    }

    /// A join by somebody who neither holds a block nor waits.
    pub fn join(&self, level: u16, random: &mut Random) -> Ask {
        let tenant = self.newcomer(random);
        Ask::Join { tenant, level }
    }

    /// Withdrawals of the oldest and of the youngest in line.
    pub fn withdrawals(&self) -> Vec<Ask> {
        let ends = self.waiting.first().into_iter().chain(self.waiting.last());
        ends.map(|waiting| Ask::Withdraw { tenant: waiting.tenant }).collect()
    }

    fn has(&self, tenant: u16, level: u16) -> bool {
        let level = level.into();
        self.holders.contains(&Holder { tenant, level })
    }

    /// A grant of the level that it has to the first and to the last holder of each level, as they were drawn.
    pub fn repeated_grants(&self) -> Vec<Ask> {
        let grant = |holder: &Holder| Ask::Grant {
            tenant: holder.tenant,
            level: holder.level as u16,
        };
        self.ends().map(grant).collect()
    }

    /// A release by the first and by the last holder of each level, as they were drawn; by nobody, if there is no
    /// holder.
    pub fn releases(&self, random: &mut Random) -> Vec<Ask> {
        if self.holders.is_empty() {
            let tenant = self.newcomer(random);
            return vec![Ask::Release { tenant }];
        }
        let release = |holder: &Holder| Ask::Release { tenant: holder.tenant };
        self.ends().map(release).collect()
    }

    /// Growths of the first and of the last holder of each level, as they were drawn, to all levels that are wanted, by the one
    /// held and the one asked for.
    pub fn growths(&self, wanted: impl Fn(u16, u16) -> bool) -> Vec<Ask> {
        let mut asks = Vec::new();
        for holder in self.ends() {
            let (tenant, held) = (holder.tenant, holder.level as u16);
            let levels = (0..=self.height).filter(|&level| wanted(held, level));
            asks.extend(levels.map(|level| Ask::Grow { tenant, level }));
        }
        asks
    }

    /// The first and the last holder of each level, as they were drawn.
    fn ends(&self) -> impl Iterator<Item = &Holder> {
        let of_level = |level| self.holders.iter().filter(move |holder| holder.level == level);
        let ends =
            (0..=self.height.into()).flat_map(move |level| [of_level(level).next(), of_level(level).next_back()]);
        ends.flatten()
    }

    /// A tenant that holds nothing and does not wait; any tenant, if there is none.
    fn newcomer(&self, random: &mut Random) -> u16 {
        let holds = |tenant: usize| self.table[2 * tenant..2 * tenant + 2] != [0, 0];
        let waits = |tenant: usize| self.waiting.iter().any(|one| usize::from(one.tenant) == tenant);
        let start = random.index(TENANTS);
        let mut tenants = (0..TENANTS).map(|step| (start + step) % TENANTS);
        tenants
            .find(|&tenant| !holds(tenant) && !waits(tenant))
            .unwrap_or(start) as u16
    }
}

/// Blocks of one page.
pub fn ones(pages: u32) -> Counts {
    let mut counts = Counts::default();
    counts[0] = pages;
    counts
}

/// Blocks of mixed sizes that take so many pages, about as many on each level; there is one of one page at least.
pub fn mixed(pages: u32, random: &mut Random) -> Counts {
    let mut counts = ones(1);
    let mut room = pages - 1;
    while room > 0 {
        let level = random.next_number().trailing_zeros().min(room.ilog2());
        counts[level as usize] += 1;
        room -= 1 << level;
    }
    counts
}
