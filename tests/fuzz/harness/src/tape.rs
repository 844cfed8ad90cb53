//! The bytes of an input, read from the front.

use oracle::definitions::{Node, Tree, TALLEST};
use oracle::generate::{Call, Holder, Start};
use oracle::line::{Waiting, MOST_PASSED, MOST_WAITING};
use oracle::planner::{Request, TENANTS};
use oracle::subject::fewest_move_bytes;

/// What is lent now and then instead of a list of moves that just suffices.
const LIST_LENGTHS: [usize; 16] = [0, 1, 8, 16, 24, 30, 32, 31, 33, 40, 48, 55, 56, 57, 64, 72];

/// Tenants about the largest number that there is, and about the ends of 16 bits.
const TENANTS_AT_THE_EDGE: [u32; 8] = [4094, 4095, 4096, 4097, 0x1fff, 0x7fff, 0x8000, 0xffff];

/// The tenants that hold a block, and those that wait for one.
pub struct Known {
    pub holders: Vec<u32>,
    pub waiting: Vec<u32>,
}

impl Known {
    /// Those who have an entry in a table, and those in line.
    pub fn in_table(table: &[Node], line: &[Waiting]) -> Self {
        let held = (0..).zip(table).filter(|&(_, &node)| node != 0);
        Known {
            holders: held.map(|(tenant, _)| tenant).collect(),
            waiting: line.iter().map(|waiting| waiting.tenant.into()).collect(),
        }
    }

    /// One of those who neither hold a block nor wait, by its place.
    fn newcomer(&self, place: usize) -> Option<u32> {
        let mut is_known = [false; TENANTS];
        for &tenant in self.holders.iter().chain(&self.waiting) {
            is_known[tenant as usize] = true;
        }
        (0..TENANTS as u32)
            .filter(|&tenant| !is_known[tenant as usize])
            .nth(place)
    }
}

/// Past its end the tape has zeros, so every input is a programme. Numbers that only lead to a refusal are kept rare:
/// a byte stands for a sensible number unless it is large.
pub struct Tape<'a> {
    rest: &'a [u8],
}

impl<'a> Tape<'a> {
    pub fn new(input: &'a [u8]) -> Self {
        Tape { rest: input }
    }

    pub fn is_at_end(&self) -> bool {
        self.rest.is_empty()
    }

    pub fn rest(self) -> &'a [u8] {
        self.rest
    }

    pub fn byte(&mut self) -> u8 {
        let Some((&first, rest)) = self.rest.split_first() else {
            return 0;
        };
        self.rest = rest;
        first
    }

    pub fn word(&mut self) -> u16 {
        u16::from_le_bytes([self.byte(), self.byte()])
    }

    /// A number below a bound of at most 256.
    pub fn below(&mut self, bound: u32) -> u32 {
        u32::from(self.byte()) % bound
    }

    /// The usual value three times in four, else one of the others.
    pub fn mostly<T: Copy>(&mut self, usual: T, others: &[T]) -> T {
        match usize::from(self.byte()).checked_sub(192) {
            None => usual,
            Some(place) => others[place % others.len()],
        }
    }

    pub fn tree(&mut self) -> Tree {
        Tree::new(self.below(TALLEST + 1))
    }

    /// Who holds blocks at the start, or nothing if the reserve is opened: up to seven times so many blocks of a level
    /// as are named and still fit, 255 being as many as there is room for. A full reserve takes four bytes.
    pub fn holders(&mut self, tree: Tree) -> Option<Vec<Holder>> {
        let groups = self.below(8);
        if groups == 0 {
            return None;
        }
        // Odd, so that every tenant comes once; tenants stand side by side in another order than their numbers.
        let stride = 2 * u32::from(self.byte()) + 1;
        let mut room = tree.pages_in_all();
        let mut levels = Vec::new();
        for _ in 0..groups {
            let level = self.below(tree.height() + 1);
            let number = match self.byte() {
                255 => room >> level,
                number => u32::from(number).min(room >> level),
            };
            room -= number << level;
            levels.extend((0..number).map(|_| level));
        }
        let tenant = |place: u32| (place * stride % TENANTS as u32) as u16;
        let holder = |(place, level)| Holder {
            tenant: tenant(place),
            level,
        };
        Some((0..).zip(levels).map(holder).collect())
    }

    /// Holders as above, and those who wait behind them: up to seven times so many as are named who wait for a level and were
    /// passed so often, 255 being as many as there are places. They are the highest of those who hold nothing.
    pub fn start(&mut self, tree: Tree) -> Start {
        let mut start = Start::held_by(&self.holders(tree).unwrap_or_default());
        let mut others = start.others();
        for _ in 0..self.below(8) {
            let level = self.below(tree.height() + 1);
            let passed = self.below(MOST_PASSED + 1);
            let places = others.len().min(MOST_WAITING - start.waiting.len());
            let number = match self.byte() {
                255 => places,
                number => usize::from(number).min(places),
            };
            let tenants = others.drain(others.len() - number..);
            start
                .waiting
                .extend(tenants.map(|tenant| Waiting { tenant, level, passed }));
        }
        start
    }

    /// A newcomer, a holder, a small number, or one in line or at the edge.
    pub fn tenant(&mut self, known: &Known) -> u32 {
        let byte = self.byte();
        let place = usize::from(byte % 64);
        let of = |tenants: &[u32], places: usize| tenants.get(place * tenants.len() / places).copied();
        match byte / 64 {
            0 => known.newcomer(place).unwrap_or(0),
            1 => of(&known.holders, 64).unwrap_or(0),
            2 => place as u32,
            _ => of(&known.waiting, 32).unwrap_or(TENANTS_AT_THE_EDGE[place % TENANTS_AT_THE_EDGE.len()]),
        }
    }

    fn level(&mut self, tree: Tree) -> u32 {
        let height = tree.height();
        let byte = u32::from(self.byte());
        let beyond = [height + 1, height + 2, 13, 16, 255, 256, 0x8000, 0xffff];
        match byte.checked_sub(240) {
            None => byte % (height + 1),
            Some(place) => beyond[place as usize % beyond.len()],
        }
    }

    /// A power of two, its neighbours, or a number between two of them.
    fn pages(&mut self, tree: Tree) -> u32 {
        let levels = tree.height() + 1;
        let all = tree.pages_in_all();
        let byte = u32::from(self.byte());
        let edges = [0, all + 1, all + 2, 2 * all, 4095, 4097, 0x8000, 0xffff];
        let power = 1 << (byte % levels);
        match byte.checked_sub(240) {
            None => [power, power - 1, power + 1, power - power / 4][(byte / levels % 4) as usize],
            Some(place) => edges[place as usize % edges.len()],
        }
    }

    /// A call with the list that is lent for it: up to three bytes. A quarter of them are of the line.
    pub fn call(&mut self, tree: Tree, known: &Known) -> Call {
        let byte = self.byte();
        if byte / 64 == 2 {
            return self.call_of_line(byte, tree, known);
        }
        let tenant = self.tenant(known);
        let request = match byte % 4 {
            0 => Request::GrantLevel {
                tenant,
                level: self.level(tree),
            },
            1 => Request::GrantPages {
                tenant,
                pages: self.pages(tree),
            },
            2 => Request::Release { tenant },
            _ => Request::Grow {
                tenant,
                level: self.level(tree),
            },
        };
        let move_bytes = match usize::from(byte / 4).checked_sub(48) {
            None => fewest_move_bytes(request),
            Some(place) => LIST_LENGTHS[place],
        };
        Call { request, move_bytes }
    }

    /// A join, an admit or a withdrawal; now and then an admit with a list of any length.
    fn call_of_line(&mut self, byte: u8, tree: Tree, known: &Known) -> Call {
        let request = match byte % 4 {
            0 => Request::Join {
                tenant: self.tenant(known),
                level: self.level(tree),
            },
            1 => Request::Withdraw {
                tenant: self.tenant(known),
            },
            _ => Request::Admit,
        };
        let mut call = Call::with_shortest_list(request);
        if byte % 4 == 3 {
            call.move_bytes = LIST_LENGTHS[usize::from(byte / 4) % LIST_LENGTHS.len()];
        }
        call
    }
}
