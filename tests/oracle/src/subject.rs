//! The door to a planner under test.
//!
//! [`Subject`] has one method for all planning calls and one for each other thing that the library can be asked, over numbers
//! and byte images as on the C side. To put a library behind it, declare its exported functions in an `extern "C"` block and
//! write the methods as calls of them; [`Subject::call`] calls the one that the request belongs to. Each passes the slices on as
//! pointer and length and turns the returned numbers into [`Reply`], [`Entry`], [`Level`], [`Pages`], [`Count`] or [`Reading`].
//! Nothing may be checked or repaired on the way. If a parameter is narrower than the `u32` here, say so in [`Subject::reach`],
//! so that no number is handed over that the door cannot take.

use crate::carrying::Move;
use crate::definitions::Node;
use crate::journal::{self, Reading, Record};
use crate::line::LINE_NUMBERS;
use crate::listing;
use crate::page_map;
use crate::planner::{self, Lent, Request, FEWEST_ENTRIES, FEWEST_ENTRIES_TO_GROW, TENANTS};
use crate::refusal::{self, Refusal, DONE};

/// The only length of a table's image.
pub const TABLE_BYTES: usize = 2 * TENANTS;

/// The only length of a line's image.
pub const LINE_BYTES: usize = 2 * LINE_NUMBERS;

/// The length of one move's image.
pub const MOVE_BYTES: usize = 8;

/// The length of the shortest list of moves that a grant, a release or an admit takes, and a growth.
pub const FEWEST_MOVE_BYTES: usize = FEWEST_ENTRIES * MOVE_BYTES;
pub const FEWEST_MOVE_BYTES_TO_GROW: usize = FEWEST_ENTRIES_TO_GROW * MOVE_BYTES;

/// The length of the shortest list of moves that is taken for a request.
pub fn fewest_move_bytes(request: Request) -> usize {
    request.fewest_entries() * MOVE_BYTES
}

/// The tenant in the reply of an admit that grants nobody anything, or is refused.
pub const NOBODY: u32 = u16::MAX as u32;

/// What a planning call reports besides what it writes.
#[derive(Clone, Copy, Debug, PartialEq, Eq)]
pub struct Reply {
    pub answer: u32,
    /// Whom an admit has granted a block, or [`NOBODY`], which stands in the replies of all other calls.
    pub tenant: u32,
    pub node: u32,
    /// How many moves stand in the lent list.
    pub moves: u32,
}

impl Reply {
    /// The reply of a call that answers a number and nothing else.
    pub fn number(answer: u32) -> Self {
        Reply {
            answer,
            tenant: NOBODY,
            node: 0,
            moves: 0,
        }
    }

    /// Whom an admit has granted a block.
    pub fn admitted(&self) -> Option<u32> {
        (self.tenant != NOBODY).then_some(self.tenant)
    }
}

/// What a tenant's entry holds.
#[derive(Clone, Copy, Debug, PartialEq, Eq)]
pub struct Entry {
    pub answer: u32,
    pub node: u32,
}

/// Which level a number of pages takes.
#[derive(Clone, Copy, Debug, PartialEq, Eq)]
pub struct Level {
    pub answer: u32,
    pub level: u32,
}

/// Which pages a node covers.
#[derive(Clone, Copy, Debug, PartialEq, Eq)]
pub struct Pages {
    pub answer: u32,
    pub first: u32,
    pub count: u32,
}

/// What counting a map reports.
#[derive(Clone, Copy, Debug, PartialEq, Eq)]
pub struct Count {
    pub answer: u32,
    pub pages: u32,
}

/// The largest numbers that can be handed through a door.
#[derive(Clone, Copy, Debug)]
pub struct Reach {
    pub height: u32,
    pub tenant: u32,
    pub level: u32,
    pub pages: u32,
}

/// What is lent to a planning call. Which of it is handed over, the call decides.
#[derive(Debug)]
pub struct Images<'a> {
    pub height: u32,
    pub table: &'a mut [u8],
    pub line: &'a mut [u8],
    pub moves: &'a mut [u8],
}

impl Images<'_> {
    /// The same, to be lent to another.
    pub fn lent_on(&mut self) -> Images<'_> {
        Images {
            height: self.height,
            table: self.table,
            line: self.line,
            moves: self.moves,
        }
    }

    /// Without the line or the list that a call does not take.
    fn taken_for(&mut self, request: Request) -> Images<'_> {
        let mut taken = self.lent_on();
        if !request.takes_line() {
            taken.line = &mut [];
        }
        if !request.takes_list() {
            taken.moves = &mut [];
        }
        taken
    }
}

/// A planner under test, with everything that the library and its listing program offer.
pub trait Subject {
    /// How large the numbers may be that the other methods are given.
    fn reach(&self) -> Reach {
        Reach {
            height: u32::MAX,
            tenant: u32::MAX,
            level: u32::MAX,
            pages: u16::MAX.into(),
        }
    }

    /// Opens a reserve and gives the number answered.
    fn open(&mut self, height: u32, table: &mut [u8], line: &mut [u8]) -> u32;

    /// Makes a planning call: hands over of what is lent what the call takes. A release and a growth take no line; a join and a
    /// withdrawal take no list, and only read the table.
    fn call(&mut self, lent: &mut Images, request: Request) -> Reply;

    /// A tenant's entry in a table, in order or not.
    fn look(&mut self, table: &[u8], tenant: u32) -> Entry;

    /// The level that a grant of so many pages asks for in a reserve of a height.
    fn level_of_pages(&mut self, height: u32, pages: u32) -> Level;

    /// Which pages a node covers in a reserve of a height; any number may be asked.
    fn node_pages(&mut self, height: u32, node: Node) -> Pages;

    /// Draws the page map and gives the number answered.
    fn draw(&mut self, height: u32, table: &[u8], map: &mut [u8]) -> u32;

    fn count(&mut self, map: &[u8]) -> Count;

    /// Reads what stands at an offset of a journal.
    fn read(&mut self, journal: &[u8], offset: usize) -> Reading;

    /// Writes a record over the first lent bytes and gives the number answered.
    fn write(&mut self, record: &Record, lent: &mut [u8]) -> u32;

    /// What the listing program writes for a journal on its standard input.
    fn list(&mut self, journal: &[u8]) -> Vec<u8>;
}

/// A table's image.
pub fn table_image(table: &[Node]) -> Vec<u8> {
    image(table)
}

/// The table that an image stands for. An image of another length stands for none; it becomes a table without
/// entries, which no call takes either.
pub fn table_from(image: &[u8]) -> Vec<Node> {
    numbers_from(image, TABLE_BYTES)
}

/// The node of a tenant, or 0, as it stands in a table's image.
fn entry_in(image: &[u8], tenant: u32) -> Result<Node, Refusal> {
    if image.len() != TABLE_BYTES {
        return Err(Refusal::Length);
    }
    let entry = image.as_chunks().0.get(tenant as usize);
    entry.copied().map(u16::from_le_bytes).ok_or(Refusal::Tenant)
}

/// The image of a line's numbers.
pub fn line_image(line: &[u16]) -> Vec<u8> {
    image(line)
}

/// The numbers of a line that an image stands for, if it has the right length.
pub fn line_from(image: &[u8]) -> Vec<u16> {
    numbers_from(image, LINE_BYTES)
}

fn image(numbers: &[u16]) -> Vec<u8> {
    let mut image = vec![0; 2 * numbers.len()];
    for (bytes, number) in image.as_chunks_mut().0.iter_mut().zip(numbers) {
        *bytes = number.to_le_bytes();
    }
    image
}

fn numbers_from(image: &[u8], length: usize) -> Vec<u16> {
    if image.len() != length {
        return Vec::new();
    }
    image.as_chunks().0.iter().copied().map(u16::from_le_bytes).collect()
}

/// The first so many moves of a list's image; fewer if the list is not that long.
pub fn moves_from(image: &[u8], number: u32) -> Vec<Move> {
    let word = |bytes: &[u8], place: usize| u16::from_le_bytes([bytes[place], bytes[place + 1]]);
    let entries = image.chunks_exact(MOVE_BYTES).take(number as usize);
    entries
        .map(|entry| Move {
            tenant: word(entry, 0),
            old: word(entry, 2),
            new: word(entry, 4),
            staged: word(entry, 6) != 0,
        })
        .collect()
}

/// Writes moves to the front of a list's image.
pub fn put_moves(moves: &[Move], image: &mut [u8]) {
    for (step, entry) in moves.iter().zip(image.chunks_exact_mut(MOVE_BYTES)) {
        let words = [step.tenant, step.old, step.new, step.staged.into()];
        let bytes: Vec<u8> = words.iter().flat_map(|word| word.to_le_bytes()).collect();
        entry.copy_from_slice(&bytes);
    }
}

/// The second planner behind the same door as the planner it is compared with.
#[derive(Clone, Copy, Debug, Default)]
pub struct Oracle;

impl Subject for Oracle {
    fn open(&mut self, height: u32, table: &mut [u8], line: &mut [u8]) -> u32 {
        let outcome = planner::open(height, &table_from(table), &line_from(line));
        if outcome.answer == DONE {
            table.copy_from_slice(&table_image(&outcome.table));
            line.copy_from_slice(&line_image(&outcome.line));
        }
        outcome.answer
    }

    fn call(&mut self, lent: &mut Images, request: Request) -> Reply {
        let taken = lent.taken_for(request);
        let outcome = planner::call(
            Lent {
                height: taken.height,
                table: &table_from(taken.table),
                line: &line_from(taken.line),
                entries: taken.moves.len() / MOVE_BYTES,
            },
            request,
        );
        if outcome.answer == DONE {
            taken.table.copy_from_slice(&table_image(&outcome.table));
            taken.line.copy_from_slice(&line_image(&outcome.line));
            put_moves(&outcome.moves, taken.moves);
        }
        Reply {
            answer: outcome.answer,
            tenant: outcome.admitted.map_or(NOBODY, u32::from),
            node: outcome.node.into(),
            moves: outcome.moves.len() as u32,
        }
    }

    fn look(&mut self, table: &[u8], tenant: u32) -> Entry {
        let result = entry_in(table, tenant);
        Entry {
            answer: refusal::number(&result),
            node: result.map_or(0, u32::from),
        }
    }

    fn level_of_pages(&mut self, height: u32, pages: u32) -> Level {
        let result = planner::level_asked(height, pages);
        Level {
            answer: refusal::number(&result),
            level: result.unwrap_or(0),
        }
    }

    fn node_pages(&mut self, height: u32, node: Node) -> Pages {
        let result = page_map::of_node(height, node);
        let answer = refusal::number(&result);
        let pages = result.unwrap_or(0..0);
        Pages {
            answer,
            first: pages.start as u32,
            count: pages.len() as u32,
        }
    }

    fn draw(&mut self, height: u32, table: &[u8], map: &mut [u8]) -> u32 {
        refusal::number(&page_map::draw(height, &table_from(table), map))
    }

    fn count(&mut self, map: &[u8]) -> Count {
        let result = page_map::count(map);
        Count {
            answer: refusal::number(&result),
            pages: result.unwrap_or(0),
        }
    }

    fn read(&mut self, journal: &[u8], offset: usize) -> Reading {
        journal::read(journal, offset)
    }

    fn write(&mut self, record: &Record, lent: &mut [u8]) -> u32 {
        refusal::number(&journal::write(record, lent))
    }

    fn list(&mut self, journal: &[u8]) -> Vec<u8> {
        listing::list(journal)
    }
}
