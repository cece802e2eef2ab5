// The workloads of crates/register_bench on the same two data structures, written in ordinary Rust.
use std::time::Instant;

#[derive(Clone, Copy, PartialEq, Eq)]
struct Fact {
    predicate: u8,
    first: u16,
    second: u16,
}

impl Fact {
    fn in_bounds(self) -> bool {
        self.predicate < 16 && self.first < 128 && self.second < 128
    }
}

#[derive(Clone, Copy)]
enum Refusal {
    OutOfBounds,
    Full,
}

trait Register {
    fn holds(&self, fact: Fact) -> bool;
    fn size(&self) -> usize;
    fn put(&mut self, fact: Fact) -> Result<(), Refusal>;
    fn take(&mut self, fact: Fact);
}

const ROWS: usize = 2048;
const ALL_FACTS: usize = 262144;

struct Grid {
    rows: Vec<u128>,
    limit: usize,
}

impl Grid {
    fn new(limit: usize) -> Grid {
        Grid {
            rows: vec![0; ROWS],
            limit: limit.min(ALL_FACTS),
        }
    }

    fn row_of(fact: Fact) -> usize {
        usize::from(fact.predicate) * 128 + usize::from(fact.first)
    }

    fn is_full(&self) -> bool {
        self.limit < ALL_FACTS && self.size() >= self.limit
    }
}

impl Register for Grid {
    fn holds(&self, fact: Fact) -> bool {
        fact.in_bounds() && (self.rows[Grid::row_of(fact)] >> fact.second) & 1 == 1
    }

    fn size(&self) -> usize {
        self.rows.iter().map(|row| row.count_ones() as usize).sum()
    }

    fn put(&mut self, fact: Fact) -> Result<(), Refusal> {
        if !fact.in_bounds() {
            return Err(Refusal::OutOfBounds);
        }
        if self.holds(fact) {
            return Ok(());
        }
        if self.is_full() {
            return Err(Refusal::Full);
        }
        self.rows[Grid::row_of(fact)] |= 1 << fact.second;
        Ok(())
    }

    fn take(&mut self, fact: Fact) {
        if self.holds(fact) {
            self.rows[Grid::row_of(fact)] ^= 1 << fact.second;
        }
    }
}

struct RecordList<'a> {
    table: &'a mut [Fact],
    len: usize,
}

impl RecordList<'_> {
    fn place(&self, fact: Fact) -> Option<usize> {
        self.table[..self.len].iter().position(|x| *x == fact)
    }

    fn room(&self) -> usize {
        self.table.len().min(4096)
    }
}

impl Register for RecordList<'_> {
    fn holds(&self, fact: Fact) -> bool {
        self.place(fact).is_some()
    }

    fn size(&self) -> usize {
        self.len
    }

    fn put(&mut self, fact: Fact) -> Result<(), Refusal> {
        if !fact.in_bounds() {
            return Err(Refusal::OutOfBounds);
        }
        if self.holds(fact) {
            return Ok(());
        }
        if self.len >= self.room() {
            return Err(Refusal::Full);
        }
        self.table[self.len] = fact;
        self.len += 1;
        Ok(())
    }

    fn take(&mut self, fact: Fact) {
        if let Some(at) = self.place(fact) {
            self.table[at] = self.table[self.len - 1];
            self.len -= 1;
        }
    }
}

fn mixed(sum: u64, size: usize) -> u64 {
    sum.wrapping_mul(31).wrapping_add(size as u64)
}

fn put_rows<R: Register>(register: &mut R, predicate: u8, firsts: u16) -> u64 {
    let mut accepted = 0;
    for first in 0..firsts {
        for second in 0..128 {
            let fact = Fact {
                predicate,
                first,
                second,
            };
            if register.put(fact).is_ok() {
                accepted += 1;
            }
        }
    }
    accepted
}

fn fill_grid(limit: usize) -> u64 {
    let mut grid = Grid::new(limit);
    let accepted = put_rows(&mut grid, 5, 32);
    mixed(accepted, grid.size())
}

fn fill_list() -> u64 {
    let empty = Fact {
        predicate: 0,
        first: 0,
        second: 0,
    };
    let mut table = vec![empty; 4096];
    let mut list = RecordList {
        table: &mut table,
        len: 0,
    };
    let accepted = put_rows(&mut list, 5, 32);
    mixed(accepted, list.size())
}

fn fact_of(random: u64) -> Fact {
    Fact {
        predicate: 4 + ((random >> 20) & 1) as u8,
        first: ((random >> 30) & 63) as u16,
        second: ((random >> 40) & 127) as u16,
    }
}

fn ask() -> u64 {
    let mut grid = Grid::new(ALL_FACTS);
    let accepted = put_rows(&mut grid, 5, 32);
    let mut random: u64 = 1;
    let mut yes: u64 = 0;
    for _ in 0..1000000 {
        random = random
            .wrapping_mul(6364136223846793005)
            .wrapping_add(1442695040888963407);
        if grid.holds(fact_of(random)) {
            yes += (random & 7) + 1;
        }
    }
    accepted.wrapping_mul(1000000007).wrapping_add(yes)
}

fn tell_size() -> u64 {
    let mut grid = Grid::new(ALL_FACTS);
    let mut sum: u64 = 0;
    for predicate in 0..16 {
        sum += put_rows(&mut grid, predicate, 128);
    }
    for turn in 0..1000 {
        let fact = Fact {
            predicate: 7,
            first: 11,
            second: turn & 127,
        };
        grid.take(fact);
        sum = mixed(sum, grid.size());
        let _ = grid.put(fact);
    }
    sum
}

fn main() {
    let timed = std::env::args().skip(1).any(|word| word == "time");
    let workloads: [(&str, fn() -> u64); 5] = [
        ("fill a grid of limit 4096 with 4096 facts", || fill_grid(4096)),
        ("fill a grid of limit 262144 with 4096 facts", || fill_grid(ALL_FACTS)),
        ("fill a list with 4096 facts", fill_list),
        ("ask a grid a million questions", ask),
        ("tell a full grid's size 1000 times", tell_size),
    ];
    for (name, run) in workloads {
        let check = run();
        if !timed {
            println!("{name}: {check}");
            continue;
        }
        let mut best = u128::MAX;
        for _ in 0..9 {
            let start = Instant::now();
            assert_eq!(std::hint::black_box(run)(), check);
            best = best.min(start.elapsed().as_nanos());
        }
        println!("{name}: {check}: {best}");
    }
}
