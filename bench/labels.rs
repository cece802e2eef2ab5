// The workloads of crates/label_bench by the same algorithm, written in ordinary Rust.
use std::collections::HashMap;
use std::time::Instant;

#[derive(Clone, Copy)]
struct Fact {
    predicate: u8,
    first: u16,
    second: u16,
}

trait Register {
    fn holds(&self, fact: Fact) -> bool;
    fn put(&mut self, fact: Fact);
}

struct Grid {
    rows: Vec<u128>,
}

impl Grid {
    fn new() -> Grid {
        Grid {
            rows: vec![0; 2048],
        }
    }

    fn row_of(fact: Fact) -> usize {
        usize::from(fact.predicate) * 128 + usize::from(fact.first)
    }
}

impl Register for Grid {
    fn holds(&self, fact: Fact) -> bool {
        fact.predicate < 16
            && fact.first < 128
            && fact.second < 128
            && (self.rows[Grid::row_of(fact)] >> fact.second) & 1 == 1
    }

    fn put(&mut self, fact: Fact) {
        self.rows[Grid::row_of(fact)] |= 1 << fact.second;
    }
}

#[derive(Clone, Copy)]
enum Variable {
    Outer,
    Inner,
}

#[derive(Clone, Copy)]
enum Term {
    Id(u16),
    Bound(Variable),
}

#[derive(Clone, Copy)]
struct Atom {
    predicate: u8,
    first: Term,
    second: Term,
}

#[derive(Clone, Copy, PartialEq, Eq, Hash)]
struct Ends {
    lower: u16,
    upper: Option<u16>,
}

#[derive(Clone, Copy)]
enum Node {
    True,
    Test(Atom),
    Not(usize),
    Or(usize, usize),
    Next(usize),
    Until(Ends, usize, usize),
    ForAll(Variable, Atom, usize),
}

#[derive(Clone, Copy, PartialEq, Eq, Hash)]
struct Binding {
    outer: u16,
    inner: u16,
}

impl Binding {
    fn with(self, variable: Variable, id: u16) -> Binding {
        match variable {
            Variable::Outer => Binding { outer: id, ..self },
            Variable::Inner => Binding { inner: id, ..self },
        }
    }

    fn value(self, term: Term) -> u16 {
        match term {
            Term::Id(id) => id,
            Term::Bound(Variable::Outer) => self.outer,
            Term::Bound(Variable::Inner) => self.inner,
        }
    }
}

#[derive(Clone, Copy, PartialEq, Eq, Hash)]
enum Part {
    True,
    False,
    Pending {
        node: usize,
        binding: Binding,
        ends: Ends,
    },
    Not(usize),
    And(usize, usize),
    Or(usize, usize),
}

#[derive(Debug)]
struct Full;

// Finds the place of a part among distinct parts.
trait Index {
    fn with_room(limit: usize) -> Self;
    fn clear(&mut self);
    // The place of the part, or the number of the items, which it is noted to have from now on.
    fn place(&mut self, part: Part, items: &[Part]) -> usize;
}

impl Index for HashMap<Part, usize> {
    fn with_room(limit: usize) -> Self {
        HashMap::with_capacity(limit)
    }

    fn clear(&mut self) {
        self.clear();
    }

    fn place(&mut self, part: Part, items: &[Part]) -> usize {
        *self.entry(part).or_insert(items.len())
    }
}

const BUCKETS: usize = 1024;

impl Part {
    fn bucket(self) -> usize {
        let hash = match self {
            Part::True => 0,
            Part::False => 1,
            Part::Pending {
                node,
                binding,
                ends,
            } => {
                node * 7
                    + usize::from(binding.outer) * 31
                    + usize::from(binding.inner) * 57
                    + usize::from(ends.lower) * 3
                    + ends.upper.map_or(10001, usize::from)
            }
            Part::Not(x) => x * 3 + 2,
            Part::And(x, y) => x * 5 + y * 12 + 3,
            Part::Or(x, y) => x * 7 + y * 14 + 4,
        };
        hash % BUCKETS
    }
}

// A chain for each bucket; a link is a place and 1, or 0.
struct Chains {
    heads: Vec<usize>,
    next: Vec<usize>,
}

impl Index for Chains {
    fn with_room(limit: usize) -> Self {
        Chains {
            heads: vec![0; BUCKETS],
            next: Vec::with_capacity(limit),
        }
    }

    fn clear(&mut self) {
        self.heads.fill(0);
        self.next.clear();
    }

    fn place(&mut self, part: Part, items: &[Part]) -> usize {
        let bucket = part.bucket();
        let mut at = self.heads[bucket];
        while at > 0 {
            if items[at - 1] == part {
                return at - 1;
            }
            at = self.next[at - 1];
        }
        self.next.push(self.heads[bucket]);
        self.heads[bucket] = items.len() + 1;
        items.len()
    }
}

// Distinct parts, each behind its own, up to a limit.
struct Table<I> {
    items: Vec<Part>,
    index: I,
    limit: usize,
}

impl<I: Index> Table<I> {
    fn new(limit: usize) -> Self {
        Table {
            items: Vec::with_capacity(limit),
            index: I::with_room(limit),
            limit,
        }
    }

    fn clear(&mut self) {
        self.items.clear();
        self.index.clear();
    }

    fn add(&mut self, part: Part) -> Result<usize, Full> {
        let place = self.index.place(part, &self.items);
        if place == self.items.len() {
            if place >= self.limit {
                return Err(Full);
            }
            self.items.push(part);
        }
        Ok(place)
    }

    fn settle(&mut self, truth: bool) -> Result<usize, Full> {
        self.add(if truth { Part::True } else { Part::False })
    }

    fn negate(&mut self, place: usize) -> Result<usize, Full> {
        match self.items[place] {
            Part::True => self.add(Part::False),
            Part::False => self.add(Part::True),
            Part::Not(x) => Ok(x),
            _ => self.add(Part::Not(place)),
        }
    }

    fn conjoin(&mut self, i: usize, j: usize) -> Result<usize, Full> {
        match (self.items[i], self.items[j]) {
            (Part::False, _) | (_, Part::True) => Ok(i),
            (_, Part::False) | (Part::True, _) => Ok(j),
            _ if i == j => Ok(i),
            _ => self.add(Part::And(i, j)),
        }
    }

    fn disjoin(&mut self, i: usize, j: usize) -> Result<usize, Full> {
        match (self.items[i], self.items[j]) {
            (Part::True, _) | (_, Part::False) => Ok(i),
            (_, Part::True) | (Part::False, _) => Ok(j),
            _ if i == j => Ok(i),
            _ => self.add(Part::Or(i, j)),
        }
    }
}

struct Job {
    ids: u16,
    nodes: Vec<Node>,
}

impl Job {
    fn pending(&self, node: usize, binding: Binding) -> Part {
        let ends = match self.nodes[node] {
            Node::Until(ends, _, _) => ends,
            _ => Ends {
                lower: 0,
                upper: Some(0),
            },
        };
        Part::Pending {
            node,
            binding,
            ends,
        }
    }
}

struct Walk<'a, I, R> {
    table: &'a mut Table<I>,
    job: &'a Job,
    register: &'a R,
    span: u16,
}

impl<I: Index, R: Register> Walk<'_, I, R> {
    fn is_fact(&self, binding: Binding, atom: Atom) -> bool {
        self.register.holds(Fact {
            predicate: atom.predicate,
            first: binding.value(atom.first),
            second: binding.value(atom.second),
        })
    }

    fn node(&mut self, number: usize, binding: Binding) -> Result<usize, Full> {
        match self.job.nodes[number] {
            Node::True => self.table.settle(true),
            Node::Test(atom) => {
                let truth = self.is_fact(binding, atom);
                self.table.settle(truth)
            }
            Node::Not(x) => {
                let p = self.node(x, binding)?;
                self.table.negate(p)
            }
            Node::Or(left, right) => {
                let p = self.node(left, binding)?;
                let q = self.node(right, binding)?;
                self.table.disjoin(p, q)
            }
            Node::Next(x) => self.table.add(self.job.pending(x, binding)),
            Node::Until(ends, hold, reach) => self.until(number, ends, hold, reach, binding),
            Node::ForAll(variable, bound, body) => self.for_all(variable, bound, body, binding),
        }
    }

    fn until(
        &mut self,
        node: usize,
        ends: Ends,
        hold: usize,
        reach: usize,
        binding: Binding,
    ) -> Result<usize, Full> {
        let p = self.node(hold, binding)?;
        let later = self.rest(node, ends, binding)?;
        let q = self.table.conjoin(p, later)?;
        if ends.lower > 0 {
            return Ok(q);
        }
        let reached = self.node(reach, binding)?;
        self.table.disjoin(reached, q)
    }

    fn rest(&mut self, node: usize, ends: Ends, binding: Binding) -> Result<usize, Full> {
        if ends.upper.is_some_and(|upper| upper < self.span) {
            return self.table.add(Part::False);
        }
        self.table.add(Part::Pending {
            node,
            binding,
            ends: Ends {
                lower: ends.lower.saturating_sub(self.span),
                upper: ends.upper.map(|upper| upper - self.span),
            },
        })
    }

    fn for_all(
        &mut self,
        variable: Variable,
        bound: Atom,
        body: usize,
        binding: Binding,
    ) -> Result<usize, Full> {
        let mut so_far = self.table.settle(true)?;
        for id in 0..self.job.ids {
            let binding = binding.with(variable, id);
            if self.is_fact(binding, bound) {
                let p = self.node(body, binding)?;
                so_far = self.table.conjoin(so_far, p)?;
            }
        }
        Ok(so_far)
    }

    fn part(&mut self, part: Part, to: &[usize]) -> Result<usize, Full> {
        match part {
            Part::True => self.table.add(Part::True),
            Part::False => self.table.add(Part::False),
            Part::Pending {
                node,
                binding,
                ends,
            } => match self.job.nodes[node] {
                Node::Until(_, hold, reach) => self.until(node, ends, hold, reach, binding),
                _ => self.node(node, binding),
            },
            Part::Not(x) => self.table.negate(to[x]),
            Part::And(x, y) => self.table.conjoin(to[x], to[y]),
            Part::Or(x, y) => self.table.disjoin(to[x], to[y]),
        }
    }
}

struct Workspace<I> {
    work: Table<I>,
    fresh: Table<I>,
    places: Vec<usize>,
    marks: Vec<bool>,
}

impl<I: Index> Workspace<I> {
    fn new() -> Self {
        Workspace {
            work: Table::new(4096),
            fresh: Table::new(512),
            places: vec![0; 4096],
            marks: vec![false; 4096],
        }
    }

    // Marks the parts of the label at a place of the work, and copies them.
    fn compact(&mut self, top: usize) -> Result<usize, Full> {
        self.marks.fill(false);
        self.marks[top] = true;
        for k in (0..=top).rev() {
            if self.marks[k] {
                match self.work.items[k] {
                    Part::True | Part::False | Part::Pending { .. } => {}
                    Part::Not(x) => self.marks[x] = true,
                    Part::And(x, y) | Part::Or(x, y) => {
                        self.marks[x] = true;
                        self.marks[y] = true;
                    }
                }
            }
        }
        self.fresh.clear();
        for k in 0..=top {
            if self.marks[k] {
                let to = &self.places;
                let part = match self.work.items[k] {
                    Part::Not(x) => Part::Not(to[x]),
                    Part::And(x, y) => Part::And(to[x], to[y]),
                    Part::Or(x, y) => Part::Or(to[x], to[y]),
                    part => part,
                };
                self.places[k] = self.fresh.add(part)?;
            }
        }
        Ok(self.places[top])
    }
}

struct Label<I> {
    table: Table<I>,
    root: usize,
}

impl<I: Index> Label<I> {
    fn opening(job: &Job) -> Self {
        let mut table = Table::new(512);
        let binding = Binding { outer: 0, inner: 0 };
        let root = table
            .add(job.pending(job.nodes.len() - 1, binding))
            .unwrap();
        Label { table, root }
    }

    fn is_known(&self, job: &Job) -> bool {
        self.table.items.iter().all(|part| match part {
            Part::Pending { node, binding, .. } => {
                *node < job.nodes.len() && binding.outer < job.ids && binding.inner < job.ids
            }
            _ => true,
        })
    }

    fn progress<R: Register>(
        &mut self,
        workspace: &mut Workspace<I>,
        job: &Job,
        register: &R,
        span: u16,
    ) -> Result<(), u8> {
        if !self.is_known(job) {
            return Err(10);
        }
        workspace.work.clear();
        let mut walk = Walk {
            table: &mut workspace.work,
            job,
            register,
            span,
        };
        for k in 0..self.table.items.len() {
            workspace.places[k] = walk
                .part(self.table.items[k], &workspace.places)
                .map_err(|_| 15)?;
        }
        let top = workspace.places[self.root];
        self.root = workspace.compact(top).map_err(|_| 16)?;
        std::mem::swap(&mut self.table, &mut workspace.fresh);
        Ok(())
    }

    fn state(&self) -> &'static str {
        match self.table.items[self.root] {
            Part::True => "true",
            Part::False => "false",
            _ => "open",
        }
    }
}

const LABEL: u8 = 0;
const PATH: u8 = 1;
const STREAM: u8 = 2;
const TAG: u8 = 3;

const OUTER: Term = Term::Bound(Variable::Outer);
const INNER: Term = Term::Bound(Variable::Inner);

fn atom(predicate: u8, first: Term) -> Atom {
    Atom {
        predicate,
        first,
        second: Term::Id(0),
    }
}

const TAGGED: Atom = Atom {
    predicate: TAG,
    first: OUTER,
    second: INNER,
};

const ANY_TIME: Ends = Ends {
    lower: 0,
    upper: None,
};

// G A ?l:label(?l) A ?f:tag(?l,?f) (path(?f)|stream(?f)|(!stream(?f) U[0,2000] !tag(?l,?f)))
fn reuse() -> Vec<Node> {
    let within = Ends {
        lower: 0,
        upper: Some(2000),
    };
    vec![
        Node::Test(atom(PATH, INNER)),
        Node::Test(atom(STREAM, INNER)),
        Node::Or(0, 1),
        Node::Not(1),
        Node::Test(TAGGED),
        Node::Not(4),
        Node::Until(within, 3, 5),
        Node::Or(2, 6),
        Node::ForAll(Variable::Inner, TAGGED, 7),
        Node::ForAll(Variable::Outer, atom(LABEL, OUTER), 8),
        Node::Not(9),
        Node::True,
        Node::Until(ANY_TIME, 11, 10),
        Node::Not(12),
    ]
}

// G (A ?l:label(?l) A ?f:tag(?l,?f) X path(?f) | T)
fn falls_away() -> Vec<Node> {
    vec![
        Node::Test(atom(PATH, INNER)),
        Node::Next(0),
        Node::ForAll(Variable::Inner, TAGGED, 1),
        Node::ForAll(Variable::Outer, atom(LABEL, OUTER), 2),
        Node::True,
        Node::Or(3, 4),
        Node::Not(5),
        Node::True,
        Node::Until(ANY_TIME, 7, 6),
        Node::Not(8),
    ]
}

struct Workload {
    name: &'static str,
    goal: fn() -> Vec<Node>,
    labels: u16,
    tags: u16,
    pathless: u16,
    spans: &'static [u16],
}

struct Run<I> {
    job: Job,
    register: Grid,
    label: Label<I>,
    workspace: Workspace<I>,
}

impl<I: Index> Run<I> {
    fn new(workload: &Workload) -> Self {
        let job = Job {
            ids: 128,
            nodes: (workload.goal)(),
        };
        Run {
            register: register(workload),
            label: Label::opening(&job),
            workspace: Workspace::new(),
            job,
        }
    }

    #[inline(never)]
    fn step(&mut self, span: u16) -> Result<(), u8> {
        self.label
            .progress(&mut self.workspace, &self.job, &self.register, span)
    }
}

fn register(workload: &Workload) -> Grid {
    let mut register = Grid::new();
    let mut put = |predicate, first, second| {
        register.put(Fact {
            predicate,
            first,
            second,
        })
    };
    for label in 0..workload.labels {
        put(LABEL, label, 0);
        for tag in 0..workload.tags {
            put(TAG, label, (label + tag) % 128);
        }
    }
    for id in workload.pathless..128 {
        put(PATH, id, 0);
    }
    register
}

const HOURS: &[u16] = &[1; 8];
const STANDING: &[u16] = &[1, 0, 0, 0, 0, 0, 0, 0, 0, 0, 0, 0, 0, 0, 0, 0];

const WORKLOADS: [Workload; 8] = [
    workload("8 hours, 7 labels of 128 tags", reuse, [7, 128, 1], HOURS),
    workload("8 hours, 14 labels of 128 tags", reuse, [14, 128, 1], HOURS),
    workload("8 hours, 28 labels of 128 tags", reuse, [28, 128, 1], HOURS),
    workload(
        "16 steps that keep a large label",
        reuse,
        [28, 128, 4],
        STANDING,
    ),
    workload("8 hours, 128 labels of 1 tag", reuse, [128, 1, 24], HOURS),
    workload(
        "8 hours, 480 conjuncts that fall away",
        falls_away,
        [4, 120, 0],
        HOURS,
    ),
    workload(
        "8 hours, 960 conjuncts that fall away",
        falls_away,
        [8, 120, 0],
        HOURS,
    ),
    workload(
        "8 hours, 1920 conjuncts that fall away",
        falls_away,
        [16, 120, 0],
        HOURS,
    ),
];

const fn workload(
    name: &'static str,
    goal: fn() -> Vec<Node>,
    [labels, tags, pathless]: [u16; 3],
    spans: &'static [u16],
) -> Workload {
    Workload {
        name,
        goal,
        labels,
        tags,
        pathless,
        spans,
    }
}

// The size of the label after each step and its last state; or, asked for, the work of all steps.
fn check<I: Index>(workload: &Workload, wants_work: bool) -> String {
    let mut run = Run::<I>::new(workload);
    let mut sizes = String::new();
    let mut work = 0;
    for span in workload.spans {
        sizes += &match run.step(*span) {
            Ok(()) => format!(" {}", run.label.table.items.len()),
            Err(number) => format!(" refused with {number}"),
        };
        work += run.workspace.work.items.len();
    }
    if wants_work {
        return format!(" {work}");
    }
    sizes + " " + run.label.state()
}

fn quickest<I: Index>(workload: &Workload) -> u128 {
    let mut best = u128::MAX;
    for _ in 0..99 {
        let mut run = Run::<I>::new(workload);
        let start = Instant::now();
        for span in workload.spans {
            let _ = run.step(*span);
        }
        best = best.min(start.elapsed().as_nanos());
    }
    best
}

fn run_all<I: Index>() {
    let wants = |wanted: &str| std::env::args().skip(1).any(|word| word == wanted);
    for workload in &WORKLOADS {
        let check = check::<I>(workload, wants("work"));
        if wants("time") {
            println!("{}:{check}: {}", workload.name, quickest::<I>(workload));
        } else {
            println!("{}:{check}", workload.name);
        }
    }
}

// With the argument `map` the tables find their parts by a HashMap, else by chains.
fn main() {
    if std::env::args().skip(1).any(|word| word == "map") {
        run_all::<HashMap<Part, usize>>();
    } else {
        run_all::<Chains>();
    }
}
