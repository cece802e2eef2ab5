// The report of an edition file in ordinary Rust, by the same algorithms: the file is read and checked, a grid is filled with its
// facts, the steps are taken one by one with a look behind each, and then the answers and the verdict are written as text.
//
// With no argument: a file on standard input, its report on standard output.
// With the argument `time`: a file on standard input; prints the length of its report, the sum of the report's bytes modulo 65536
// and the nanoseconds of the quickest of 11 reports, each from the file's bytes in memory to the report's bytes in memory. All
// memory is asked for, and emptied, before the clock starts.
use std::hint::black_box;
use std::io::{self, Read, Write};
use std::time::Instant;

const LONGEST_FILE: usize = 40_000;
const LONGEST_GOAL: usize = 2048;
const MOST_IDS: u8 = 128;
const MOST_PREDICATES: usize = 16;
const MOST_OPERATIONS: usize = 64;
const MOST_ENTRIES: usize = 6;
const MOST_PARAMETERS: u8 = 3;
const LONGEST_NAME: usize = 16;
const LONGEST_SPAN: u16 = 1000;
const HIGHEST_END: u16 = 10_000;
const MOST_NODES: usize = 128;
const DEEPEST_BRACKET: usize = 16;
const MOST_STEPS: u16 = 4096;
const MOST_WORK: usize = 4096;
const LARGEST_LABEL: usize = 512;

// Why a file, a step or a look is refused. 9 is missing: a grid of one bit for each fact that there is never gets too full.
#[derive(Clone, Copy)]
enum Refusal {
    Catalogue = 1,
    Operation = 2,
    GoalTooLong = 3,
    CannotFollow = 4,
    Unknown = 5,
    OutOfRange = 6,
    GoalTooLarge = 7,
    FactOutOfBounds = 8,
    OtherJob = 10,
    NoOperation = 11,
    BadArgument = 12,
    NeedFails = 13,
    TooManySteps = 14,
    TooMuchWork = 15,
    LabelTooLarge = 16,
    Mark = 18,
    Length = 19,
}

type Checked<T> = Result<T, Refusal>;

fn ensure(holds: bool, refusal: Refusal) -> Checked<()> {
    if holds { Ok(()) } else { Err(refusal) }
}

// ---- The file's frame ----

// What is still to be read.
#[derive(Clone, Copy)]
struct Cursor<'a> {
    left: &'a [u8],
}

impl<'a> Cursor<'a> {
    fn slice(&mut self, length: usize) -> Checked<&'a [u8]> {
        let (slice, left) = self.left.split_at_checked(length).ok_or(Refusal::Length)?;
        self.left = left;
        Ok(slice)
    }

    fn array<const L: usize>(&mut self) -> Checked<[u8; L]> {
        let (array, left) = self.left.split_first_chunk().ok_or(Refusal::Length)?;
        self.left = left;
        Ok(*array)
    }

    fn word(&mut self) -> Checked<u16> {
        Ok(u16::from_be_bytes(self.array()?))
    }

    // So many records of L bytes each.
    fn records<const L: usize>(&mut self, count: u16) -> Checked<&'a [[u8; L]]> {
        let slice = self.slice(usize::from(count) * L)?;
        Ok(slice.as_chunks().0)
    }
}

// Where the sections of a file lie.
struct Frame<'a> {
    ids: u8,
    predicates: u8,
    operations: u8,
    // From the first predicate on.
    catalogue: Cursor<'a>,
    facts: &'a [[u8; 3]],
    goal: &'a [u8],
    steps: &'a [[u8; 4]],
}

fn read_frame(file: &[u8]) -> Checked<Frame<'_>> {
    let left = file.strip_prefix(b"EDP\x00\x01").ok_or(Refusal::Mark)?;
    ensure(file.len() <= LONGEST_FILE, Refusal::Length)?;
    let mut cursor = Cursor { left };
    let [ids, predicates, operations] = cursor.array()?;
    let facts = cursor.word()?;
    let goal = cursor.word()?;
    let steps = cursor.word()?;
    let catalogue = cursor;
    for _ in 0..predicates {
        let [_, length] = cursor.array()?;
        cursor.slice(usize::from(length))?;
    }
    for _ in 0..operations {
        let [_, _, _, needs, takes, puts] = cursor.array()?;
        let entries = u16::from(needs) + u16::from(takes) + u16::from(puts);
        cursor.records::<3>(entries)?;
    }
    let frame = Frame {
        ids,
        predicates,
        operations,
        catalogue,
        facts: cursor.records(facts)?,
        goal: cursor.slice(usize::from(goal))?,
        steps: cursor.records(steps)?,
    };
    ensure(cursor.left.is_empty(), Refusal::Length)?;
    Ok(frame)
}

// ---- The catalogue ----

struct Predicate<'a> {
    places: u8,
    name: &'a [u8],
}

// A term of an operation's entry.
#[derive(Clone, Copy)]
enum EntryTerm {
    Id(u8),
    Parameter(u8),
}

impl EntryTerm {
    fn id(self, arguments: [u8; 3]) -> u8 {
        match self {
            EntryTerm::Id(id) => id,
            EntryTerm::Parameter(parameter) => arguments[usize::from(parameter)],
        }
    }
}

// A need, take or put.
#[derive(Clone, Copy)]
struct Entry {
    negated: bool,
    predicate: u8,
    first: EntryTerm,
    second: EntryTerm,
}

impl Entry {
    const NONE: Entry = Entry {
        negated: false,
        predicate: 0,
        first: EntryTerm::Id(0),
        second: EntryTerm::Id(0),
    };

    fn fact(self, arguments: [u8; 3]) -> Fact {
        Fact {
            predicate: self.predicate,
            first: self.first.id(arguments),
            second: self.second.id(arguments),
        }
    }
}

// The needs, takes or puts of an operation.
struct Entries {
    items: [Entry; MOST_ENTRIES],
    count: usize,
}

impl Entries {
    fn iter(&self) -> impl Iterator<Item = Entry> {
        self.items[..self.count].iter().copied()
    }
}

struct Operation {
    parameters: u8,
    span: u16,
    needs: Entries,
    takes: Entries,
    puts: Entries,
}

impl Operation {
    // Arguments for parameters are ids, the others 0.
    fn suits(&self, arguments: [u8; 3], ids: u8) -> bool {
        let used = usize::from(self.parameters);
        arguments[..used].iter().all(|argument| *argument < ids)
            && arguments[used..].iter().all(|argument| *argument == 0)
    }
}

struct Catalogue<'a> {
    ids: u8,
    predicates: Vec<Predicate<'a>>,
    operations: Vec<Operation>,
}

impl<'a> Catalogue<'a> {
    fn new() -> Self {
        Catalogue {
            ids: 0,
            predicates: Vec::with_capacity(MOST_PREDICATES),
            operations: Vec::with_capacity(MOST_OPERATIONS),
        }
    }

    fn clear(&mut self) {
        self.predicates.clear();
        self.operations.clear();
    }

    fn read(&mut self, frame: &Frame<'a>) -> Checked<()> {
        let predicates = usize::from(frame.predicates);
        let counts_fit = (1..=MOST_IDS).contains(&frame.ids)
            && (1..=MOST_PREDICATES).contains(&predicates)
            && usize::from(frame.operations) <= MOST_OPERATIONS;
        ensure(counts_fit, Refusal::Catalogue)?;
        self.ids = frame.ids;
        let mut cursor = frame.catalogue;
        for _ in 0..frame.predicates {
            self.read_predicate(&mut cursor)?;
        }
        for _ in 0..frame.operations {
            self.read_operation(&mut cursor)?;
        }
        Ok(())
    }

    fn read_predicate(&mut self, cursor: &mut Cursor<'a>) -> Checked<()> {
        let [places, length] = cursor.array()?;
        let name = cursor.slice(usize::from(length))?;
        let is_sound = places <= 2
            && (1..=LONGEST_NAME).contains(&name.len())
            && name.iter().all(u8::is_ascii_lowercase)
            && self.predicates.iter().all(|other| other.name != name);
        ensure(is_sound, Refusal::Catalogue)?;
        self.predicates.push(Predicate { places, name });
        Ok(())
    }

    fn read_operation(&mut self, cursor: &mut Cursor<'a>) -> Checked<()> {
        let [parameters] = cursor.array()?;
        let span = cursor.word()?;
        let counts: [u8; 3] = cursor.array()?;
        let counts = counts.map(usize::from);
        let is_sound = parameters <= MOST_PARAMETERS
            && span <= LONGEST_SPAN
            && counts.iter().all(|count| *count <= MOST_ENTRIES);
        ensure(is_sound, Refusal::Operation)?;
        let [needs, takes, puts] = counts;
        let operation = Operation {
            parameters,
            span,
            needs: self.read_entries(cursor, needs, parameters, true)?,
            takes: self.read_entries(cursor, takes, parameters, false)?,
            puts: self.read_entries(cursor, puts, parameters, false)?,
        };
        self.operations.push(operation);
        Ok(())
    }

    fn read_entries(
        &self,
        cursor: &mut Cursor<'a>,
        count: usize,
        parameters: u8,
        may_negate: bool,
    ) -> Checked<Entries> {
        let mut items = [Entry::NONE; MOST_ENTRIES];
        for item in &mut items[..count] {
            *item = self.read_entry(cursor.array()?, parameters, may_negate)?;
        }
        Ok(Entries { items, count })
    }

    fn read_entry(&self, bytes: [u8; 3], parameters: u8, may_negate: bool) -> Checked<Entry> {
        let [byte, first, second] = bytes;
        let negated = may_negate && byte >= 128;
        let predicate = if negated { byte - 128 } else { byte };
        let places = self.places(predicate).ok_or(Refusal::Operation)?;
        Ok(Entry {
            negated,
            predicate,
            first: self.read_term(first, places > 0, parameters)?,
            second: self.read_term(second, places > 1, parameters)?,
        })
    }

    fn read_term(&self, byte: u8, is_used: bool, parameters: u8) -> Checked<EntryTerm> {
        match byte {
            0 if !is_used => Ok(EntryTerm::Id(0)),
            _ if !is_used => Err(Refusal::Operation),
            id if id < self.ids => Ok(EntryTerm::Id(id)),
            128.. if byte - 128 < parameters => Ok(EntryTerm::Parameter(byte - 128)),
            _ => Err(Refusal::Operation),
        }
    }

    // How many places a predicate has, if there is one of that number.
    fn places(&self, predicate: u8) -> Option<u8> {
        let found = self.predicates.get(usize::from(predicate))?;
        Some(found.places)
    }

    fn check_fact(&self, fact: Fact) -> Checked<()> {
        let refusal = Refusal::FactOutOfBounds;
        let places = self.places(fact.predicate).ok_or(refusal)?;
        let fits = |id: u8, is_used: bool| if is_used { id < self.ids } else { id == 0 };
        ensure(
            fits(fact.first, places > 0) && fits(fact.second, places > 1),
            refusal,
        )
    }
}

// ---- The goal ----

#[derive(Clone, Copy, PartialEq)]
enum Variable {
    Outer,
    Inner,
}

#[derive(Clone, Copy, PartialEq)]
enum Term {
    Id(u8),
    Bound(Variable),
}

#[derive(Clone, Copy)]
struct Atom {
    predicate: u8,
    first: Term,
    second: Term,
}

impl Atom {
    fn names(self, variable: Variable) -> bool {
        self.first == Term::Bound(variable) || self.second == Term::Bound(variable)
    }
}

#[derive(Clone, Copy, PartialEq, Eq)]
struct Ends {
    lower: u16,
    upper: Option<u16>,
}

// A node of the goal; its own parts are nodes by their numbers.
#[derive(Clone, Copy)]
enum Node {
    True,
    Test(Atom),
    Equal(Term, Term),
    Not(usize),
    And(usize, usize),
    Or(usize, usize),
    Next(usize),
    Until(Ends, usize, usize),
    ForAll(Variable, Atom, usize),
    Exists(Variable, Atom, usize),
}

#[derive(Clone, Copy, PartialEq)]
enum Token<'a> {
    Name(&'a [u8]),
    Variable(u8),
    Number(&'a [u8]),
    Sign(u8),
    Malformed,
    End,
}

// The letters in scope: none, the outer variable's, or both.
#[derive(Clone, Copy)]
struct Scope {
    outer: Option<u8>,
    inner: Option<u8>,
}

impl Scope {
    fn find(self, letter: u8) -> Option<Variable> {
        if self.outer == Some(letter) {
            Some(Variable::Outer)
        } else if self.inner == Some(letter) {
            Some(Variable::Inner)
        } else {
            None
        }
    }

    // The scope within a quantifier of that letter, and the variable that it binds.
    fn with(self, letter: u8) -> (Scope, Variable) {
        if self.outer.is_none() {
            let outer = Some(letter);
            return (Scope { outer, ..self }, Variable::Outer);
        }
        let inner = Some(letter);
        (Scope { inner, ..self }, Variable::Inner)
    }
}

// A recursive-descent reader with one token in hand.
struct GoalReader<'a> {
    text: &'a [u8],
    at: usize,
    token: Token<'a>,
    catalogue: &'a Catalogue<'a>,
    nodes: &'a mut Vec<Node>,
    scope: Scope,
    depth: usize,
    count: usize,
}

impl<'a> GoalReader<'a> {
    // The end of the bytes from a place on that pass the test.
    fn run(&self, from: usize, test: impl Fn(&u8) -> bool) -> usize {
        from + self.text[from..].iter().take_while(|b| test(b)).count()
    }

    fn advance(&mut self) {
        let place = self.run(self.at, |b| matches!(b, b' ' | b'\n'));
        let Some(&byte) = self.text.get(place) else {
            self.token = Token::End;
            return;
        };
        (self.token, self.at) = match byte {
            b'a'..=b'z' => self.name(place),
            b'0'..=b'9' => self.digits(place),
            b'?' => self.variable(place),
            b'T' | b'!' | b'X' | b'F' | b'G' | b'A' | b'E' | b'U' | b'>' | b'&' | b'|' | b'='
            | b'(' | b')' | b'[' | b']' | b',' | b':' | b'*' => (Token::Sign(byte), place + 1),
            _ => (Token::Malformed, place + 1),
        };
    }

    fn name(&self, place: usize) -> (Token<'a>, usize) {
        let end = self.run(place, u8::is_ascii_lowercase);
        let name = &self.text[place..end];
        if name.len() > LONGEST_NAME {
            return (Token::Malformed, end);
        }
        (Token::Name(name), end)
    }

    fn digits(&self, place: usize) -> (Token<'a>, usize) {
        let end = self.run(place, u8::is_ascii_digit);
        let digits = &self.text[place..end];
        if digits.len() > 1 && digits[0] == b'0' {
            return (Token::Malformed, end);
        }
        (Token::Number(digits), end)
    }

    fn variable(&self, place: usize) -> (Token<'a>, usize) {
        let end = self.run(place + 1, u8::is_ascii_lowercase);
        match self.text[place + 1..end] {
            [letter] => (Token::Variable(letter), end),
            _ => (Token::Malformed, end),
        }
    }

    fn expect(&mut self, sign: u8) -> Checked<()> {
        ensure(self.token == Token::Sign(sign), Refusal::CannotFollow)?;
        self.advance();
        Ok(())
    }

    // Counts the nodes of the token in hand, and goes on to the next.
    fn count(&mut self, nodes: usize) -> Checked<()> {
        self.count += nodes;
        ensure(self.count <= MOST_NODES, Refusal::GoalTooLarge)?;
        self.advance();
        Ok(())
    }

    fn add(&mut self, node: Node) -> usize {
        self.nodes.push(node);
        self.nodes.len() - 1
    }

    fn formula(&mut self) -> Checked<usize> {
        let mut left = self.clause()?;
        while self.token == Token::Sign(b'|') {
            self.count(1)?;
            let right = self.clause()?;
            left = self.add(Node::Or(left, right));
        }
        Ok(left)
    }

    fn clause(&mut self) -> Checked<usize> {
        let mut left = self.item()?;
        while self.token == Token::Sign(b'&') {
            self.count(1)?;
            let right = self.item()?;
            left = self.add(Node::And(left, right));
        }
        Ok(left)
    }

    fn item(&mut self) -> Checked<usize> {
        let node = match self.token {
            Token::Name(name) => Node::Test(self.test(name, 1)?),
            Token::Variable(_) | Token::Number(_) => self.equality()?,
            Token::Sign(b'T') => {
                self.count(1)?;
                Node::True
            }
            Token::Sign(b'!') => {
                self.count(1)?;
                Node::Not(self.item()?)
            }
            Token::Sign(b'X') => {
                self.count(1)?;
                Node::Next(self.item()?)
            }
            Token::Sign(b'F') => self.at_some_time()?,
            Token::Sign(b'G') => self.at_all_times()?,
            Token::Sign(b'A') => {
                let (variable, bound, part) = self.quantified()?;
                Node::ForAll(variable, bound, part)
            }
            Token::Sign(b'E') => {
                let (variable, bound, part) = self.quantified()?;
                Node::Exists(variable, bound, part)
            }
            Token::Sign(b'(') => return self.bracket(),
            _ => return Err(Refusal::CannotFollow),
        };
        Ok(self.add(node))
    }

    // A test, which adds so many nodes: a bound adds none.
    fn test(&mut self, name: &[u8], nodes: usize) -> Checked<Atom> {
        let predicates = &self.catalogue.predicates;
        let found = predicates.iter().position(|p| p.name == name);
        let number = found.ok_or(Refusal::Unknown)?;
        let places = predicates[number].places;
        self.count(nodes)?;
        let mut atom = Atom {
            predicate: number as u8,
            first: Term::Id(0),
            second: Term::Id(0),
        };
        if places > 0 {
            self.expect(b'(')?;
            atom.first = self.term()?;
            if places > 1 {
                self.expect(b',')?;
                atom.second = self.term()?;
            }
            self.expect(b')')?;
        }
        Ok(atom)
    }

    fn term(&mut self) -> Checked<Term> {
        let term = match self.token {
            Token::Variable(letter) => {
                let variable = self.scope.find(letter);
                Term::Bound(variable.ok_or(Refusal::Unknown)?)
            }
            Token::Number(digits) => {
                let id = value(digits);
                ensure(id < u16::from(self.catalogue.ids), Refusal::OutOfRange)?;
                Term::Id(id as u8)
            }
            _ => return Err(Refusal::CannotFollow),
        };
        self.advance();
        Ok(term)
    }

    fn equality(&mut self) -> Checked<Node> {
        let left = self.term()?;
        ensure(self.token == Token::Sign(b'='), Refusal::CannotFollow)?;
        self.count(1)?;
        Ok(Node::Equal(left, self.term()?))
    }

    // F a is (T U a).
    fn at_some_time(&mut self) -> Checked<Node> {
        self.count(2)?;
        let always = self.add(Node::True);
        let ends = self.ends()?;
        Ok(Node::Until(ends, always, self.item()?))
    }

    // G a is !(T U !a).
    fn at_all_times(&mut self) -> Checked<Node> {
        self.count(4)?;
        let always = self.add(Node::True);
        let ends = self.ends()?;
        let part = self.item()?;
        let fails = self.add(Node::Not(part));
        Ok(Node::Not(self.add(Node::Until(ends, always, fails))))
    }

    fn ends(&mut self) -> Checked<Ends> {
        let mut ends = Ends {
            lower: 0,
            upper: None,
        };
        if self.token != Token::Sign(b'[') {
            return Ok(ends);
        }
        self.advance();
        ends.lower = self.end(0)?;
        self.expect(b',')?;
        if self.token == Token::Sign(b'*') {
            self.advance();
        } else {
            ends.upper = Some(self.end(ends.lower)?);
        }
        self.expect(b']')?;
        Ok(ends)
    }

    fn end(&mut self, least: u16) -> Checked<u16> {
        let Token::Number(digits) = self.token else {
            return Err(Refusal::CannotFollow);
        };
        let end = value(digits);
        ensure((least..=HIGHEST_END).contains(&end), Refusal::OutOfRange)?;
        self.advance();
        Ok(end)
    }

    fn quantified(&mut self) -> Checked<(Variable, Atom, usize)> {
        let around = self.scope;
        ensure(around.inner.is_none(), Refusal::GoalTooLarge)?;
        self.count(1)?;
        let Token::Variable(letter) = self.token else {
            return Err(Refusal::CannotFollow);
        };
        ensure(around.find(letter).is_none(), Refusal::Unknown)?;
        self.advance();
        self.expect(b':')?;
        let Token::Name(name) = self.token else {
            return Err(Refusal::CannotFollow);
        };
        let variable;
        (self.scope, variable) = around.with(letter);
        let bound = self.test(name, 0)?;
        ensure(bound.names(variable), Refusal::Unknown)?;
        let part = self.item()?;
        self.scope = around;
        Ok((variable, bound, part))
    }

    fn bracket(&mut self) -> Checked<usize> {
        ensure(self.depth < DEEPEST_BRACKET, Refusal::GoalTooLarge)?;
        self.depth += 1;
        self.advance();
        let mut node = self.formula()?;
        if self.token == Token::Sign(b'U') {
            self.count(1)?;
            let ends = self.ends()?;
            let reach = self.formula()?;
            node = self.add(Node::Until(ends, node, reach));
        } else if self.token == Token::Sign(b'>') {
            self.count(2)?;
            let fails = self.add(Node::Not(node));
            let then = self.formula()?;
            node = self.add(Node::Or(fails, then));
        }
        self.expect(b')')?;
        self.depth -= 1;
        Ok(node)
    }
}

// The value of digits, however many; every value over 65535 is 65535.
fn value(digits: &[u8]) -> u16 {
    digits.iter().fold(0, |value: u16, digit| {
        value
            .saturating_mul(10)
            .saturating_add(u16::from(digit - b'0'))
    })
}

// ---- The job: a catalogue and a goal ----

struct Job<'a> {
    catalogue: Catalogue<'a>,
    nodes: Vec<Node>,
    root: usize,
}

impl<'a> Job<'a> {
    fn new() -> Self {
        Job {
            catalogue: Catalogue::new(),
            nodes: Vec::with_capacity(MOST_NODES),
            root: 0,
        }
    }

    fn clear(&mut self) {
        self.catalogue.clear();
        self.nodes.clear();
    }

    fn read(&mut self, frame: &Frame<'a>) -> Checked<()> {
        self.catalogue.read(frame)?;
        ensure(frame.goal.len() <= LONGEST_GOAL, Refusal::GoalTooLong)?;
        self.root = self.read_goal(frame.goal)?;
        Ok(())
    }

    fn read_goal(&mut self, text: &[u8]) -> Checked<usize> {
        let mut reader = GoalReader {
            text,
            at: 0,
            token: Token::End,
            catalogue: &self.catalogue,
            nodes: &mut self.nodes,
            scope: Scope {
                outer: None,
                inner: None,
            },
            depth: 0,
            count: 0,
        };
        reader.advance();
        let root = reader.formula()?;
        ensure(reader.token == Token::End, Refusal::CannotFollow)?;
        Ok(root)
    }

    // A node as a label's part, with its own ends.
    fn pending(&self, node: usize, binding: Binding) -> Part {
        let ends = match self.nodes[node] {
            Node::Until(ends, _, _) => ends,
            _ => Ends {
                lower: 0,
                upper: Some(0),
            },
        };
        Part::Pending {
            node,
            binding,
            ends,
        }
    }
}

// ---- The register ----

#[derive(Clone, Copy)]
struct Fact {
    predicate: u8,
    first: u8,
    second: u8,
}

impl Fact {
    fn new([predicate, first, second]: [u8; 3]) -> Fact {
        Fact {
            predicate,
            first,
            second,
        }
    }

    fn row(self) -> usize {
        usize::from(self.predicate) * 128 + usize::from(self.first)
    }
}

// One bit for each fact: a row for a predicate and a first id, a bit of it for the second id.
struct Grid {
    rows: Vec<u128>,
}

impl Grid {
    fn new() -> Grid {
        Grid {
            rows: vec![0; 2048],
        }
    }

    fn clear(&mut self) {
        self.rows.fill(0);
    }

    fn holds(&self, fact: Fact) -> bool {
        (self.rows[fact.row()] >> fact.second) & 1 == 1
    }

    fn put(&mut self, fact: Fact) {
        self.rows[fact.row()] |= 1 << fact.second;
    }

    fn take(&mut self, fact: Fact) {
        self.rows[fact.row()] &= !(1 << fact.second);
    }

    // Puts all facts, or refuses one and puts none.
    fn fill(&mut self, catalogue: &Catalogue, facts: &[[u8; 3]]) -> Checked<()> {
        for bytes in facts {
            catalogue.check_fact(Fact::new(*bytes))?;
        }
        for bytes in facts {
            self.put(Fact::new(*bytes));
        }
        Ok(())
    }
}

// ---- Labels ----

// The ids of the outer and the inner variable, 0 where none is bound.
#[derive(Clone, Copy, PartialEq, Eq)]
struct Binding {
    outer: u8,
    inner: u8,
}

impl Binding {
    const NONE: Binding = Binding { outer: 0, inner: 0 };

    fn with(self, variable: Variable, id: u8) -> Binding {
        match variable {
            Variable::Outer => Binding { outer: id, ..self },
            Variable::Inner => Binding { inner: id, ..self },
        }
    }

    fn id(self, term: Term) -> u8 {
        match term {
            Term::Id(id) => id,
            Term::Bound(Variable::Outer) => self.outer,
            Term::Bound(Variable::Inner) => self.inner,
        }
    }

    fn fact(self, atom: Atom) -> Fact {
        Fact {
            predicate: atom.predicate,
            first: self.id(atom.first),
            second: self.id(atom.second),
        }
    }
}

// A part of a label; its own parts are parts of the same table by their places.
#[derive(Clone, Copy, PartialEq, Eq)]
enum Part {
    True,
    False,
    Pending {
        node: usize,
        binding: Binding,
        ends: Ends,
    },
    Not(usize),
    And(usize, usize),
    Or(usize, usize),
}

const BUCKETS: usize = 1024;

impl Part {
    fn bucket(self) -> usize {
        let hash = match self {
            Part::True => 0,
            Part::False => 1,
            Part::Pending {
                node,
                binding,
                ends,
            } => {
                node * 7
                    + usize::from(binding.outer) * 31
                    + usize::from(binding.inner) * 57
                    + usize::from(ends.lower) * 3
                    + ends.upper.map_or(10001, usize::from)
            }
            Part::Not(x) => x * 3 + 2,
            Part::And(x, y) => x * 37 + y * 102 + 3,
            Part::Or(x, y) => x * 41 + y * 94 + 4,
        };
        hash % BUCKETS
    }
}

// There is no room for another part.
struct Full;

// Distinct parts, each behind its own, found by chains: one for each bucket, and a link is a place and 1, or 0.
struct Table {
    parts: Vec<Part>,
    heads: Vec<usize>,
    next: Vec<usize>,
    limit: usize,
}

impl Table {
    fn new(limit: usize) -> Self {
        Table {
            parts: Vec::with_capacity(limit),
            heads: vec![0; BUCKETS],
            next: Vec::with_capacity(limit),
            limit,
        }
    }

    fn clear(&mut self) {
        self.parts.clear();
        self.heads.fill(0);
        self.next.clear();
    }

    // The place of a part, which is put in if it is not there.
    fn add(&mut self, part: Part) -> Result<usize, Full> {
        let head = &mut self.heads[part.bucket()];
        let mut link = *head;
        while link > 0 {
            if self.parts[link - 1] == part {
                return Ok(link - 1);
            }
            link = self.next[link - 1];
        }
        let place = self.parts.len();
        if place >= self.limit {
            return Err(Full);
        }
        self.parts.push(part);
        self.next.push(*head);
        *head = place + 1;
        Ok(place)
    }

    fn settle(&mut self, truth: bool) -> Result<usize, Full> {
        self.add(if truth { Part::True } else { Part::False })
    }

    fn negate(&mut self, x: usize) -> Result<usize, Full> {
        match self.parts[x] {
            Part::True => self.add(Part::False),
            Part::False => self.add(Part::True),
            Part::Not(y) => Ok(y),
            _ => self.add(Part::Not(x)),
        }
    }

    fn conjoin(&mut self, x: usize, y: usize) -> Result<usize, Full> {
        match (self.parts[x], self.parts[y]) {
            (Part::False, _) | (_, Part::True) => Ok(x),
            (_, Part::False) | (Part::True, _) => Ok(y),
            _ if x == y => Ok(x),
            _ => self.add(Part::And(x, y)),
        }
    }

    fn disjoin(&mut self, x: usize, y: usize) -> Result<usize, Full> {
        match (self.parts[x], self.parts[y]) {
            (Part::True, _) | (_, Part::False) => Ok(x),
            (_, Part::True) | (Part::False, _) => Ok(y),
            _ if x == y => Ok(x),
            _ => self.add(Part::Or(x, y)),
        }
    }
}

// The progress of nodes and parts over a step of the span, by the facts before it.
struct Walk<'a> {
    table: &'a mut Table,
    job: &'a Job<'a>,
    register: &'a Grid,
    span: u16,
}

impl Walk<'_> {
    fn node(&mut self, number: usize, binding: Binding) -> Result<usize, Full> {
        match self.job.nodes[number] {
            Node::True => self.table.settle(true),
            Node::Test(atom) => self.table.settle(self.register.holds(binding.fact(atom))),
            Node::Equal(left, right) => self.table.settle(binding.id(left) == binding.id(right)),
            Node::Not(part) => {
                let x = self.node(part, binding)?;
                self.table.negate(x)
            }
            Node::And(left, right) => {
                let x = self.node(left, binding)?;
                let y = self.node(right, binding)?;
                self.table.conjoin(x, y)
            }
            Node::Or(left, right) => {
                let x = self.node(left, binding)?;
                let y = self.node(right, binding)?;
                self.table.disjoin(x, y)
            }
            Node::Next(part) => self.table.add(self.job.pending(part, binding)),
            Node::Until(ends, hold, reach) => self.until(number, ends, hold, reach, binding),
            Node::ForAll(variable, bound, body) => self.for_all(variable, bound, body, binding),
            Node::Exists(variable, bound, body) => self.exists(variable, bound, body, binding),
        }
    }

    fn until(
        &mut self,
        number: usize,
        ends: Ends,
        hold: usize,
        reach: usize,
        binding: Binding,
    ) -> Result<usize, Full> {
        let x = self.node(hold, binding)?;
        let rest = self.rest(number, ends, binding)?;
        let later = self.table.conjoin(x, rest)?;
        if ends.lower > 0 {
            return Ok(later);
        }
        let now = self.node(reach, binding)?;
        self.table.disjoin(now, later)
    }

    // An until as it is pending after the step.
    fn rest(&mut self, node: usize, ends: Ends, binding: Binding) -> Result<usize, Full> {
        if ends.upper.is_some_and(|upper| upper < self.span) {
            return self.table.settle(false);
        }
        let ends = Ends {
            lower: ends.lower.saturating_sub(self.span),
            upper: ends.upper.map(|upper| upper - self.span),
        };
        self.table.add(Part::Pending {
            node,
            binding,
            ends,
        })
    }

    fn for_all(
        &mut self,
        variable: Variable,
        bound: Atom,
        body: usize,
        binding: Binding,
    ) -> Result<usize, Full> {
        let mut so_far = self.table.settle(true)?;
        for id in 0..self.job.catalogue.ids {
            let binding = binding.with(variable, id);
            if self.register.holds(binding.fact(bound)) {
                let x = self.node(body, binding)?;
                so_far = self.table.conjoin(so_far, x)?;
            }
        }
        Ok(so_far)
    }

    fn exists(
        &mut self,
        variable: Variable,
        bound: Atom,
        body: usize,
        binding: Binding,
    ) -> Result<usize, Full> {
        let mut so_far = self.table.settle(false)?;
        for id in 0..self.job.catalogue.ids {
            let binding = binding.with(variable, id);
            if self.register.holds(binding.fact(bound)) {
                let x = self.node(body, binding)?;
                so_far = self.table.disjoin(so_far, x)?;
            }
        }
        Ok(so_far)
    }

    // The progress of a part whose own parts progressed to these places.
    fn part(&mut self, part: Part, places: &[usize]) -> Result<usize, Full> {
        match part {
            Part::True => self.table.settle(true),
            Part::False => self.table.settle(false),
            Part::Pending {
                node,
                binding,
                ends,
            } => match self.job.nodes[node] {
                Node::Until(_, hold, reach) => self.until(node, ends, hold, reach, binding),
                _ => self.node(node, binding),
            },
            Part::Not(x) => self.table.negate(places[x]),
            Part::And(x, y) => self.table.conjoin(places[x], places[y]),
            Part::Or(x, y) => self.table.disjoin(places[x], places[y]),
        }
    }
}

// Does holding the register's facts for ever, one hour after another, keep a node or a part?
struct Idling<'a> {
    job: &'a Job<'a>,
    register: &'a Grid,
}

impl Idling<'_> {
    fn node(&self, number: usize, binding: Binding) -> bool {
        match self.job.nodes[number] {
            Node::True => true,
            Node::Test(atom) => self.register.holds(binding.fact(atom)),
            Node::Equal(left, right) => binding.id(left) == binding.id(right),
            Node::Not(part) => !self.node(part, binding),
            Node::And(left, right) => self.node(left, binding) && self.node(right, binding),
            Node::Or(left, right) => self.node(left, binding) || self.node(right, binding),
            Node::Next(part) => self.node(part, binding),
            Node::Until(ends, hold, reach) => self.until(ends, hold, reach, binding),
            Node::ForAll(variable, bound, body) => self
                .range(variable, bound, binding)
                .all(|binding| self.node(body, binding)),
            Node::Exists(variable, bound, body) => self
                .range(variable, bound, binding)
                .any(|binding| self.node(body, binding)),
        }
    }

    fn until(&self, ends: Ends, hold: usize, reach: usize, binding: Binding) -> bool {
        (ends.lower == 0 || self.node(hold, binding)) && self.node(reach, binding)
    }

    // The bindings for which a quantifier's bound holds.
    fn range(
        &self,
        variable: Variable,
        bound: Atom,
        binding: Binding,
    ) -> impl Iterator<Item = Binding> {
        (0..self.job.catalogue.ids)
            .map(move |id| binding.with(variable, id))
            .filter(move |binding| self.register.holds(binding.fact(bound)))
    }

    fn part(&self, part: Part, keeps: &[bool]) -> bool {
        match part {
            Part::True => true,
            Part::False => false,
            Part::Pending {
                node,
                binding,
                ends,
            } => match self.job.nodes[node] {
                Node::Until(_, hold, reach) => self.until(ends, hold, reach, binding),
                _ => self.node(node, binding),
            },
            Part::Not(x) => !keeps[x],
            Part::And(x, y) => keeps[x] && keeps[y],
            Part::Or(x, y) => keeps[x] || keeps[y],
        }
    }
}

// What all steps and looks work in.
struct Workspace {
    work: Table,
    fresh: Table,
    places: Vec<usize>,
    marks: Vec<bool>,
}

impl Workspace {
    fn new() -> Self {
        Workspace {
            work: Table::new(MOST_WORK),
            fresh: Table::new(LARGEST_LABEL),
            places: vec![0; MOST_WORK],
            marks: vec![false; MOST_WORK],
        }
    }

    // Marks the parts of the work that the label at the root has.
    fn mark(&mut self, root: usize) {
        self.marks.fill(false);
        self.marks[root] = true;
        for k in (0..=root).rev() {
            if self.marks[k] {
                match self.work.parts[k] {
                    Part::True | Part::False | Part::Pending { .. } => {}
                    Part::Not(x) => self.marks[x] = true,
                    Part::And(x, y) | Part::Or(x, y) => {
                        self.marks[x] = true;
                        self.marks[y] = true;
                    }
                }
            }
        }
    }

    // Copies the marked parts into the fresh table; gives the place of the root there.
    fn copy(&mut self, root: usize) -> Result<usize, Full> {
        self.fresh.clear();
        for k in 0..=root {
            if self.marks[k] {
                let to = &self.places;
                let part = match self.work.parts[k] {
                    Part::Not(x) => Part::Not(to[x]),
                    Part::And(x, y) => Part::And(to[x], to[y]),
                    Part::Or(x, y) => Part::Or(to[x], to[y]),
                    part => part,
                };
                self.places[k] = self.fresh.add(part)?;
            }
        }
        Ok(self.places[root])
    }
}

#[derive(Clone, Copy, PartialEq)]
enum Truth {
    True,
    False,
    Open,
}

// What the goal still asks.
struct Label {
    table: Table,
    root: usize,
}

impl Label {
    fn new() -> Self {
        Label {
            table: Table::new(LARGEST_LABEL),
            root: 0,
        }
    }

    // Becomes the goal's root, pending.
    fn open(&mut self, job: &Job) -> Result<(), Full> {
        self.table.clear();
        self.root = self.table.add(job.pending(job.root, Binding::NONE))?;
        Ok(())
    }

    // Does the job have all nodes and ids that the pending parts name?
    fn is_known(&self, job: &Job) -> bool {
        let ids = job.catalogue.ids;
        self.table.parts.iter().all(|part| match part {
            Part::Pending { node, binding, .. } => {
                *node < job.nodes.len() && binding.outer < ids && binding.inner < ids
            }
            _ => true,
        })
    }

    // Refused, it is as it was.
    fn progress(
        &mut self,
        workspace: &mut Workspace,
        job: &Job,
        register: &Grid,
        span: u16,
    ) -> Checked<()> {
        workspace.work.clear();
        let mut walk = Walk {
            table: &mut workspace.work,
            job,
            register,
            span,
        };
        for (k, part) in self.table.parts.iter().enumerate() {
            let place = walk.part(*part, &workspace.places);
            workspace.places[k] = place.map_err(|Full| Refusal::TooMuchWork)?;
        }
        let root = workspace.places[self.root];
        workspace.mark(root);
        let root = workspace.copy(root);
        self.root = root.map_err(|Full| Refusal::LabelTooLarge)?;
        std::mem::swap(&mut self.table, &mut workspace.fresh);
        Ok(())
    }

    fn idles(&self, workspace: &mut Workspace, job: &Job, register: &Grid) -> bool {
        let idling = Idling { job, register };
        for (k, part) in self.table.parts.iter().enumerate() {
            workspace.marks[k] = idling.part(*part, &workspace.marks);
        }
        workspace.marks[self.root]
    }

    fn size(&self) -> usize {
        self.table.parts.len()
    }

    fn truth(&self) -> Truth {
        match self.table.parts[self.root] {
            Part::True => Truth::True,
            Part::False => Truth::False,
            _ => Truth::Open,
        }
    }
}

// ---- Sessions ----

#[derive(Clone, Copy)]
struct Look {
    number: u16,
    hour: u32,
    size: usize,
    truth: Truth,
    idles: bool,
    broken: Option<u16>,
}

// What a step or a look answered.
enum Answer {
    Stepped(Checked<()>),
    Seen(Checked<Look>),
}

struct Session<'a> {
    job: &'a Job<'a>,
    register: &'a mut Grid,
    label: &'a mut Label,
    workspace: &'a mut Workspace,
    number: u16,
    hour: u32,
    broken: Option<u16>,
}

impl Session<'_> {
    fn check(&self, operation: &Operation, arguments: [u8; 3]) -> Checked<()> {
        let fit = operation.suits(arguments, self.job.catalogue.ids);
        ensure(fit, Refusal::BadArgument)?;
        let holds = |need: Entry| self.register.holds(need.fact(arguments)) != need.negated;
        ensure(operation.needs.iter().all(holds), Refusal::NeedFails)?;
        ensure(self.number < MOST_STEPS, Refusal::TooManySteps)
    }

    fn step(&mut self, [operation, arguments @ ..]: [u8; 4]) -> Checked<()> {
        ensure(self.label.is_known(self.job), Refusal::OtherJob)?;
        let operations = &self.job.catalogue.operations;
        let found = operations.get(usize::from(operation));
        let operation = found.ok_or(Refusal::NoOperation)?;
        self.check(operation, arguments)?;
        self.label
            .progress(self.workspace, self.job, self.register, operation.span)?;
        for entry in operation.takes.iter() {
            self.register.take(entry.fact(arguments));
        }
        for entry in operation.puts.iter() {
            self.register.put(entry.fact(arguments));
        }
        self.number += 1;
        self.hour += u32::from(operation.span);
        if self.broken.is_none() && self.label.truth() == Truth::False {
            self.broken = Some(self.number);
        }
        Ok(())
    }

    fn look(&mut self) -> Checked<Look> {
        ensure(self.label.is_known(self.job), Refusal::OtherJob)?;
        Ok(Look {
            number: self.number,
            hour: self.hour,
            size: self.label.size(),
            truth: self.label.truth(),
            idles: self.label.idles(self.workspace, self.job, self.register),
            broken: self.broken,
        })
    }
}

// ---- The report ----

// A file has at most so many steps and looks, and a report at most so many bytes.
const MOST_ANSWERS: usize = LONGEST_FILE / 4 * 2 + 1;
const LONGEST_LINE: usize = "4096 4096000 512 false\n".len();
const LONGEST_REPORT: usize = (MOST_STEPS as usize + 2) * LONGEST_LINE;

// All memory that a report takes.
struct Rooms<'a> {
    job: Job<'a>,
    register: Grid,
    label: Label,
    workspace: Workspace,
    answers: Vec<Answer>,
    report: Vec<u8>,
}

impl<'a> Rooms<'a> {
    fn new() -> Self {
        Rooms {
            job: Job::new(),
            register: Grid::new(),
            label: Label::new(),
            workspace: Workspace::new(),
            answers: Vec::with_capacity(MOST_ANSWERS),
            report: Vec::with_capacity(LONGEST_REPORT),
        }
    }

    fn clear(&mut self) {
        self.job.clear();
        self.register.clear();
        self.answers.clear();
        self.report.clear();
    }

    // Writes the report of a file into rooms that are clear.
    fn report(&mut self, file: &'a [u8]) {
        if let Err(refusal) = self.report_steps(file) {
            self.report.extend_from_slice(b"refused ");
            push_number(&mut self.report, refusal as u32);
            self.report.push(b'\n');
        }
    }

    fn report_steps(&mut self, file: &'a [u8]) -> Checked<()> {
        let frame = read_frame(file)?;
        self.job.read(&frame)?;
        self.register.fill(&self.job.catalogue, frame.facts)?;
        let closing = self.run(frame.steps)?;
        for answer in &self.answers {
            match answer {
                Answer::Stepped(Ok(())) => {}
                Answer::Seen(Ok(look)) => push_look(&mut self.report, *look),
                Answer::Stepped(Err(refusal)) | Answer::Seen(Err(refusal)) => return Err(*refusal),
            }
        }
        push_verdict(&mut self.report, closing);
        Ok(())
    }

    // Takes all steps, with a look at the opening and behind each; gives a last look, for the verdict.
    fn run(&mut self, steps: &[[u8; 4]]) -> Checked<Look> {
        let opened = self.label.open(&self.job);
        opened.map_err(|Full| Refusal::LabelTooLarge)?;
        let mut session = Session {
            job: &self.job,
            register: &mut self.register,
            label: &mut self.label,
            workspace: &mut self.workspace,
            number: 0,
            hour: 0,
            broken: None,
        };
        self.answers.push(Answer::Seen(session.look()));
        for step in steps {
            self.answers.push(Answer::Stepped(session.step(*step)));
            self.answers.push(Answer::Seen(session.look()));
        }
        session.look()
    }
}

fn push_look(report: &mut Vec<u8>, look: Look) {
    push_number(report, u32::from(look.number));
    report.push(b' ');
    push_number(report, look.hour);
    report.push(b' ');
    push_number(report, look.size as u32);
    report.extend_from_slice(match look.truth {
        Truth::True => b" true\n",
        Truth::False => b" false\n",
        Truth::Open => b" open\n",
    });
}

fn push_verdict(report: &mut Vec<u8>, closing: Look) {
    if let Some(step) = closing.broken {
        report.extend_from_slice(b"broken ");
        push_number(report, u32::from(step));
        report.push(b'\n');
    } else if closing.idles {
        report.extend_from_slice(b"kept\n");
    } else {
        report.extend_from_slice(b"not kept\n");
    }
}

fn push_number(report: &mut Vec<u8>, mut number: u32) {
    let mut digits = [0; 10];
    let mut at = digits.len();
    loop {
        at -= 1;
        digits[at] = b'0' + (number % 10) as u8;
        number /= 10;
        if number == 0 {
            break;
        }
    }
    report.extend_from_slice(&digits[at..]);
}

fn quickest<'a>(rooms: &mut Rooms<'a>, file: &'a [u8]) -> u128 {
    let mut best = u128::MAX;
    for _ in 0..11 {
        rooms.clear();
        let start = Instant::now();
        rooms.report(black_box(file));
        black_box(&rooms.report);
        best = best.min(start.elapsed().as_nanos());
    }
    best
}

fn main() -> io::Result<()> {
    let mut file = Vec::new();
    // One byte more than the longest file, so that a longer one is seen to be too long.
    let most = LONGEST_FILE as u64 + 1;
    io::stdin().lock().take(most).read_to_end(&mut file)?;
    let mut rooms = Rooms::new();
    if std::env::args().skip(1).any(|word| word == "time") {
        let nanoseconds = quickest(&mut rooms, &file);
        let sum = rooms
            .report
            .iter()
            .map(|byte| u32::from(*byte))
            .sum::<u32>()
            % 65536;
        println!("{} {sum} {nanoseconds}", rooms.report.len());
        return Ok(());
    }
    rooms.report(&file);
    io::stdout().write_all(&rooms.report)
}
