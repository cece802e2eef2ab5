// The same texts read by an ordinary recursive-descent reader of the same grammar, with the same limits and faults.
use std::hint::black_box;
use std::time::Instant;

#[derive(Clone, Copy)]
enum Variable {
    Outer,
    Inner,
}

#[derive(Clone, Copy)]
#[allow(dead_code)]
enum Term {
    Id(u16),
    Bound(Variable),
}

#[derive(Clone, Copy)]
#[allow(dead_code)]
struct Atom {
    predicate: u8,
    first: Term,
    second: Term,
}

#[derive(Clone, Copy)]
#[allow(dead_code)]
struct Ends {
    lower: u16,
    upper: Option<u16>,
}

#[allow(dead_code)]
enum Node {
    True,
    Test(Atom),
    Equal(Term, Term),
    Not(usize),
    And(usize, usize),
    Or(usize, usize),
    Next(usize),
    Until(Ends, usize, usize),
    ForAll(Variable, Atom, usize),
    Exists(Variable, Atom, usize),
}

#[allow(dead_code)]
enum Fault {
    TooLong,
    Follow(usize),
    Unknown(usize),
    Range(usize),
    Limit(usize),
}

struct Predicate {
    places: u8,
    name: Vec<u8>,
}

#[derive(Clone, Copy, PartialEq)]
enum Kind<'a> {
    Name(&'a [u8]),
    Variable(u8),
    Number(&'a [u8]),
    Sign(u8),
    Bad,
    End,
}

#[derive(Clone, Copy)]
struct Token<'a> {
    kind: Kind<'a>,
    place: usize,
}

struct Reader<'a> {
    text: &'a [u8],
    at: usize,
    token: Token<'a>,
    ids: u16,
    predicates: &'a [Predicate],
    letters: Vec<u8>,
    depth: usize,
    count: usize,
    nodes: Vec<Node>,
}

impl<'a> Reader<'a> {
    fn run(&self, from: usize, test: impl Fn(&u8) -> bool) -> usize {
        from + self.text[from..].iter().take_while(|b| test(b)).count()
    }

    fn advance(&mut self) {
        self.at = self.run(self.at, |b| *b == b' ' || *b == b'\n');
        let place = self.at;
        let Some(&b) = self.text.get(place) else {
            self.token = Token { kind: Kind::End, place };
            return;
        };
        let (kind, end) = match b {
            b'a'..=b'z' => {
                let end = self.run(place, u8::is_ascii_lowercase);
                let part = &self.text[place..end];
                (if part.len() <= 16 { Kind::Name(part) } else { Kind::Bad }, end)
            }
            b'0'..=b'9' => {
                let end = self.run(place, u8::is_ascii_digit);
                let part = &self.text[place..end];
                (if part.len() > 1 && b == b'0' { Kind::Bad } else { Kind::Number(part) }, end)
            }
            b'?' => {
                let end = self.run(place + 1, u8::is_ascii_lowercase);
                (if end == place + 2 { Kind::Variable(self.text[place + 1]) } else { Kind::Bad }, end)
            }
            b'T' | b'!' | b'X' | b'F' | b'G' | b'A' | b'E' | b'(' | b')' | b'[' | b']' | b',' | b'*' | b':' | b'=' | b'&' | b'|' | b'U' | b'>' => {
                (Kind::Sign(b), place + 1)
            }
            _ => (Kind::Bad, place + 1),
        };
        self.at = end;
        self.token = Token { kind, place };
    }

    fn follow<T>(&self) -> Result<T, Fault> {
        Err(Fault::Follow(self.token.place))
    }

    fn expect(&mut self, sign: u8) -> Result<(), Fault> {
        if self.token.kind != Kind::Sign(sign) {
            return self.follow();
        }
        self.advance();
        Ok(())
    }

    fn count(&mut self, nodes: usize) -> Result<(), Fault> {
        self.count += nodes;
        if self.count > 128 { Err(Fault::Limit(self.token.place)) } else { Ok(()) }
    }

    fn add(&mut self, node: Node) -> usize {
        self.nodes.push(node);
        self.nodes.len() - 1
    }

    fn number(digits: &[u8]) -> u16 {
        digits.iter().fold(0u32, |n, d| (n * 10 + u32::from(d - b'0')).min(65535)) as u16
    }

    fn term(&mut self) -> Result<Term, Fault> {
        let place = self.token.place;
        let term = match self.token.kind {
            Kind::Variable(letter) => match self.letters.iter().position(|l| *l == letter) {
                Some(0) => Term::Bound(Variable::Outer),
                Some(_) => Term::Bound(Variable::Inner),
                None => return Err(Fault::Unknown(place)),
            },
            Kind::Number(digits) => {
                let id = Self::number(digits);
                if id >= self.ids {
                    return Err(Fault::Range(place));
                }
                Term::Id(id)
            }
            _ => return self.follow(),
        };
        self.advance();
        Ok(term)
    }

    fn test(&mut self, name: &[u8], nodes: usize) -> Result<Atom, Fault> {
        let place = self.token.place;
        let Some(k) = self.predicates.iter().position(|p| p.name == name) else {
            return Err(Fault::Unknown(place));
        };
        self.count(nodes)?;
        self.advance();
        let mut atom = Atom { predicate: k as u8, first: Term::Id(0), second: Term::Id(0) };
        let places = self.predicates[k].places;
        if places > 0 {
            self.expect(b'(')?;
            atom.first = self.term()?;
            if places > 1 {
                self.expect(b',')?;
                atom.second = self.term()?;
            }
            self.expect(b')')?;
        }
        Ok(atom)
    }

    fn ends(&mut self) -> Result<Ends, Fault> {
        let mut ends = Ends { lower: 0, upper: None };
        if self.token.kind != Kind::Sign(b'[') {
            return Ok(ends);
        }
        self.advance();
        let Kind::Number(digits) = self.token.kind else { return self.follow() };
        ends.lower = Self::number(digits);
        if ends.lower > 10000 {
            return Err(Fault::Range(self.token.place));
        }
        self.advance();
        self.expect(b',')?;
        match self.token.kind {
            Kind::Number(digits) => {
                let upper = Self::number(digits);
                if upper > 10000 || upper < ends.lower {
                    return Err(Fault::Range(self.token.place));
                }
                ends.upper = Some(upper);
            }
            Kind::Sign(b'*') => {}
            _ => return self.follow(),
        }
        self.advance();
        self.expect(b']')?;
        Ok(ends)
    }

    fn formula(&mut self) -> Result<usize, Fault> {
        let mut left = self.clause()?;
        while self.token.kind == Kind::Sign(b'|') {
            self.count(1)?;
            self.advance();
            let right = self.clause()?;
            left = self.add(Node::Or(left, right));
        }
        Ok(left)
    }

    fn clause(&mut self) -> Result<usize, Fault> {
        let mut left = self.item()?;
        while self.token.kind == Kind::Sign(b'&') {
            self.count(1)?;
            self.advance();
            let right = self.item()?;
            left = self.add(Node::And(left, right));
        }
        Ok(left)
    }

    fn quantified(&mut self, all: bool) -> Result<usize, Fault> {
        if self.letters.len() >= 2 {
            return Err(Fault::Limit(self.token.place));
        }
        self.count(1)?;
        self.advance();
        let Kind::Variable(letter) = self.token.kind else { return self.follow() };
        if self.letters.contains(&letter) {
            return Err(Fault::Unknown(self.token.place));
        }
        self.advance();
        self.expect(b':')?;
        let Kind::Name(name) = self.token.kind else { return self.follow() };
        let place = self.token.place;
        let inner = !self.letters.is_empty();
        self.letters.push(letter);
        let bound = self.test(name, 0)?;
        let is_own = |term| match term {
            Term::Bound(Variable::Outer) => !inner,
            Term::Bound(Variable::Inner) => inner,
            Term::Id(_) => false,
        };
        if !is_own(bound.first) && !is_own(bound.second) {
            return Err(Fault::Unknown(place));
        }
        let part = self.item()?;
        self.letters.pop();
        let variable = if inner { Variable::Inner } else { Variable::Outer };
        Ok(self.add(if all { Node::ForAll(variable, bound, part) } else { Node::Exists(variable, bound, part) }))
    }

    fn bracket(&mut self) -> Result<usize, Fault> {
        if self.depth >= 16 {
            return Err(Fault::Limit(self.token.place));
        }
        self.depth += 1;
        self.advance();
        let mut node = self.formula()?;
        match self.token.kind {
            Kind::Sign(b'U') => {
                self.count(1)?;
                self.advance();
                let ends = self.ends()?;
                let second = self.formula()?;
                node = self.add(Node::Until(ends, node, second));
            }
            Kind::Sign(b'>') => {
                self.count(2)?;
                self.advance();
                let not = self.add(Node::Not(node));
                let second = self.formula()?;
                node = self.add(Node::Or(not, second));
            }
            _ => {}
        }
        self.expect(b')')?;
        self.depth -= 1;
        Ok(node)
    }

    fn item(&mut self) -> Result<usize, Fault> {
        match self.token.kind {
            Kind::Name(name) => {
                let atom = self.test(name, 1)?;
                Ok(self.add(Node::Test(atom)))
            }
            Kind::Variable(_) | Kind::Number(_) => {
                let left = self.term()?;
                if self.token.kind != Kind::Sign(b'=') {
                    return self.follow();
                }
                self.count(1)?;
                self.advance();
                let right = self.term()?;
                Ok(self.add(Node::Equal(left, right)))
            }
            Kind::Sign(b'T') => {
                self.count(1)?;
                self.advance();
                Ok(self.add(Node::True))
            }
            Kind::Sign(b'!') => {
                self.count(1)?;
                self.advance();
                let part = self.item()?;
                Ok(self.add(Node::Not(part)))
            }
            Kind::Sign(b'X') => {
                self.count(1)?;
                self.advance();
                let part = self.item()?;
                Ok(self.add(Node::Next(part)))
            }
            Kind::Sign(sign @ (b'F' | b'G')) => {
                self.count(if sign == b'F' { 2 } else { 4 })?;
                self.advance();
                let truth = self.add(Node::True);
                let ends = self.ends()?;
                let part = self.item()?;
                if sign == b'F' {
                    return Ok(self.add(Node::Until(ends, truth, part)));
                }
                let never = self.add(Node::Not(part));
                let until = self.add(Node::Until(ends, truth, never));
                Ok(self.add(Node::Not(until)))
            }
            Kind::Sign(sign @ (b'A' | b'E')) => self.quantified(sign == b'A'),
            Kind::Sign(b'(') => self.bracket(),
            _ => self.follow(),
        }
    }
}

fn read_goal(text: &[u8], ids: u16, predicates: &[Predicate]) -> Result<(Vec<Node>, usize), Fault> {
    if text.len() > 2048 {
        return Err(Fault::TooLong);
    }
    let token = Token { kind: Kind::End, place: 0 };
    let nodes = Vec::with_capacity(128);
    let mut reader = Reader { text, at: 0, token, ids, predicates, letters: Vec::new(), depth: 0, count: 0, nodes };
    reader.advance();
    let root = reader.formula()?;
    if reader.token.kind != Kind::End {
        return reader.follow();
    }
    Ok((reader.nodes, root))
}

const UNIT: &[u8] = b"(abcdefghijklmnop(100,101) | abcdefghijklmnoo(102,103))\n      ";

fn text_of(units: usize) -> Vec<u8> {
    let mut text = Vec::new();
    for k in 0..units {
        text.extend_from_slice(UNIT);
        text.extend_from_slice(if k + 1 < units { b"& " } else { b"  " });
    }
    text
}

fn read_often(text: &[u8], predicates: &[Predicate]) -> u64 {
    let mut check: u64 = 0;
    for _ in 0..1000 {
        if let Ok((nodes, root)) = read_goal(black_box(text), 128, black_box(predicates)) {
            let weight = match nodes[root] {
                Node::And(_, right) => right as u64,
                _ => 0,
            };
            check += black_box(nodes).len() as u64 * 1000 + weight;
        }
    }
    check
}

fn main() {
    let timed = std::env::args().any(|argument| argument == "time");
    let predicates: Vec<Predicate> = (b'a'..=b'p')
        .map(|letter| Predicate { places: 2, name: [b"abcdefghijklmno".as_slice(), &[letter]].concat() })
        .collect();
    for units in [4, 8, 16, 32] {
        let text = text_of(units);
        let check = read_often(&text, &predicates);
        let length = text.len();
        if timed {
            let best = (0..9)
                .map(|_| {
                    let start = Instant::now();
                    black_box(read_often(&text, &predicates));
                    start.elapsed().as_nanos()
                })
                .min()
                .unwrap();
            println!("read {length} bytes 1000 times: {check}: {best}");
        } else {
            println!("read {length} bytes 1000 times: {check}");
        }
    }
}
