//! Calls with their right answers, as tests/cases.py prints them.
use erbighenti::{check, distance, query, term_text, Node, Tables};
use std::collections::BTreeMap;
use std::process::Command;

/// Three runs of words.
#[derive(Clone, Debug, Default)]
pub struct Run {
    pub nodes: Vec<u16>,
    pub rules: Vec<u16>,
    pub connections: Vec<u16>,
    /// the entries that they were made of, as text; nothing for damaged words
    pub entries: Option<String>,
}

impl Run {
    pub fn tables(&self) -> Tables<'_> {
        Tables { nodes: &self.nodes, rules: &self.rules, connections: &self.connections }
    }
}

#[derive(Clone, Debug)]
pub enum Call {
    Query(Node, Node),
    Distance(Node, Node),
    Check(Vec<u16>),
    Text(Vec<u16>),
}

/// What a call says: number, value (distance, terms, place or bytes), and what it wrote.
#[derive(Clone, Debug, Default, PartialEq, Eq)]
pub struct Answer {
    pub number: u16,
    pub value: usize,
    pub words: Vec<u16>,
    pub text: String,
}

#[derive(Clone, Debug)]
pub struct Asked {
    /// which of the tables
    pub over: usize,
    pub call: Call,
    /// words of the area, or bytes of the room, that is lent
    pub lent: usize,
    pub right: Answer,
}

pub struct Cases {
    pub runs: Vec<Run>,
    pub asked: Vec<Asked>,
}

fn numbers<T: TryFrom<usize>>(text: &str) -> Vec<T> {
    let number = |word: &str| word.parse::<usize>().ok().and_then(|n| T::try_from(n).ok()).expect("a number");
    text.split_whitespace().map(number).collect()
}

fn pair(words: &[usize]) -> (Node, Node) {
    (Node(words[0] as u16), Node(words[1] as u16))
}

/// One line of a call, behind its name.
fn asked(over: usize, name: &str, rest: &str) -> Asked {
    let (before, answer) = rest.split_once('=').expect("an answer");
    let asked: Vec<usize> = numbers(before);
    let words = |front: usize| asked[front..].iter().map(|w| *w as u16).collect();
    let (number, said) = answer.trim_start().split_once(' ').expect("an answer behind its number");
    let mut right = Answer { number: number.parse().expect("a number"), ..Answer::default() };
    if name == "text" {
        right.text = said.to_string();
        right.value = said.len();
        return Asked { over, call: Call::Text(words(1)), lent: asked[0], right };
    }
    let said: Vec<usize> = numbers(said);
    right.value = said[0];
    right.words = said[1..].iter().map(|w| *w as u16).collect();
    let (call, lent) = match name {
        "query" => (Call::Query(pair(&asked).0, pair(&asked).1), asked[2]),
        "distance" => (Call::Distance(pair(&asked).0, pair(&asked).1), 0),
        "check" => (Call::Check(words(0)), 0),
        _ => panic!("no call {name}"),
    };
    Asked { over, call, lent, right }
}

/// Cases made from a seed, over three tables and so many random ones, each also damaged.
pub fn cases(seed: u32, tables: u32) -> Cases {
    let script = concat!(env!("CARGO_MANIFEST_DIR"), "/tests/cases.py");
    let out = Command::new("python3").args([script, &seed.to_string(), &tables.to_string()]).output().expect("python3");
    assert!(out.status.success(), "cases.py: {}", String::from_utf8_lossy(&out.stderr));
    let mut made = Cases { runs: vec![], asked: vec![] };
    for line in String::from_utf8(out.stdout).expect("text").lines() {
        let (name, rest) = line.split_once(' ').expect("a name");
        match name {
            "tables" => {
                let [nodes, rules, connections] = rest.split(';').map(numbers).collect::<Vec<_>>().try_into().expect("three runs");
                made.runs.push(Run { nodes, rules, connections, entries: None });
            }
            "entries" => made.runs.last_mut().expect("tables").entries = Some(rest.to_string()),
            _ => made.asked.push(asked(made.runs.len() - 1, name, rest)),
        }
    }
    assert!(made.asked.len() as u32 > 4 * 4 * tables, "too few cases");
    made
}

impl Asked {
    /// The words that it reads beside tables.
    pub fn words(&self) -> &[u16] {
        match &self.call {
            Call::Check(words) | Call::Text(words) => words,
            _ => &[],
        }
    }

    /// The call, with what is lent to be written: an area or a room of just the length of the case.
    pub fn ask(&self, tables: Tables<'_>, area: &mut [u16], room: &mut [u8]) -> Answer {
        self.ask_of(tables, self.words(), area, room)
    }

    fn ask_of(&self, tables: Tables<'_>, words: &[u16], area: &mut [u16], room: &mut [u8]) -> Answer {
        let refused = |number| Answer { number, ..Answer::default() };
        match &self.call {
            Call::Query(left, right) => match query(tables, *left, *right, area) {
                Ok(written) => Answer { number: 0, value: written.distance, words: written.words.to_vec(), text: String::new() },
                Err(refusal) => refused(refusal.number()),
            },
            Call::Distance(left, right) => match distance(tables, *left, *right) {
                Ok(value) => Answer { value, ..Answer::default() },
                Err(refusal) => refused(refusal.number()),
            },
            Call::Check(_) => match check(tables, words) {
                Ok(value) => Answer { value, ..Answer::default() },
                Err(rejection) => Answer { value: rejection.place, ..refused(rejection.refusal.number()) },
            },
            Call::Text(_) => match term_text(words, room) {
                Ok(text) => Answer { value: text.len(), text: text.to_string(), ..Answer::default() },
                Err(refusal) => refused(refusal.number()),
            },
        }
    }

    /// Asks with a lent area or room full of rubbish, and says what is wrong with the answer or with what is left in them.
    pub fn fault(&self, tables: Tables<'_>, area: &mut [u16], room: &mut [u8]) -> Option<String> {
        self.fault_of(tables, self.words(), area, room)
    }

    /// The same, with the words that it reads standing somewhere else.
    pub fn fault_of(&self, tables: Tables<'_>, words: &[u16], area: &mut [u16], room: &mut [u8]) -> Option<String> {
        area.fill(0xdead);
        room.fill(b'Z');
        let got = self.ask_of(tables, words, area, room);
        if got != self.right {
            return Some(format!("{self:?} gave {got:?}"));
        }
        // refused: all zero; answered: what is answered, and zeros behind it
        let left = match self.call {
            Call::Query(..) => area.iter().copied().ne(padded(&self.right.words, area.len())),
            Call::Text(_) => room.iter().copied().ne(padded(self.right.text.as_bytes(), room.len())),
            _ => area.iter().any(|w| *w != 0xdead) || room.iter().any(|b| *b != b'Z'),
        };
        left.then(|| format!("{self:?} left {area:?} and {room:?}"))
    }

    /// how long the area and the room are
    pub fn lengths(&self) -> (usize, usize) {
        match self.call {
            Call::Query(..) => (self.lent, 0),
            Call::Text(_) => (0, self.lent),
            _ => (3, 3),
        }
    }

    pub fn name(&self) -> &'static str {
        match self.call {
            Call::Query(..) => "query",
            Call::Distance(..) => "distance",
            Call::Check(_) => "check",
            Call::Text(_) => "text",
        }
    }
}

/// The items, and zeros behind them up to a length.
fn padded<T: Copy + Default>(items: &[T], length: usize) -> impl Iterator<Item = T> + '_ {
    items.iter().copied().chain(std::iter::repeat(T::default())).take(length)
}

impl Cases {
    /// How often each number was answered, by call.
    pub fn counted(&self) -> BTreeMap<(&'static str, u16), usize> {
        let mut counted = BTreeMap::new();
        for one in &self.asked {
            *counted.entry((one.name(), one.right.number)).or_default() += 1;
        }
        counted
    }
}
