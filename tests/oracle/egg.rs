//! Substitutes for what src/explain.rs of egg takes from the rest of egg and from other crates. Nothing here is egg's text but where
//! a comment says so; each item has only what explain.rs and the oracle ask of it.
//! An operator is printed as `oN` and a rule as `rN`, document 01's spelling.
use std::fmt::{self, Debug, Display, Formatter};
use std::hash::Hash;
use std::marker::PhantomData;
use std::ops::Deref;
use std::sync::atomic::{AtomicBool, Ordering};

pub type HashMap<K, V> = std::collections::HashMap<K, V>;
pub type HashSet<K> = std::collections::HashSet<K>;

/// egg's text (src/lib.rs), without its serde attributes.
#[derive(Clone, Copy, Default, Ord, PartialOrd, Eq, PartialEq, Hash)]
pub struct Id(u32);

impl From<usize> for Id {
    fn from(n: usize) -> Id {
        Id(n as u32)
    }
}

impl From<Id> for usize {
    fn from(id: Id) -> usize {
        id.0 as usize
    }
}

impl std::fmt::Debug for Id {
    fn fmt(&self, f: &mut std::fmt::Formatter<'_>) -> std::fmt::Result {
        write!(f, "{}", self.0)
    }
}

/// For an interned string: a letter and a number.
#[derive(Clone, Copy, PartialEq, Eq, PartialOrd, Ord, Hash)]
pub struct Symbol(pub char, pub u16);

impl Display for Symbol {
    fn fmt(&self, f: &mut Formatter<'_>) -> fmt::Result {
        write!(f, "{}{}", self.0, self.1)
    }
}

impl Debug for Symbol {
    fn fmt(&self, f: &mut Formatter<'_>) -> fmt::Result {
        Display::fmt(self, f)
    }
}

#[derive(Clone, Copy, PartialEq, Eq, PartialOrd, Ord, Hash, Debug)]
pub struct Var(pub u8);

/// The part of egg's trait that explain.rs calls. `matches` compares two nodes but for which children they have.
pub trait Language: Debug + Clone + Eq + Ord + Hash {
    fn matches(&self, other: &Self) -> bool;
    fn children(&self) -> &[Id];
    fn children_mut(&mut self) -> &mut [Id];

    fn for_each<F: FnMut(Id)>(&self, f: F) {
        self.children().iter().copied().for_each(f)
    }
    fn fold<F: FnMut(T, Id) -> T, T: Clone>(&self, init: T, mut f: F) -> T {
        let mut acc = init;
        self.for_each(|id| acc = f(acc.clone(), id));
        acc
    }
    fn is_leaf(&self) -> bool {
        self.children().is_empty()
    }
    fn map_children<F: FnMut(Id) -> Id>(mut self, mut f: F) -> Self {
        for id in self.children_mut() {
            *id = f(*id);
        }
        self
    }
}

/// Whether `matches` is to compare operators alone: egg's languages were not given, and explain.rs leaves it to them.
pub static OPERATORS_ALONE: AtomicBool = AtomicBool::new(false);

/// For egg's `SymbolLang`: an operator and its children. Equal operators and equal counts match.
#[derive(Clone, PartialEq, Eq, PartialOrd, Ord, Hash, Debug)]
pub struct Node {
    pub op: Symbol,
    pub children: Vec<Id>,
}

impl Language for Node {
    fn matches(&self, other: &Self) -> bool {
        let counts = self.children.len() == other.children.len();
        self.op == other.op && (counts || OPERATORS_ALONE.load(Ordering::Relaxed))
    }
    fn children(&self) -> &[Id] {
        &self.children
    }
    fn children_mut(&mut self) -> &mut [Id] {
        &mut self.children
    }
}

impl Display for Node {
    fn fmt(&self, f: &mut Formatter<'_>) -> fmt::Result {
        Display::fmt(&self.op, f)
    }
}

/// egg's trait makes a node from its text; nothing here is made so.
pub trait FromOp {}

impl FromOp for Node {}

#[derive(Clone, PartialEq, Eq, PartialOrd, Ord, Hash, Debug)]
pub enum ENodeOrVar<L> {
    ENode(L),
    Var(Var),
}

/// An expression: nodes whose children stand before them, the root last.
#[derive(Clone, Debug)]
pub struct RecExpr<L> {
    pub nodes: Vec<L>,
}

impl<L> Deref for RecExpr<L> {
    type Target = [L];
    fn deref(&self) -> &[L] {
        &self.nodes
    }
}

/// Only `get_recexpr`, which the oracle never calls, reads an expression from text.
impl<L> std::str::FromStr for RecExpr<L> {
    type Err = String;
    fn from_str(s: &str) -> Result<Self, String> {
        Err(s.to_string())
    }
}

pub type PatternAst<L> = RecExpr<ENodeOrVar<L>>;

/// For egg's searcher and applier: both are patterns here.
pub struct Pattern<L> {
    pub ast: PatternAst<L>,
}

impl<L> Pattern<L> {
    pub fn get_pattern_ast(&self) -> Option<&PatternAst<L>> {
        Some(&self.ast)
    }
}

pub struct Rewrite<L, N> {
    pub name: Symbol,
    pub searcher: Pattern<L>,
    pub applier: Pattern<L>,
    pub analysis: PhantomData<N>,
}

pub trait Analysis<L> {
    type Data;
}

impl<L> Analysis<L> for () {
    type Data = ();
}

/// Only shortening asks for classes; the oracle has none.
pub struct EClass<L, D> {
    pub nodes: Vec<L>,
    pub data: D,
}

/// Only shortening asks for it; plain, without ranks.
#[derive(Default)]
pub struct UnionFind {
    parents: Vec<Id>,
}

impl UnionFind {
    pub fn make_set(&mut self) -> Id {
        let id = Id::from(self.parents.len());
        self.parents.push(id);
        id
    }
    pub fn find(&self, mut id: Id) -> Id {
        while self.parents[usize::from(id)] != id {
            id = self.parents[usize::from(id)];
        }
        id
    }
    pub fn union(&mut self, a: Id, b: Id) -> Id {
        let (a, b) = (self.find(a), self.find(b));
        self.parents[usize::from(b)] = a;
        a
    }
}

/// Only tree proofs with `let` are printed over several lines; here they would stand on one.
pub mod util {
    pub fn pretty_print(
        buf: &mut String,
        sexp: &super::symbolic_expressions::Sexp,
        _width: usize,
        _level: usize,
    ) -> std::fmt::Result {
        buf.push_str(&sexp.to_string());
        Ok(())
    }
}

/// For the crate of that name: a string, or a list in parentheses with one blank between its items.
pub mod symbolic_expressions {
    use std::fmt::{self, Display, Formatter};

    #[derive(Clone)]
    pub enum Sexp {
        String(String),
        List(Vec<Sexp>),
    }

    impl Display for Sexp {
        fn fmt(&self, f: &mut Formatter<'_>) -> fmt::Result {
            match self {
                Sexp::String(s) => f.write_str(s),
                Sexp::List(items) => {
                    f.write_str("(")?;
                    for (i, item) in items.iter().enumerate() {
                        if i > 0 {
                            f.write_str(" ")?;
                        }
                        item.fmt(f)?;
                    }
                    f.write_str(")")
                }
            }
        }
    }
}

/// For the crate of that name: a number of any size, in base 10^9, the lowest digit first and no zero at the end.
pub mod num_bigint {
    use std::cmp::Ordering;
    use std::fmt::{self, Display, Formatter};
    use std::ops::{Add, AddAssign, Shl, Sub};

    const BASE: u64 = 1_000_000_000;

    #[derive(Clone, Debug, PartialEq, Eq, Hash, Default)]
    pub struct BigUint(Vec<u64>);

    impl BigUint {
        pub fn small(n: u32) -> BigUint {
            BigUint(vec![u64::from(n) % BASE, u64::from(n) / BASE]).trimmed()
        }
        fn trimmed(mut self) -> BigUint {
            while self.0.last() == Some(&0) {
                self.0.pop();
            }
            self
        }
    }

    impl Add for BigUint {
        type Output = BigUint;
        fn add(mut self, other: BigUint) -> BigUint {
            self += other;
            self
        }
    }

    impl Add<u32> for BigUint {
        type Output = BigUint;
        fn add(self, other: u32) -> BigUint {
            self + BigUint::small(other)
        }
    }

    impl AddAssign for BigUint {
        fn add_assign(&mut self, other: BigUint) {
            let mut carry = 0;
            for i in 0..self.0.len().max(other.0.len()) + 1 {
                if i == self.0.len() {
                    self.0.push(0);
                }
                let sum = self.0[i] + other.0.get(i).unwrap_or(&0) + carry;
                self.0[i] = sum % BASE;
                carry = sum / BASE;
            }
            *self = std::mem::take(self).trimmed();
        }
    }

    impl AddAssign<u32> for BigUint {
        fn add_assign(&mut self, other: u32) {
            *self += BigUint::small(other);
        }
    }

    /// As in the crate, a difference below zero panics.
    impl Sub for BigUint {
        type Output = BigUint;
        fn sub(mut self, other: BigUint) -> BigUint {
            assert!(self >= other, "a difference below zero");
            let mut borrow = 0;
            for i in 0..self.0.len() {
                let take = other.0.get(i).unwrap_or(&0) + borrow;
                borrow = u64::from(self.0[i] < take);
                self.0[i] = self.0[i] + borrow * BASE - take;
            }
            self.trimmed()
        }
    }

    impl Shl<u32> for BigUint {
        type Output = BigUint;
        fn shl(mut self, bits: u32) -> BigUint {
            for _ in 0..bits {
                self = self.clone() + self;
            }
            self
        }
    }

    impl Ord for BigUint {
        fn cmp(&self, other: &BigUint) -> Ordering {
            let by_length = self.0.len().cmp(&other.0.len());
            by_length.then_with(|| self.0.iter().rev().cmp(other.0.iter().rev()))
        }
    }

    impl PartialOrd for BigUint {
        fn partial_cmp(&self, other: &BigUint) -> Option<Ordering> {
            Some(self.cmp(other))
        }
    }

    impl Display for BigUint {
        fn fmt(&self, f: &mut Formatter<'_>) -> fmt::Result {
            write!(f, "{}", self.0.last().unwrap_or(&0))?;
            for digit in self.0.iter().rev().skip(1) {
                write!(f, "{:09}", digit)?;
            }
            Ok(())
        }
    }
}

/// For the crate of that name.
pub mod num_traits {
    pub mod identities {
        use crate::num_bigint::BigUint;

        pub trait Zero {
            fn zero() -> Self;
            fn is_zero(&self) -> bool;
        }

        pub trait One {
            fn one() -> Self;
            fn is_one(&self) -> bool;
        }

        impl Zero for BigUint {
            fn zero() -> Self {
                BigUint::default()
            }
            fn is_zero(&self) -> bool {
                *self == BigUint::default()
            }
        }

        impl One for BigUint {
            fn one() -> Self {
                BigUint::small(1)
            }
            fn is_one(&self) -> bool {
                *self == BigUint::small(1)
            }
        }
    }
}
