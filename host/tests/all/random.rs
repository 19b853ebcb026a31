//! Inputs from fixed seeds: bytes, values of names, trees, and damage to texts, images and lists.

use crate::reference::calls::{cipher_arguments, CIPHER_CALLS};
use crate::reference::tree::{Tree, Values};
use katsunebyo::cipher::{Suite, SUITES};

/// SplitMix64.
pub struct Random(u64);

impl Random {
    pub fn new(seed: u64) -> Random {
        Random(seed)
    }

    pub fn next(&mut self) -> u64 {
        self.0 = self.0.wrapping_add(0x9E37_79B9_7F4A_7C15);
        let mut z = self.0;
        z = (z ^ (z >> 30)).wrapping_mul(0xBF58_476D_1CE4_E5B9);
        z = (z ^ (z >> 27)).wrapping_mul(0x94D0_49BB_1331_11EB);
        z ^ (z >> 31)
    }

    /// A number below `bound`.
    pub fn below(&mut self, bound: usize) -> usize {
        (self.next() % bound as u64) as usize
    }

    /// True in so many of a hundred.
    pub fn percent(&mut self, chance: usize) -> bool {
        self.below(100) < chance
    }

    pub fn pick<T: Clone>(&mut self, from: &[T]) -> T {
        from[self.below(from.len())].clone()
    }

    pub fn bytes(&mut self, length: usize) -> Vec<u8> {
        (0..length).map(|_| self.next() as u8).collect()
    }

    /// A text length: mostly short, often at a block end, sometimes at the bounds.
    pub fn text_length(&mut self) -> usize {
        match self.below(10) {
            0..=3 => self.below(40),
            4..=6 => (self.pick(&[16, 32, 48, 64, 128]) + self.below(3)).saturating_sub(1),
            7 => self.pick(&[0, 1, 1023, 1024]),
            _ => self.below(300),
        }
    }
}

/// What an argument should be for its call to have a value.
#[derive(Clone, Copy)]
enum Want {
    Any,
    Length(usize),
    /// 00 or 01.
    Choice,
    /// One byte, small.
    Count,
}

/// A recipe's tree with values for its names.
pub struct Recipe {
    pub tree: Tree,
    pub bound: Values,
    pub run: Values,
}

/// Makes recipes whose calls mostly have values, and sometimes do not.
pub struct Maker<'a> {
    random: &'a mut Random,
    suite: Suite,
    named: Values,
    nodes_left: usize,
}

/// A random recipe of at most so many levels and about so many nodes.
pub fn recipe(random: &mut Random, levels: usize, nodes: usize) -> Recipe {
    let suite = random.pick(&SUITES);
    let bound = named(random, suite, &['#'], 20);
    let run = named(random, suite, &['$', '@'], 10);
    let mut values = bound.0.clone();
    values.extend(run.0.clone());
    let mut maker = Maker {
        random,
        suite,
        named: Values(values),
        nodes_left: nodes,
    };
    let tree = maker.tree(levels, Want::Any);
    Recipe { tree, bound, run }
}

/// Values for all names of these signs but `missing` percent, in any order.
fn named(random: &mut Random, suite: Suite, signs: &[char], missing: usize) -> Values {
    let mut values = Vec::new();
    for &sign in signs {
        for digit in 0..if sign == '$' { 8 } else { 4 } {
            if !random.percent(missing) {
                let value = useful(random, suite);
                values.insert(random.below(values.len() + 1), (sign, digit, value));
            }
        }
    }
    Values(values)
}

fn useful(random: &mut Random, suite: Suite) -> Vec<u8> {
    match random.below(8) {
        0 | 1 => random.bytes(suite.key),
        2 | 3 => random.bytes(suite.block),
        4 => vec![random.below(2) as u8],
        5 => vec![random.below(20) as u8],
        _ => {
            let length = random.text_length();
            random.bytes(length)
        }
    }
}

impl Maker<'_> {
    fn tree(&mut self, levels: usize, want: Want) -> Tree {
        self.nodes_left = self.nodes_left.saturating_sub(1);
        // Now and then something else than what is wanted.
        let want = if self.random.percent(4) {
            Want::Any
        } else {
            want
        };
        if levels <= 1 || self.nodes_left == 0 || self.random.percent(20) {
            return self.leaf(want);
        }
        match want {
            Want::Any => self.call(levels),
            Want::Choice => self.choice(levels),
            Want::Count => self.leaf(want),
            Want::Length(length) => self.of_length(levels, length),
        }
    }

    fn leaf(&mut self, want: Want) -> Tree {
        let fits = |value: &[u8]| match want {
            Want::Any => true,
            Want::Length(length) => value.len() == length,
            Want::Choice => matches!(value, [0] | [1]),
            Want::Count => matches!(value, [0..=20]),
        };
        let named: Vec<_> = self
            .named
            .0
            .iter()
            .filter(|(_, _, value)| fits(value))
            .map(|(sign, digit, _)| (*sign, *digit))
            .collect();
        if !named.is_empty() && self.random.percent(70) {
            return name(self.random.pick(&named));
        }
        if self.random.percent(3) {
            let (sign, count) = self.random.pick(&[('#', 4), ('$', 8), ('@', 4)]);
            return name((sign, self.random.below(count) as u8));
        }
        Tree::Constant(match want {
            Want::Any => {
                let length = self.random.below(24);
                self.random.bytes(length)
            }
            Want::Length(length) => self.random.bytes(length),
            Want::Choice => vec![self.random.below(2) as u8],
            Want::Count => vec![self.random.below(20) as u8],
        })
    }

    fn call(&mut self, levels: usize) -> Tree {
        match self.random.below(12) {
            0 | 1 => self.plain(levels, "cat", [Want::Any, Want::Any]),
            2 => {
                let length = self.random.below(40);
                self.plain(levels, "xor", [Want::Length(length), Want::Length(length)])
            }
            3 => self.plain(levels, "eq", [Want::Any, Want::Any]),
            4 => self.plain(levels, "head", [Want::Count, Want::Any]),
            5 | 6 => self.when(levels, Want::Any),
            _ => {
                let name = self.random.pick(&CIPHER_CALLS);
                self.cipher(levels, name)
            }
        }
    }

    fn plain(&mut self, levels: usize, name: &'static str, wants: [Want; 2]) -> Tree {
        let arguments = wants.map(|want| self.tree(levels - 1, want));
        Tree::Call(name, 0, arguments.to_vec())
    }

    fn when(&mut self, levels: usize, want: Want) -> Tree {
        let c = self.tree(levels - 1, Want::Choice);
        let a = self.tree(levels - 1, want);
        let b = self.tree(levels - 1, want);
        Tree::When(Box::new([c, a, b]))
    }

    fn cipher(&mut self, levels: usize, name: &'static str) -> Tree {
        let suite = if self.random.percent(95) {
            self.suite
        } else {
            self.random.pick(&SUITES)
        };
        let (key, block) = (Want::Length(suite.key), Want::Length(suite.block));
        let whole = Want::Length(suite.block * (1 + self.random.below(3)));
        let wants = match name {
            "blk" | "unblk" => vec![key, block],
            "mac" => vec![key, Want::Any],
            "chk" => vec![
                key,
                Want::Length(8 + self.random.below(suite.block - 7)),
                Want::Any,
            ],
            "cbc" | "uncbc" | "uncbp" => vec![key, block, whole],
            _ => vec![key, block, Want::Any],
        };
        assert_eq!(wants.len(), cipher_arguments(name));
        let mut arguments: Vec<Tree> = wants
            .into_iter()
            .map(|want| self.tree(levels - 1, want))
            .collect();
        if name == "uncbp" && levels > 2 && self.random.percent(50) {
            // A sealed text under the same key and IV, so that the fill is good.
            let mut sealed = arguments.clone();
            sealed[2] = self.leaf(Want::Any);
            arguments[2] = Tree::Call("cbp", suite.number, sealed);
        }
        Tree::Call(name, suite.number, arguments)
    }

    fn choice(&mut self, levels: usize) -> Tree {
        match self.random.below(3) {
            0 => self.plain(levels, "eq", [Want::Any, Want::Any]),
            1 => self.cipher(levels, "chk"),
            _ => self.when(levels, Want::Choice),
        }
    }

    fn of_length(&mut self, levels: usize, length: usize) -> Tree {
        let wanted = Want::Length(length);
        match self.random.below(6) {
            0 => self.plain(levels, "xor", [wanted, wanted]),
            1 if length > 0 => {
                let front = self.random.below(length + 1);
                let wants = [Want::Length(front), Want::Length(length - front)];
                self.plain(levels, "cat", wants)
            }
            2 => self.when(levels, wanted),
            3 if length < 256 => {
                let more = length + self.random.below(8);
                let arguments = vec![
                    Tree::Constant(vec![length as u8]),
                    self.tree(levels - 1, Want::Length(more)),
                ];
                Tree::Call("head", 0, arguments)
            }
            4 if length == self.suite.block => {
                let name = self.random.pick(&["blk", "unblk", "mac"]);
                self.cipher(levels, name)
            }
            _ => self.leaf(wanted),
        }
    }
}

fn name((sign, digit): (char, u8)) -> Tree {
    match sign {
        '#' => Tree::Bound(digit, 0),
        '$' => Tree::Row(digit),
        _ => Tree::Run(digit),
    }
}

/// One to three changes of bytes: set, put in, taken out, a stretch twice, the end cut or lengthened.
pub fn damaged(random: &mut Random, bytes: &[u8], alphabet: &[u8]) -> Vec<u8> {
    let mut bytes = bytes.to_vec();
    for _ in 0..1 + random.below(3) {
        let at = random.below(bytes.len() + 1);
        let byte = match random.percent(80) {
            true => random.pick(alphabet),
            false => random.next() as u8,
        };
        match random.below(8) {
            0..=2 if at < bytes.len() => bytes[at] = byte,
            3 => bytes.insert(at, byte),
            4 if at < bytes.len() => {
                bytes.remove(at);
            }
            5 if at < bytes.len() => {
                let length = 1 + random.below((bytes.len() - at).min(12));
                let stretch = bytes[at..at + length].to_vec();
                let to = random.below(bytes.len() + 1);
                bytes.splice(to..to, stretch);
            }
            6 => bytes.truncate(at),
            _ if at < bytes.len() => {
                bytes[at] = bytes[at].wrapping_add(random.pick(&[1, 255]));
            }
            _ => bytes.push(byte),
        }
    }
    bytes
}
