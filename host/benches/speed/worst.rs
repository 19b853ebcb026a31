//! The text that is dearest to prepare.
//!
//! Preparing folds from the top, once for the size and once to write. What has a value is a constant and done with; of
//! a call that refuses each argument is looked at again by itself, and the condition of a `when` twice. So the dearest
//! text refuses, and only after all its work: `when`s nested in their conditions around an `uncbp` that refuses with 8
//! once it has opened its text, and in its arguments as many cipher calls on 1,024 bytes as there is room for. (A search
//! over shapes, each call at its measured time, found one that is a thirtieth dearer and follows no simple rule.)

use crate::ciphers::{self, bytes};
use crate::recipes::{good, Recipe};
use crate::timing::{Job, Turns};
use crate::{met, Section};
use katsunebyo::cipher::{Call, Suite, SUITES};
use katsunebyo::{List, Name};
use std::fmt;

/// The most nodes and levels that a text may have.
const NODES: usize = 128;
const LEVELS: usize = 16;

/// Nodes and levels at most, the largest last.
const SIZES: [(usize, usize); 7] = [
    (16, LEVELS),
    (32, LEVELS),
    (64, LEVELS),
    (NODES, 2),
    (NODES, 4),
    (NODES, 8),
    (NODES, LEVELS),
];

/// What preparing has to stay under.
const MOST_MS: f64 = 20.0;

/// Bytes of `#0` to `#3`: IV and key of suite 2, key of suites 4 and 5 (and block of suite 5), text.
const NAMES: [usize; 4] = [16, 32, 64, 1024];

const WHEN_NODES: usize = 3;
const OPENING_NODES: usize = 4;

enum Tree {
    Leaf(&'static str),
    Call(&'static str, Vec<Tree>),
}

fn call(name: &'static str, leaves: &[&'static str]) -> Tree {
    Tree::Call(name, leaves.iter().map(|leaf| Tree::Leaf(leaf)).collect())
}

/// The dearest call whose value is as long as the name's: chained modes, which have one block at a time.
fn call_as_long(name: &str) -> Option<Tree> {
    match name {
        "#0" => Some(call("mac.2", &["#1", "#3"])),
        "#1" => Some(call("mac.4", &["#2", "#3"])),
        "#2" => Some(call("mac.5", &["#2", "#3"])),
        "#3" => Some(call("cbc.2", &["#1", "#0", "#3"])),
        _ => None,
    }
}

impl Tree {
    fn arguments(&self) -> &[Tree] {
        match self {
            Tree::Leaf(_) => &[],
            Tree::Call(_, arguments) => arguments,
        }
    }

    fn nodes(&self) -> usize {
        1 + self.arguments().iter().map(Tree::nodes).sum::<usize>()
    }

    fn levels(&self) -> usize {
        let below = self.arguments().iter().map(Tree::levels).max();
        1 + below.unwrap_or(0)
    }

    /// The names of its cipher calls.
    fn cipher_calls(&self) -> Vec<&'static str> {
        let own = match self {
            Tree::Call(name, _) if name.contains('.') => Some(*name),
            _ => None,
        };
        let below = self.arguments().iter().flat_map(Tree::cipher_calls);
        own.into_iter().chain(below).collect()
    }

    /// A call for the first name at this level (the root's is 1) whose call has at most so many nodes more.
    fn grow_at(&mut self, level: usize, more: usize) -> bool {
        match self {
            Tree::Leaf(name) if level == 1 => match call_as_long(name) {
                Some(call) if call.nodes() <= more + 1 => {
                    *self = call;
                    true
                }
                _ => false,
            },
            Tree::Call(_, arguments) if level > 1 => arguments
                .iter_mut()
                .any(|argument| argument.grow_at(level - 1, more)),
            _ => false,
        }
    }

    /// The same at the highest level that has one, within so many levels.
    fn grow(&mut self, levels: usize, more: usize) -> bool {
        (1..levels).any(|level| self.grow_at(level, more))
    }
}

impl fmt::Display for Tree {
    fn fmt(&self, f: &mut fmt::Formatter<'_>) -> fmt::Result {
        match self {
            Tree::Leaf(name) => f.write_str(name),
            Tree::Call(name, arguments) => {
                let arguments: Vec<String> = arguments.iter().map(Tree::to_string).collect();
                write!(f, "{name}({})", arguments.join(","))
            }
        }
    }
}

/// With as many calls for names as fit: those of two arguments first, which cost the fewest nodes.
fn filled(mut tree: Tree, nodes: usize, levels: usize) -> Tree {
    loop {
        let left = nodes - tree.nodes();
        if !tree.grow(levels, left.min(2)) && !tree.grow(levels, left) {
            return tree;
        }
    }
}

fn opening(nodes: usize, levels: usize) -> Tree {
    filled(call("uncbp.5", &["#2", "#2", "#3"]), nodes, levels)
}

/// Under so many `when`s, each in the condition of the one above.
fn under_whens(tree: Tree, whens: usize) -> Tree {
    (0..whens).fold(tree, |tree, _| {
        Tree::Call("when", vec![tree, Tree::Leaf("#0"), Tree::Leaf("#0")])
    })
}

/// With the count of `when`s that has the most calls made: folding makes each twice for each `when`, and twice more. What
/// the opening leaves over goes to the sides.
fn worst(nodes: usize, levels: usize) -> Tree {
    let most = (levels - 2).min((nodes - OPENING_NODES) / WHEN_NODES);
    let (tree, whens) = (0..=most)
        .map(|whens| (opening(nodes - WHEN_NODES * whens, levels - whens), whens))
        .max_by_key(|(tree, whens)| (whens + 1) * tree.cipher_calls().len())
        .expect("none is a count too");
    filled(under_whens(tree, whens), nodes, levels)
}

/// After a look that it does not fold whole: the opening refuses.
fn prepare(tree: &Tree) -> Job {
    let bound = (0..).zip(NAMES).fold(List::new(), |list, (name, length)| {
        good(list.with(Name::Bound(name), &bytes(length, length)))
    });
    let recipe = Recipe::new(&tree.to_string(), bound, List::new());
    assert!(recipe.image[2..4] != [1, 0], "it folds to a constant");
    recipe.into_job(Recipe::prepare)
}

/// The cipher calls that a text may have.
const CALLS: [(&str, Call, Suite); 5] = [
    ("uncbp.5", Call::Uncbp, SUITES[4]),
    ("mac.2", Call::Mac, SUITES[1]),
    ("mac.4", Call::Mac, SUITES[3]),
    ("mac.5", Call::Mac, SUITES[4]),
    ("cbc.2", Call::Cbc, SUITES[1]),
];

struct Text {
    /// Nodes and levels at most.
    size: (usize, usize),
    tree: Tree,
    turns: Turns,
}

impl Text {
    fn new(size: (usize, usize)) -> Text {
        let tree = worst(size.0, size.1);
        let what = format!("the worst text of {} nodes, {} levels", size.0, size.1);
        let turns = Turns::new(what, vec![prepare(&tree)]);
        Text { size, tree, turns }
    }

    fn ms(&self) -> f64 {
        self.turns.best()[0] / 1e6
    }
}

pub struct Worst {
    texts: [Text; SIZES.len()],
    /// Each call by its entry.
    alone: Turns,
}

impl Worst {
    pub fn new() -> Worst {
        let alone = CALLS.map(|(_, call, suite)| ciphers::job(call, suite, 1024));
        Worst {
            texts: SIZES.map(Text::new),
            alone: Turns::new("the calls of the worst text", alone.into()),
        }
    }

    /// Milliseconds of its cipher calls, each made once.
    fn once(&self, tree: &Tree) -> f64 {
        let alone = |name: &str| {
            let at = CALLS.iter().position(|(other, ..)| *other == name);
            self.alone.best()[at.expect("one of them")]
        };
        tree.cipher_calls().into_iter().map(alone).sum::<f64>() / 1e6
    }

    fn row(&self, text: &Text) -> String {
        format!(
            "| {} | {} | {} | {:.1} | {:.3} |\n",
            text.tree.nodes(),
            text.tree.levels(),
            text.tree.cipher_calls().len(),
            text.ms() / self.once(&text.tree),
            text.ms()
        )
    }

    /// Those of the sizes that are in it.
    fn table(&self, is_in: fn((usize, usize)) -> bool) -> String {
        let texts = self.texts.iter().filter(|text| is_in(text.size));
        let rows: String = texts.map(|text| self.row(text)).collect();
        format!(
            "| nodes | levels | cipher calls | times made | ms |\n|---|---|---|---|---|\n{rows}"
        )
    }
}

impl Section for Worst {
    fn turns(&mut self) -> Vec<&mut Turns> {
        let texts = self.texts.iter_mut().map(|text| &mut text.turns);
        texts.chain([&mut self.alone]).collect()
    }

    fn tables(&self) -> String {
        let largest = &self.texts[SIZES.len() - 1];
        let text = largest.tree.to_string();
        format!(
            "## The worst text to prepare\n\n\
             Folding looks anew at the arguments of each call that refuses, and twice at a condition; so the dearest text is of \
             `when`s in conditions around an `uncbp` that refuses when it has opened its text, with cipher calls on 1,024 bytes \
             in all of its arguments. {} nodes, {} levels, {} bytes, every cipher call on constants: {:.1} ms; aimed at: under \
             {MOST_MS} ms; met: {}.\n\n\
             ```\n{text}\n```\n\n\
             How it grows with its nodes, at most 16, 32, 64 and 128; `times made` is the time over that of its cipher calls made \
             once each by their entries:\n\n{}\n\
             and with its levels, 2, 4, 8 and 16, the first two of which leave the shape no room for more nodes:\n\n{}",
            largest.tree.nodes(),
            largest.tree.levels(),
            text.len(),
            largest.ms(),
            met(largest.ms() < MOST_MS),
            self.table(|(_, levels)| levels == LEVELS),
            self.table(|(nodes, _)| nodes == NODES)
        )
    }
}
