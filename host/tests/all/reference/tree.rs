//! Trees of recipes: their text, their meaning, their folding (document 01, section 5).

use super::calls::{choice, cipher_call, plain_call, Value};
use std::fmt::Write;

#[derive(Clone, Debug, PartialEq, Eq)]
pub enum Tree {
    /// A literal, or a constant of an image.
    Constant(Vec<u8>),
    /// `#`, bound at preparing; with its place in the text.
    Bound(u8, usize),
    Row(u8),
    Run(u8),
    /// Every call but `when`; suite 0 stands for a plain one.
    Call(&'static str, u64, Vec<Tree>),
    When(Box<[Tree; 3]>),
}

/// The values of names, by sign and digit.
#[derive(Clone, Debug, Default, PartialEq, Eq)]
pub struct Values(pub Vec<(char, u8, Vec<u8>)>);

impl Values {
    /// The value, or 25.
    pub fn of(&self, sign: char, digit: u8) -> Value {
        self.0
            .iter()
            .find(|(s, d, _)| (*s, *d) == (sign, digit))
            .map(|(_, _, value)| value.clone())
            .ok_or(25)
    }
}

pub fn call_value(name: &str, suite: u64, arguments: &[Vec<u8>]) -> Value {
    match suite {
        0 => plain_call(name, arguments),
        _ => cipher_call(name, suite, arguments),
    }
}

impl Tree {
    /// The meaning: arguments left to right, the first refusal is the answer, then the call's own checks.
    pub fn value(&self, values: &Values) -> Value {
        match self {
            Tree::Constant(bytes) => Ok(bytes.clone()),
            Tree::Bound(digit, _) => values.of('#', *digit),
            Tree::Row(digit) => values.of('$', *digit),
            Tree::Run(digit) => values.of('@', *digit),
            Tree::Call(name, suite, arguments) => {
                let arguments: Result<Vec<_>, u32> =
                    arguments.iter().map(|tree| tree.value(values)).collect();
                call_value(name, *suite, &arguments?)
            }
            Tree::When(parts) => {
                let [c, a, b] = &**parts;
                match choice(&c.value(values)?)? {
                    true => a.value(values),
                    false => b.value(values),
                }
            }
        }
    }

    /// Folding, bottom up; every `#` has its value.
    pub fn folded(&self, bound: &Values) -> Tree {
        match self {
            Tree::Bound(digit, _) => {
                Tree::Constant(bound.of('#', *digit).expect("checked before folding"))
            }
            Tree::Call(name, suite, arguments) => {
                let folded = arguments.iter().map(|tree| tree.folded(bound)).collect();
                fold_call(name, *suite, folded)
            }
            Tree::When(parts) => fold_when(parts, bound),
            Tree::Constant(_) | Tree::Row(_) | Tree::Run(_) => self.clone(),
        }
    }

    /// The text, in section 5's spelling.
    pub fn spelled(&self) -> String {
        let mut text = String::new();
        self.spell(&mut text);
        text
    }

    fn spell(&self, text: &mut String) {
        let _ = match self {
            Tree::Constant(bytes) => {
                let digits: String = bytes.iter().map(|byte| format!("{byte:02X}")).collect();
                write!(text, "'{digits}'")
            }
            Tree::Bound(digit, _) => write!(text, "#{digit}"),
            Tree::Row(digit) => write!(text, "${digit}"),
            Tree::Run(digit) => write!(text, "@{digit}"),
            Tree::Call(name, 0, arguments) => {
                text.push_str(name);
                return spell_arguments(text, arguments);
            }
            Tree::Call(name, suite, arguments) => {
                let _ = write!(text, "{name}.{suite}");
                return spell_arguments(text, arguments);
            }
            Tree::When(parts) => {
                text.push_str("when");
                return spell_arguments(text, &parts[..]);
            }
        };
    }

    /// The arguments, none for a leaf.
    pub fn arguments(&self) -> &[Tree] {
        match self {
            Tree::Call(_, _, arguments) => arguments,
            Tree::When(parts) => &parts[..],
            _ => &[],
        }
    }

    pub fn nodes(&self) -> usize {
        1 + self.arguments().iter().map(Tree::nodes).sum::<usize>()
    }

    pub fn depth(&self) -> usize {
        1 + self.arguments().iter().map(Tree::depth).max().unwrap_or(0)
    }

    /// The place of the first `#` without a value, in the order of the text.
    pub fn first_unbound(&self, bound: &Values) -> Option<usize> {
        match self {
            Tree::Bound(digit, place) => bound.of('#', *digit).err().map(|_| *place),
            _ => self
                .arguments()
                .iter()
                .find_map(|tree| tree.first_unbound(bound)),
        }
    }
}

fn spell_arguments(text: &mut String, arguments: &[Tree]) {
    for (i, argument) in arguments.iter().enumerate() {
        text.push(if i == 0 { '(' } else { ',' });
        argument.spell(text);
    }
    text.push(')');
}

fn fold_call(name: &'static str, suite: u64, arguments: Vec<Tree>) -> Tree {
    let constants: Option<Vec<Vec<u8>>> = arguments
        .iter()
        .map(|tree| match tree {
            Tree::Constant(bytes) => Some(bytes.clone()),
            _ => None,
        })
        .collect();
    if let Some(Ok(value)) = constants.map(|constants| call_value(name, suite, &constants)) {
        return Tree::Constant(value);
    }
    Tree::Call(name, suite, arguments)
}

fn fold_when(parts: &[Tree; 3], bound: &Values) -> Tree {
    let [c, a, b] = parts;
    let c = c.folded(bound);
    if let Tree::Constant(bytes) = &c {
        match choice(bytes) {
            Ok(true) => return a.folded(bound),
            Ok(false) => return b.folded(bound),
            Err(_) => {}
        }
    }
    Tree::When(Box::new([c, a.folded(bound), b.folded(bound)]))
}
