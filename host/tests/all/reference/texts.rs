//! Reading a recipe's text (document 01, sections 5 and 7).

use super::calls::{cipher_arguments, CIPHER_CALLS, LONGEST, PLAIN_CALLS};
use super::tree::Tree;

pub const DEEPEST: usize = 16;
pub const MOST_NODES: usize = 128;

/// A number and its place.
pub type Refusal = (u32, usize);

struct Reader<'a> {
    text: &'a [u8],
    at: usize,
    nodes: usize,
}

/// The tree of the whole text, or the first refusal, left to right.
pub fn read(text: &[u8]) -> Result<Tree, Refusal> {
    let mut reader = Reader {
        text,
        at: 0,
        nodes: 0,
    };
    let tree = reader.expression(1)?;
    match reader.at == text.len() {
        true => Ok(tree),
        false => Err(reader.syntax()),
    }
}

impl Reader<'_> {
    /// 20 where the reader stands: at the byte, or at the text's length.
    fn syntax(&self) -> Refusal {
        (20, self.at)
    }

    fn next(&self) -> Option<u8> {
        self.text.get(self.at).copied()
    }

    fn take(&mut self, byte: u8) -> Result<(), Refusal> {
        if self.next() != Some(byte) {
            return Err(self.syntax());
        }
        self.at += 1;
        Ok(())
    }

    /// One digit from `low` to `high`.
    fn digit(&mut self, low: u8, high: u8) -> Result<u8, Refusal> {
        match self.next() {
            Some(byte) if (low..=high).contains(&byte) => {
                self.at += 1;
                Ok(byte - b'0')
            }
            _ => Err(self.syntax()),
        }
    }

    fn expression(&mut self, depth: usize) -> Result<Tree, Refusal> {
        if depth > DEEPEST {
            return Err((22, self.at));
        }
        if self.nodes == MOST_NODES {
            return Err((23, self.at));
        }
        self.nodes += 1;
        match self.next() {
            Some(b'\'') => self.literal(),
            Some(b'#') => self.bound(),
            Some(b'$') => self.name(b'7').map(Tree::Row),
            Some(b'@') => self.name(b'3').map(Tree::Run),
            Some(b'a'..=b'z') => self.call(depth),
            _ => Err(self.syntax()),
        }
    }

    fn literal(&mut self) -> Result<Tree, Refusal> {
        let quote = self.at;
        self.at += 1;
        let mut bytes = Vec::new();
        while self.next() != Some(b'\'') {
            bytes.push(self.hex_digit()? * 16 + self.hex_digit()?);
        }
        self.at += 1;
        match bytes.len() > LONGEST {
            true => Err((6, quote)),
            false => Ok(Tree::Constant(bytes)),
        }
    }

    fn hex_digit(&mut self) -> Result<u8, Refusal> {
        match self.next() {
            Some(b'A'..=b'F') => {
                self.at += 1;
                Ok(self.text[self.at - 1] - b'A' + 10)
            }
            _ => self.digit(b'0', b'9'),
        }
    }

    fn bound(&mut self) -> Result<Tree, Refusal> {
        let place = self.at;
        self.name(b'3').map(|digit| Tree::Bound(digit, place))
    }

    fn name(&mut self, highest: u8) -> Result<u8, Refusal> {
        self.at += 1;
        self.digit(b'0', highest)
    }

    fn call(&mut self, depth: usize) -> Result<Tree, Refusal> {
        let first = self.at;
        while self.next().is_some_and(|byte| byte.is_ascii_lowercase()) {
            self.at += 1;
        }
        let letters = &self.text[first..self.at];
        if let Some((name, _, count)) = PLAIN_CALLS
            .into_iter()
            .find(|(name, _, _)| name.as_bytes() == letters)
        {
            let mut arguments = self.arguments(depth, count)?;
            return Ok(match name {
                "when" => {
                    let b = arguments.pop().expect("three");
                    let a = arguments.pop().expect("three");
                    let c = arguments.pop().expect("three");
                    Tree::When(Box::new([c, a, b]))
                }
                _ => Tree::Call(name, 0, arguments),
            });
        }
        let Some(name) = CIPHER_CALLS
            .into_iter()
            .find(|name| name.as_bytes() == letters)
        else {
            return Err((20, first));
        };
        self.take(b'.')?;
        let suite = self.digit(b'1', b'5')?;
        let arguments = self.arguments(depth, cipher_arguments(name))?;
        Ok(Tree::Call(name, suite as u64, arguments))
    }

    fn arguments(&mut self, depth: usize, count: usize) -> Result<Vec<Tree>, Refusal> {
        let mut arguments = Vec::new();
        for i in 0..count {
            self.take(if i == 0 { b'(' } else { b',' })?;
            arguments.push(self.expression(depth + 1)?);
        }
        self.take(b')')?;
        Ok(arguments)
    }
}
