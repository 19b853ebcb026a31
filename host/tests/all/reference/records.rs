//! Images and lists as records (document 01, section 6).

use super::calls::{cipher_arguments, CIPHER_CALLS, LONGEST, PLAIN_CALLS};
use super::texts::{DEEPEST, MOST_NODES};
use super::tree::{Tree, Values};

pub const LARGEST: usize = 16_384;

/// Length of payload, kind, payload; low byte first. Too large for its length field is `None`, and over the bound too.
pub fn record(kind: u16, payload: &[u8]) -> Option<Vec<u8>> {
    let length = u16::try_from(payload.len()).ok()?;
    let mut bytes = length.to_le_bytes().to_vec();
    bytes.extend(kind.to_le_bytes());
    bytes.extend(payload);
    Some(bytes)
}

/// The records of a stretch, one after another; `None` where the last one is cut.
pub fn records(mut bytes: &[u8]) -> Option<Vec<(u16, &[u8])>> {
    let mut records = Vec::new();
    while !bytes.is_empty() {
        if bytes.len() < 4 {
            return None;
        }
        let length = u16::from_le_bytes([bytes[0], bytes[1]]) as usize;
        let kind = u16::from_le_bytes([bytes[2], bytes[3]]);
        let payload = bytes.get(4..4 + length)?;
        records.push((kind, payload));
        bytes = &bytes[4 + length..];
    }
    Some(records)
}

fn kind_of(name: &str, suite: u64) -> u16 {
    match suite {
        0 => {
            PLAIN_CALLS
                .iter()
                .find(|(plain, _, _)| *plain == name)
                .expect("a plain call")
                .1
        }
        _ => {
            let f = CIPHER_CALLS
                .iter()
                .position(|call| *call == name)
                .expect("a cipher call");
            0x0100 + 16 * f as u16 + suite as u16
        }
    }
}

/// The image of a folded tree; `None` if a record in it is too large for its head.
pub fn image(tree: &Tree) -> Option<Vec<u8>> {
    match tree {
        Tree::Constant(bytes) => record(0x0001, bytes),
        Tree::Row(digit) => record(0x0002, &[*digit]),
        Tree::Run(digit) => record(0x0003, &[*digit]),
        Tree::Bound(..) => unreachable!("a folded tree has no #"),
        Tree::Call(name, suite, arguments) => record(kind_of(name, *suite), &images(arguments)?),
        Tree::When(parts) => record(0x0014, &images(&parts[..])?),
    }
}

fn images(trees: &[Tree]) -> Option<Vec<u8>> {
    let parts: Option<Vec<_>> = trees.iter().map(image).collect();
    parts.map(|parts| parts.concat())
}

/// The tree of an image; `None` where the bytes are no image.
pub fn tree_of(image: &[u8]) -> Option<Tree> {
    if image.len() > LARGEST {
        return None;
    }
    let records = records(image)?;
    let [(kind, payload)] = records[..] else {
        return None;
    };
    let tree = tree_of_record(kind, payload)?;
    (tree.depth() <= DEEPEST && tree.nodes() <= MOST_NODES).then_some(tree)
}

fn tree_of_record(kind: u16, payload: &[u8]) -> Option<Tree> {
    match kind {
        0x0001 => (payload.len() <= LONGEST).then(|| Tree::Constant(payload.to_vec())),
        0x0002 => digit(payload, 7).map(Tree::Row),
        0x0003 => digit(payload, 3).map(Tree::Run),
        _ => tree_of_call(kind, payload),
    }
}

fn digit(payload: &[u8], highest: u8) -> Option<u8> {
    match payload {
        [digit] if *digit <= highest => Some(*digit),
        _ => None,
    }
}

fn tree_of_call(kind: u16, payload: &[u8]) -> Option<Tree> {
    let (name, suite, count) = call_of(kind)?;
    let arguments: Option<Vec<Tree>> = records(payload)?
        .into_iter()
        .map(|(kind, payload)| tree_of_record(kind, payload))
        .collect();
    let arguments = arguments?;
    if arguments.len() != count {
        return None;
    }
    Some(match name {
        "when" => Tree::When(Box::new(arguments.try_into().expect("three arguments"))),
        _ => Tree::Call(name, suite, arguments),
    })
}

fn call_of(kind: u16) -> Option<(&'static str, u64, usize)> {
    if let Some((name, _, count)) = PLAIN_CALLS.into_iter().find(|call| call.1 == kind) {
        return Some((name, 0, count));
    }
    let (f, suite) = (kind.checked_sub(0x0100)? / 16, kind % 16);
    let name = CIPHER_CALLS.get(f as usize)?;
    (1..=5)
        .contains(&suite)
        .then(|| (*name, suite as u64, cipher_arguments(name)))
}

/// Which names a list may hold.
#[derive(Clone, Copy, Debug, PartialEq, Eq)]
pub enum Use {
    Preparing,
    Running,
}

/// The values of a good list.
pub fn values_of(list: &[u8], taken: Use) -> Option<Values> {
    let mut values = Values::default();
    for (kind, payload) in records(list)? {
        let (sign, digit) = name_of(kind, taken)?;
        if payload.len() > LONGEST || values.of(sign, digit).is_ok() {
            return None;
        }
        values.0.push((sign, digit, payload.to_vec()));
    }
    Some(values)
}

fn name_of(kind: u16, taken: Use) -> Option<(char, u8)> {
    let digit = (kind % 0x100) as u8;
    let (sign, count) = match (kind / 0x100, taken) {
        (2, Use::Preparing) => ('#', 4),
        (3, Use::Running) => ('$', 8),
        (4, Use::Running) => ('@', 4),
        _ => return None,
    };
    (digit < count).then_some((sign, digit))
}

/// A list in the order of the values.
pub fn list_of(values: &Values) -> Vec<u8> {
    let mut list = Vec::new();
    for (sign, digit, value) in &values.0 {
        let base = match sign {
            '#' => 0x0200,
            '$' => 0x0300,
            _ => 0x0400,
        };
        list.extend(record(base + *digit as u16, value).expect("a value has at most 1,024 bytes"));
    }
    list
}
