//! The standard's examples, both ways.

use crate::desk::Desk;
use crate::random::Random;
use katsunebyo::cipher::Call;
use katsunebyo::hex;

pub struct Vector {
    pub name: String,
    pub call: String,
    pub suite: u64,
    pub arguments: Vec<Vec<u8>>,
    pub answers: Vec<Vec<u8>>,
}

pub fn bytes(text: &str) -> Vec<u8> {
    hex::decode(text).expect("pairs of digits")
}

/// The lines of `vectors.txt`.
pub fn vectors() -> Vec<Vector> {
    include_str!("vectors.txt")
        .lines()
        .filter(|line| !line.starts_with('#'))
        .map(|line| {
            let parts: Vec<&str> = line.split(" | ").collect();
            let all = |part: &str| part.split(' ').map(bytes).collect();
            Vector {
                name: parts[0].to_string(),
                call: parts[1].to_string(),
                suite: parts[2].parse().expect("a suite"),
                arguments: all(parts[3]),
                answers: all(parts[4]),
            }
        })
        .collect()
}

/// The call that undoes a call.
pub fn undoing(call: Call) -> Option<Call> {
    match call {
        Call::Blk => Some(Call::Unblk),
        Call::Unblk => Some(Call::Blk),
        Call::Ctr | Call::Ofb => Some(call),
        Call::Cfb => Some(Call::Uncfb),
        Call::Uncfb => Some(Call::Cfb),
        Call::Cbc => Some(Call::Uncbc),
        Call::Uncbc => Some(Call::Cbc),
        Call::Cbp => Some(Call::Uncbp),
        Call::Uncbp => Some(Call::Cbp),
        Call::Mac | Call::Chk => None,
    }
}

fn with_last(arguments: &[Vec<u8>], last: &[u8]) -> Vec<Vec<u8>> {
    let mut arguments = arguments.to_vec();
    *arguments.last_mut().expect("arguments") = last.to_vec();
    arguments
}

#[test]
fn the_examples_of_the_standard() {
    let mut desk = Desk::new("examples of В.2 to В.7, both ways");
    let mut examples = 0;
    for vector in vectors() {
        let Some(call) = Call::from_name(&vector.call) else {
            continue;
        };
        examples += 1;
        let (arguments, answer) = (&vector.arguments, &vector.answers[0]);
        let text = arguments.last().expect("arguments");
        let judged = desk.cipher(call, vector.suite, arguments);
        assert_eq!(judged.as_ref(), Ok(answer), "{}", vector.name);
        match undoing(call) {
            Some(undoing) => {
                let judged = desk.cipher(undoing, vector.suite, &with_last(arguments, answer));
                assert_eq!(judged.as_ref(), Ok(text), "{} undone", vector.name);
            }
            None => check_tags(&mut desk, &vector),
        }
    }
    assert_eq!(examples, 49, "examples in vectors.txt");
    desk.done();
}

/// Every length of the tag is right, and wrong with any one bit turned.
fn check_tags(desk: &mut Desk, vector: &Vector) {
    let (key, text, tag) = (
        &vector.arguments[0],
        &vector.arguments[1],
        &vector.answers[0],
    );
    let mut random = Random::new(21);
    for length in 8..=tag.len() {
        let mut given = tag[..length].to_vec();
        let judged = desk.cipher(
            Call::Chk,
            vector.suite,
            &[key.clone(), given.clone(), text.clone()],
        );
        assert_eq!(judged, Ok(vec![1]), "{}", vector.name);
        let bit = random.below(8 * length);
        given[bit / 8] ^= 1 << (bit % 8);
        let judged = desk.cipher(Call::Chk, vector.suite, &[key.clone(), given, text.clone()]);
        assert_eq!(judged, Ok(vec![0]), "{}", vector.name);
    }
}
