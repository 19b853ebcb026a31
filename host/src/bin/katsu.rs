//! `katsu`: the library by hand. Values are pairs of hexadecimal digits.

use katsunebyo::cipher::{Call, LONGEST_VALUE};
use katsunebyo::{hex, Image, List, Name, Number, Refused, Work};
use std::ffi::OsString;
use std::process::ExitCode;

const HELP: &str = "\
katsu: Kalyna (DSTU 7624) on one cell, and recipes. HEX is pairs of digits.

  katsu prepare TEXT [NAME=HEX ...]  reads and folds a recipe, prints its image
  katsu run IMAGE [NAME=HEX ...]     runs an image, prints its value
  katsu CALL SUITE HEX ...           makes one cipher call, prints its answer
      blk unblk                              KEY BLOCK
      ctr ofb cfb uncfb cbc uncbc cbp uncbp  KEY IV TEXT
      mac                                    KEY TEXT
      chk                                    KEY TAG TEXT (01 right, 00 wrong)
  katsu help numbers                 lists the numbers of refusals

  SUITE           1   2   3   4   5      NAME      #0 to #3  bound, for prepare
  block (bytes)  16  16  32  32  64                $0 to $7  of the row, for run
  key   (bytes)  16  32  32  64  64                @0 to @3  of the run, for run

A recipe: 'HEX' and names in calls cat(a,b) xor(a,b) eq(a,b) head(n,a)
when(c,a,b) and cipher calls such as ctr.3(key,iv,text). Put it into quotes:
the shell has its own use for # $ ' ( ).

  katsu prepare \"cat('41',#0)\" '#0=42'               020001004142
  katsu run 0B0010000200010041420100030001 '@1=43'   414243

Exit status: 0 answered, 1 refused (number and name), 2 wrong command line.
";

/// Why there is no answer.
enum Failure {
    /// The command line is wrong.
    Usage(String),
    /// The library refused; the text if it was one that was read.
    Refused(Refused, Option<Vec<u8>>),
}

fn main() -> ExitCode {
    let words: Vec<OsString> = std::env::args_os().skip(1).collect();
    match answer(&words) {
        Ok(text) => {
            print!("{text}");
            ExitCode::SUCCESS
        }
        Err(Failure::Refused(refused, text)) => {
            eprint!("{}", explained(&refused, text.as_deref()));
            ExitCode::from(1)
        }
        Err(Failure::Usage(why)) => {
            eprintln!("katsu: {why}\nTry: katsu help");
            ExitCode::from(2)
        }
    }
}

fn answer(words: &[OsString]) -> Result<String, Failure> {
    let Some((command, rest)) = words.split_first() else {
        return Err(Failure::Usage("no command is given".into()));
    };
    match readable(command, "the command")? {
        "help" | "--help" | "-h" => help(rest),
        "prepare" => prepare(rest),
        "run" => run(rest),
        name => match Call::from_name(name) {
            Some(call) => cipher(call, rest),
            None => Err(Failure::Usage(no_command(name))),
        },
    }
}

fn no_command(name: &str) -> String {
    let calls: Vec<&str> = Call::ALL.iter().map(|call| call.name()).collect();
    let calls = calls.join(", ");
    format!("there is no command '{name}'; there are prepare, run, help and the calls {calls}")
}

fn help(rest: &[OsString]) -> Result<String, Failure> {
    match rest {
        [] => Ok(HELP.to_string()),
        [word] if word == "numbers" => Ok(numbers()),
        _ => Err(Failure::Usage(
            "help stands alone, or with the word numbers".into(),
        )),
    }
}

fn numbers() -> String {
    let line = |number: &Number| {
        format!(
            "{:>4}  {:<8} {}\n",
            number.to_u32(),
            number.name(),
            number.when()
        )
    };
    Number::ALL.iter().map(line).collect()
}

fn prepare(rest: &[OsString]) -> Result<String, Failure> {
    let Some((text, values)) = rest.split_first() else {
        return Err(Failure::Usage(
            "prepare takes TEXT [NAME=HEX ...]; no text is given".into(),
        ));
    };
    let list = list(values)?;
    let text = text.as_encoded_bytes();
    let image = Image::prepare(text, &list, &mut Work::new())
        .map_err(|refused| Failure::Refused(refused, Some(text.to_vec())))?;
    Ok(line(image.as_bytes()))
}

fn run(rest: &[OsString]) -> Result<String, Failure> {
    let Some((image, values)) = rest.split_first() else {
        return Err(Failure::Usage(
            "run takes IMAGE [NAME=HEX ...]; no image is given".into(),
        ));
    };
    let image = Image::from_bytes(bytes(image, "IMAGE")?);
    let list = list(values)?;
    let mut out = [0; LONGEST_VALUE];
    let length = image
        .run(&list, &mut out, &mut Work::new())
        .map_err(|refused| Failure::Refused(refused, None))?;
    Ok(line(&out[..length]))
}

fn cipher(call: Call, rest: &[OsString]) -> Result<String, Failure> {
    let names = call.arguments();
    if rest.len() != 1 + names.len() {
        let takes = names.join(" ").to_uppercase();
        let (name, given) = (call.name(), rest.len());
        let arguments = if given == 1 { "argument" } else { "arguments" };
        return Err(Failure::Usage(format!(
            "{name} takes SUITE {takes}, {} arguments; {given} {arguments} given",
            1 + names.len()
        )));
    }
    let suite = suite(&rest[0])?;
    let mut values = Vec::new();
    for (name, word) in names.iter().zip(&rest[1..]) {
        values.push(bytes(word, &name.to_uppercase())?);
    }
    let lent: Vec<&[u8]> = values.iter().map(Vec::as_slice).collect();
    let mut out = [0; LONGEST_VALUE];
    let length = call
        .call(suite, &lent, &mut out)
        .map_err(|refused| Failure::Refused(refused, None))?;
    Ok(line(&out[..length]))
}

fn suite(word: &OsString) -> Result<u64, Failure> {
    let text = readable(word, "SUITE")?;
    text.parse()
        .map_err(|_| Failure::Usage(format!("SUITE: '{text}' is no number")))
}

/// The list of `NAME=HEX` words.
fn list(words: &[OsString]) -> Result<List, Failure> {
    let mut list = List::new();
    for word in words {
        let text = readable(word, "a value")?;
        let Some((name, digits)) = text.split_once('=') else {
            return Err(Failure::Usage(format!(
                "'{text}': a value is given as NAME=HEX, such as '@0=00FF'"
            )));
        };
        let Some(name) = Name::parse(name) else {
            return Err(Failure::Usage(format!(
                "'{name}' is no name; names are #0 to #3, $0 to $7 and @0 to @3"
            )));
        };
        let value =
            hex::decode(digits).map_err(|why| Failure::Usage(format!("value of {name}: {why}")))?;
        list.put(name, &value)
            .map_err(|why| Failure::Usage(why.to_string()))?;
    }
    Ok(list)
}

fn readable<'a>(word: &'a OsString, what: &str) -> Result<&'a str, Failure> {
    word.to_str()
        .ok_or_else(|| Failure::Usage(format!("{what} is not readable text")))
}

fn bytes(word: &OsString, what: &str) -> Result<Vec<u8>, Failure> {
    hex::decode(readable(word, what)?).map_err(|why| Failure::Usage(format!("{what}: {why}")))
}

fn line(bytes: &[u8]) -> String {
    hex::encode(bytes) + "\n"
}

/// The refusal, and for a place in a text the text with a caret under it.
fn explained(refused: &Refused, text: Option<&[u8]>) -> String {
    let said = format!("refused: {refused}\n");
    match text {
        Some(text) if refused.number.has_place() => said + &pointed(text, refused.place),
        _ => said,
    }
}

/// The part of the text around the place, a mark for each byte that a screen can't show, and a caret.
fn pointed(text: &[u8], place: usize) -> String {
    const BEFORE: usize = 60;
    const AFTER: usize = 15;
    let start = place.saturating_sub(BEFORE);
    let end = text.len().min(place + AFTER);
    let shown: String = text[start..end]
        .iter()
        .map(|byte| match byte {
            b' '..=b'~' => *byte as char,
            _ => '?',
        })
        .collect();
    let (front, back) = (mark(start > 0), mark(end < text.len()));
    let indent = " ".repeat(front.len() + place - start);
    format!("  {front}{shown}{back}\n  {indent}^ at {place}\n")
}

/// Stands for what is left out.
fn mark(cut: bool) -> &'static str {
    match cut {
        true => "...",
        false => "",
    }
}
