//! A small row engine: one column of a CSV file sealed row by row, kept, and opened again.
//!
//!     cargo run --example rows [FILE.csv COLUMN]
//!
//! Two recipes are prepared once, with the keys bound. Each row then brings its own values: `$` names from its cells and
//! `@0` a fresh IV. What is kept of a cell is IV, tag and sealed text.

use katsunebyo::{hex, Image, List, Name, Refused, Work};
use std::error::Error;
use std::fs::File;
use std::io::Read;

/// Block and key of suite 3, in bytes.
const BLOCK: usize = 32;
const KEY: usize = 32;

/// `#0` seals, `#1` tags, `@0` is the IV, `$0` the cell: the tag of IV and sealed text, then the sealed text.
const SEAL: &str = "cat(mac.3(#1,cat(@0,ctr.3(#0,@0,$0))),ctr.3(#0,@0,$0))";

/// `@0` is the IV, `$0` the tag, `$1` the sealed text: the cell if the tag is right, else nothing.
const OPEN: &str = "when(chk.3(#1,$0,cat(@0,$1)),ctr.3(#0,@0,$1),'')";

/// What is kept of a cell.
struct Sealed {
    iv: Vec<u8>,
    tag: Vec<u8>,
    text: Vec<u8>,
}

/// The prepared recipes and the rooms they run in.
struct Engine {
    seal: Image,
    open: Image,
    list: List,
    work: Work,
    out: [u8; 1024],
}

impl Engine {
    fn new(sealing_key: &[u8], tagging_key: &[u8]) -> Result<Engine, Box<dyn Error>> {
        let keys = List::new()
            .with(Name::Bound(0), sealing_key)?
            .with(Name::Bound(1), tagging_key)?;
        let mut work = Work::new();
        Ok(Engine {
            seal: Image::prepare(SEAL.as_bytes(), &keys, &mut work)?,
            open: Image::prepare(OPEN.as_bytes(), &keys, &mut work)?,
            list: List::new(),
            work,
            out: [0; 1024],
        })
    }

    fn seal(&mut self, iv: Vec<u8>, cell: &str) -> Result<Sealed, Box<dyn Error>> {
        self.list.clear();
        self.list.put(Name::Run(0), &iv)?;
        self.list.put(Name::Row(0), cell.as_bytes())?;
        let length = self.seal.run(&self.list, &mut self.out, &mut self.work)?;
        let (tag, text) = self.out[..length].split_at(BLOCK);
        let (tag, text) = (tag.to_vec(), text.to_vec());
        Ok(Sealed { iv, tag, text })
    }

    /// The cell; nothing if the tag is wrong (a sealed text is never empty).
    fn open(&mut self, sealed: &Sealed) -> Result<Option<String>, Box<dyn Error>> {
        self.list.clear();
        self.list.put(Name::Run(0), &sealed.iv)?;
        self.list.put(Name::Row(0), &sealed.tag)?;
        self.list.put(Name::Row(1), &sealed.text)?;
        let length = self.open.run(&self.list, &mut self.out, &mut self.work)?;
        let cell = String::from_utf8(self.out[..length].to_vec())?;
        Ok((length > 0).then_some(cell))
    }
}

fn main() {
    let words: Vec<String> = std::env::args().skip(1).collect();
    let done = match words.as_slice() {
        [] => seal_and_open(
            concat!(env!("CARGO_MANIFEST_DIR"), "/examples/rows/patients.csv"),
            "note",
        ),
        [file, column] => seal_and_open(file, column),
        _ => Err("give a CSV file and the name of a column, or nothing".into()),
    };
    if let Err(why) = done {
        eprintln!("rows: {why}");
        std::process::exit(1);
    }
}

fn seal_and_open(file: &str, column: &str) -> Result<(), Box<dyn Error>> {
    let text = std::fs::read_to_string(file).map_err(|why| format!("{file}: {why}"))?;
    let mut rows = csv(&text);
    if rows.is_empty() {
        return Err(format!("{file} has no rows").into());
    }
    let head = rows.remove(0);
    let Some(at) = head.iter().position(|name| name == column) else {
        return Err(format!("{file} has no column '{column}': {}", head.join(", ")).into());
    };
    let mut engine = Engine::new(&random(KEY)?, &random(KEY)?)?;
    println!(
        "seal  {SEAL}\n      {} bytes of image",
        engine.seal.as_bytes().len()
    );
    println!(
        "open  {OPEN}\n      {} bytes of image\n",
        engine.open.as_bytes().len()
    );

    let mut table = vec![vec![
        head[0].clone(),
        "IV, fresh".to_string(),
        format!("{column}, sealed"),
        format!("{column}, opened"),
    ]];
    let mut last = None;
    for row in &rows {
        let cell = row.get(at).map_or("", String::as_str);
        if cell.is_empty() {
            // The standard seals no empty text (number 4), so an empty cell stays one.
            table.push(shown(row, "", "(empty)", "(empty)"));
            continue;
        }
        let sealed = engine.seal(random(BLOCK)?, cell)?;
        let opened = engine
            .open(&sealed)?
            .ok_or("the tag of an untouched cell is wrong")?;
        table.push(shown(
            row,
            &hex::encode(&sealed.iv),
            &hex::encode(&sealed.text),
            &opened,
        ));
        last = Some((row, sealed));
    }
    if let Some((row, mut sealed)) = last {
        sealed.text[0] ^= 1;
        let opened = engine.open(&sealed)?;
        let verdict = opened.map_or("(wrong tag: one bit was changed)".to_string(), |cell| cell);
        table.push(shown(
            row,
            &hex::encode(&sealed.iv),
            &hex::encode(&sealed.text),
            &verdict,
        ));
    }
    print_table(&table);
    show_a_refusal(&mut engine);
    Ok(())
}

/// What a host sees when a value is missing.
fn show_a_refusal(engine: &mut Engine) {
    let nothing = List::new();
    let refused: Result<usize, Refused> =
        engine.seal.run(&nothing, &mut engine.out, &mut engine.work);
    if let Err(refused) = refused {
        println!("\nA row without its values is refused with {refused}.");
    }
}

fn shown(row: &[String], iv: &str, sealed: &str, opened: &str) -> Vec<String> {
    vec![
        row[0].clone(),
        shortened(iv, 12),
        shortened(sealed, 24),
        shortened(opened, 44),
    ]
}

fn shortened(text: &str, most: usize) -> String {
    match text.chars().count() > most {
        true => text.chars().take(most - 2).collect::<String>() + "..",
        false => text.to_string(),
    }
}

fn print_table(table: &[Vec<String>]) {
    let columns = table[0].len();
    let width = |at: usize| table.iter().map(|row| row[at].chars().count()).max();
    let widths: Vec<usize> = (0..columns).map(|at| width(at).unwrap_or(0)).collect();
    for (number, row) in table.iter().enumerate() {
        let cells: Vec<String> = row
            .iter()
            .zip(&widths)
            .map(|(cell, width)| format!("{cell:<width$}"))
            .collect();
        println!("{}", cells.join("  ").trim_end());
        if number == 0 {
            let rules: Vec<String> = widths.iter().map(|width| "-".repeat(*width)).collect();
            println!("{}", rules.join("  "));
        }
    }
}

/// Bytes that nobody can foretell, from the system.
fn random(length: usize) -> Result<Vec<u8>, Box<dyn Error>> {
    let mut bytes = vec![0; length];
    File::open("/dev/urandom")?.read_exact(&mut bytes)?;
    Ok(bytes)
}

/// Rows of a CSV text: commas part the cells, double quotes hold commas and lines, a doubled one is one.
fn csv(text: &str) -> Vec<Vec<String>> {
    let mut rows = Vec::new();
    let (mut row, mut cell, mut quoted) = (Vec::new(), String::new(), false);
    let mut letters = text.chars().peekable();
    while let Some(letter) = letters.next() {
        match letter {
            '"' if quoted && letters.peek() == Some(&'"') => {
                letters.next();
                cell.push('"');
            }
            '"' => quoted = !quoted,
            ',' if !quoted => row.push(std::mem::take(&mut cell)),
            '\n' if !quoted => {
                row.push(std::mem::take(&mut cell));
                rows.push(std::mem::take(&mut row));
            }
            '\r' if !quoted => {}
            _ => cell.push(letter),
        }
    }
    if !cell.is_empty() || !row.is_empty() {
        row.push(cell);
        rows.push(row);
    }
    rows.retain(|row| row.iter().any(|cell| !cell.is_empty()));
    rows
}
