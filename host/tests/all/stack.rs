//! The machine stack: the deepest and widest recipes on a thread with what the header says is enough, and how much of it
//! each entry touches.

use crate::desk::Desk;
use crate::reference::records::list_of;
use crate::reference::tree::Values;
use katsunebyo::cipher::{Call, SUITES};
use katsunebyo::{prepare_answer, run_answer};
use std::ffi::c_void;
use std::io::Write;

/// `KATSU_STACK_NEED` of the header.
pub const STACK: usize = 256 * 1024;

/// Texts with values for their names: the deepest and the widest of every kind.
fn extremes() -> Vec<(String, Vec<u8>, Vec<u8>)> {
    let key_and_iv = |sign: char| {
        Values(vec![
            (sign, 0, vec![1; 64]),
            (sign, 1, vec![2; 64]),
            (sign, 2, vec![3; 1024]),
        ])
    };
    let bound = list_of(&key_and_iv('#'));
    let mut run = key_and_iv('@');
    run.0.extend((0..8).map(|digit| ('$', digit, vec![])));
    let run = list_of(&run);
    let mut texts = Vec::new();
    for sign in ['#', '@'] {
        for call in Call::ALL {
            texts.push(deep_call(call, sign));
        }
        texts.push(nested("cat(", sign_two(sign), ",'')"));
        texts.push(nested("cat('',", sign_two(sign), ")"));
        texts.push(nested("when('01',", sign_two(sign), ",$0)"));
        texts.push(nested("when(eq($0,''),$0,", sign_two(sign), ")"));
        texts.push(nested("xor('',", "''", ")"));
        texts.push(nested("eq(", sign_two(sign), ",'')"));
        texts.push("when(eq($0,".repeat(7) + sign_two(sign) + &"),'','')".repeat(7));
        texts.push(wide_ciphers(sign));
    }
    texts.extend([127, 128].map(crate::texts::wide));
    texts.push(format!("'{}'", "00".repeat(1024)));
    texts.push(nested("cat('','", "4", "')"));
    texts.push("cat(".repeat(1024));
    texts.push("a".repeat(4096));
    texts.push("'".to_string() + &"0".repeat(4095));
    texts
        .into_iter()
        .map(|text| (text, bound.clone(), run.clone()))
        .collect()
}

fn sign_two(sign: char) -> &'static str {
    match sign {
        '#' => "#2",
        _ => "@2",
    }
}

/// Sixteen levels.
fn nested(front: &str, leaf: &str, back: &str) -> String {
    front.repeat(15) + leaf + &back.repeat(15)
}

/// A call of suite 5 in its own last argument, sixteen levels deep.
fn deep_call(call: Call, sign: char) -> String {
    let others: String = call.arguments()[..call.arguments().len() - 1]
        .iter()
        .map(|what| match *what {
            "key" => format!("{sign}0,"),
            _ => format!("{sign}1,"),
        })
        .collect();
    let leaf = match call {
        Call::Blk | Call::Unblk => format!("{sign}1"),
        _ => format!("{sign}2"),
    };
    nested(&format!("{}.5({others}", call.name()), &leaf, ")")
}

/// Twenty-five cipher calls of four nodes over `xor`: 124 nodes.
fn wide_ciphers(sign: char) -> String {
    let one = format!("ctr.5({sign}0,{sign}1,{sign}2)");
    let mut texts = vec![one; 25];
    while texts.len() > 1 {
        texts = texts
            .chunks(2)
            .map(|pair| match pair {
                [a, b] => format!("xor({a},{b})"),
                [a] => a.clone(),
                _ => unreachable!("pairs"),
            })
            .collect();
    }
    texts.remove(0)
}

#[test]
fn the_deepest_and_widest_on_a_small_stack() {
    let mut desk = Desk::new("deepest and widest on a stack of 256 KiB");
    // What to expect is worked out on this thread, the calls are made on the small one.
    let mut jobs = Vec::new();
    for (text, bound, run) in extremes() {
        let image = desk.prepare(text.as_bytes(), &bound);
        let answer = image.clone().and_then(|image| desk.run(&image, &run));
        jobs.push((text, bound, run, image, answer));
    }
    let small = std::thread::Builder::new().stack_size(STACK);
    let thread = small.spawn(move || {
        let mut out = vec![0; 16_384];
        let mut work = vec![0; 65_536];
        let mut count = 0;
        for (text, bound, run, image, answer) in jobs {
            let number =
                |judged: &Result<Vec<u8>, (u32, usize)>| judged.as_ref().err().map_or(0, |e| e.0);
            let prepared = prepare_answer(text.as_bytes(), &bound, &mut out, &mut work);
            assert_eq!(prepared.number, number(&image), "{text}");
            count += 1;
            if let Ok(image) = image {
                assert!(out[..prepared.length] == image[..], "{text}");
                let ran = run_answer(&image, &run, &mut out, &mut work);
                assert_eq!(ran.number, number(&answer), "{text}");
                assert!(answer.map_or(true, |answer| out[..ran.length] == answer[..]));
                count += 1;
            }
        }
        for suite in SUITES {
            for call in Call::ALL {
                let arguments: Vec<Vec<u8>> = longest(call, suite.key, suite.block);
                let lent: Vec<&[u8]> = arguments.iter().map(Vec::as_slice).collect();
                let answer = call.answer(suite.number, &lent, &mut out);
                assert!(answer.number == 0 || call == Call::Uncbp, "{}", call.name());
                count += 1;
            }
        }
        count
    });
    let count: u64 = thread.expect("a thread").join().expect("no overflow");
    (0..count).for_each(|_| desk.cases.one());
    desk.done();
}

/// Arguments with the longest text that the call takes.
fn longest(call: Call, key: usize, block: usize) -> Vec<Vec<u8>> {
    call.arguments()
        .iter()
        .map(|what| match *what {
            "key" => vec![1; key],
            "text" if call == Call::Cbp => vec![3; 1023],
            "text" => vec![3; 1024],
            _ => vec![2; block],
        })
        .collect()
}

extern "C" {
    fn pthread_attr_init(attr: *mut [u64; 16]) -> i32;
    fn pthread_attr_setstack(attr: *mut [u64; 16], stack: *mut u8, size: usize) -> i32;
    fn pthread_create(
        thread: *mut usize,
        attr: *const [u64; 16],
        start: extern "C" fn(*mut c_void) -> *mut c_void,
        argument: *mut c_void,
    ) -> i32;
    fn pthread_join(thread: usize, value: *mut *mut c_void) -> i32;
}

/// How many bytes of a thread's stack a job touches, the thread's own start included: the stack is painted before.
fn touched(job: &mut dyn FnMut()) -> usize {
    const PAINT: u8 = 0xC3;
    const SIZE: usize = 1 << 20;
    extern "C" fn start(job: *mut c_void) -> *mut c_void {
        // SAFETY: it is the job below, which lives until the thread is joined.
        let job = unsafe { &mut *(job as *mut &mut dyn FnMut()) };
        job();
        std::ptr::null_mut()
    }
    let mut area = vec![PAINT; SIZE + 4096];
    let offset = area.as_ptr().align_offset(4096);
    let mut job = job;
    // SAFETY: the stack and the job outlive the thread; the attribute is larger than glibc's 56 bytes.
    unsafe {
        let mut attr = [0; 16];
        let mut thread = 0;
        assert_eq!(pthread_attr_init(&mut attr), 0);
        let stack = area.as_mut_ptr().add(offset);
        assert_eq!(pthread_attr_setstack(&mut attr, stack, SIZE), 0);
        let argument = &mut job as *mut &mut dyn FnMut() as *mut c_void;
        assert_eq!(pthread_create(&mut thread, &attr, start, argument), 0);
        assert_eq!(pthread_join(thread, std::ptr::null_mut()), 0);
    }
    let stack = &area[offset..offset + SIZE];
    SIZE - stack.iter().take_while(|byte| **byte == PAINT).count()
}

#[test]
fn how_much_stack_each_entry_touches() {
    let mut lines = Vec::new();
    let mut out = vec![0; 16_384];
    let mut work = vec![0; 65_536];
    let idle = touched(&mut || {});
    for call in Call::ALL {
        let most = SUITES.into_iter().map(|suite| {
            let arguments = longest(call, suite.key, suite.block);
            let lent: Vec<&[u8]> = arguments.iter().map(Vec::as_slice).collect();
            touched(&mut || {
                call.answer(suite.number, &lent, &mut out);
            })
        });
        lines.push((format!("katsu_{}", call.name()), most.max().expect("five")));
    }
    let (mut prepare, mut run) = (0, 0);
    for (text, bound, values) in extremes() {
        let mut length = 0;
        prepare = prepare.max(touched(&mut || {
            length = prepare_answer(text.as_bytes(), &bound, &mut out, &mut work).length;
        }));
        let image = out[..length].to_vec();
        run = run.max(touched(&mut || {
            run_answer(&image, &values, &mut out, &mut work);
        }));
    }
    lines.push(("katsu_prepare".to_string(), prepare));
    lines.push(("katsu_run".to_string(), run));
    let mut said = String::from("    stack touched, bytes:");
    for (name, most) in &lines {
        said.push_str(&format!(" {name} {}", most - idle));
        assert!(*most < STACK, "{name} touched {most} bytes");
    }
    let _ = writeln!(std::io::stdout(), "{said}");
}
