//! The port's programs against canboat's Rust.
use crate::blocks::{BLOCK, Blocks, run, run_block};
use crate::generate::{PARTS, Part, Rng, batches, fill, streams};
use crate::run::listing;
use crate::script::{answers, call, calls};
use crate::text;
use std::io::{Read, Write};
use std::path::{Path, PathBuf};
use std::process::{Command, Stdio};
use std::thread;
use std::time::Instant;

/// What a program writes on this input.
fn output(program: &Path, input: &[u8]) -> Vec<u8> {
    let mut child = Command::new(program)
        .stdin(Stdio::piped())
        .stdout(Stdio::piped())
        .spawn()
        .unwrap_or_else(|e| panic!("{}: {e}", program.display()));
    let (mut to, mut from) = (child.stdin.take().unwrap(), child.stdout.take().unwrap());
    let mut told = Vec::new();
    thread::scope(|s| {
        // a program that ends early tells less: that is a difference, not an error here
        s.spawn(move || drop(to.write_all(input)));
        from.read_to_end(&mut told).unwrap();
    });
    child.wait().unwrap();
    told
}

/// Compares a part; the Rust's side of a batch is made while the program runs on the one before. Prints what was compared.
fn compare_part(program: &Path, part: &Part, seed: u64, size: usize, runs: usize) -> Result<(), String> {
    let start = Instant::now();
    let (mut cases, mut count, mut bytes) = (0, 0, 0);
    let mut waiting: Option<thread::JoinHandle<Result<(), String>>> = None;
    let finish = |w: Option<thread::JoinHandle<_>>| w.map_or(Ok(()), |w| w.join().unwrap());
    for (seed, size) in batches(part, seed, size) {
        let mut blocks = Blocks::default();
        fill(part, seed, size, &mut blocks);
        cases += blocks.cases;
        count += blocks.calls;
        bytes += blocks.script.len();
        finish(waiting.take())?;
        let (program, name) = (program.to_path_buf(), part.name);
        waiting = Some(thread::spawn(move || {
            let told = output(&program, &blocks.script);
            if told == blocks.transcript {
                return Ok(());
            }
            Err(format!("{name} seed {seed}:\n{}", difference(&program, &blocks, &told, runs)))
        }));
    }
    finish(waiting)?;
    let seconds = start.elapsed().as_secs_f64();
    let mega = bytes as f64 / 1e6;
    println!("{:15} equal: {cases} cases, {count} calls, {mega:.1} MB, {seconds:.1} s", part.name);
    Ok(())
}

/// The first call that is answered differently and the smallest calls that still are, as far as so many `runs` find them.
fn difference(program: &Path, blocks: &Blocks, told: &[u8], runs: usize) -> String {
    let (mut rust, mut port) = (answers(&blocks.transcript), answers(told));
    for (i, block) in blocks.script.chunks(BLOCK).enumerate() {
        for (at, op, body) in calls(block) {
            let (want, have) = (rust.next(), port.next());
            if want != have {
                let (call, want, have) = (text::call(op, body), text::answer(want), text::answer(have));
                let told = format!("block {i} at {at}: {call}\n  rust {want}\n  port {have}");
                if runs == 0 {
                    return told;
                }
                let small = shrink(program, block, runs);
                let kept = save(program, &small);
                return format!("{told}\nsmallest calls ({}):\n{}", kept.display(), told_twice(program, &small));
            }
        }
    }
    "the port tells more than there are calls".into()
}

/// Where the smallest script is kept: beside the programs' folder, or in the temporary one.
fn save(program: &Path, script: &[u8]) -> PathBuf {
    let name = program.file_name().unwrap().to_string_lossy();
    let path = std::env::temp_dir().join(format!("{name}.differs"));
    drop(std::fs::write(&path, script));
    path
}

/// Calls and answers as text; where the port differs, its answer too.
fn told_twice(program: &Path, script: &[u8]) -> String {
    let (rust, port) = (run(script), output(program, script));
    let (mut rust, mut port) = (answers(&rust), answers(&port));
    let mut lines = String::new();
    for (_, op, body) in calls(script) {
        let (want, have) = (rust.next(), port.next());
        lines += &format!("  {} -> {}\n", text::call(op, body), text::answer(want));
        if want != have {
            lines += &format!("     the port: {}\n", text::answer(have));
        }
    }
    lines
}

type Call = (u8, Vec<u8>);

fn written(calls: &[Call]) -> Vec<u8> {
    let mut out = Vec::new();
    for (op, body) in calls {
        call(&mut out, *op, body);
    }
    out
}

/// The fewest calls, with the shortest bodies, that the two still answer differently.
fn shrink(program: &Path, block: &[u8], runs: usize) -> Vec<u8> {
    let mut left = runs + 1;
    let mut differs = |v: &[Call]| {
        left = left.saturating_sub(1);
        let script = written(v);
        left > 0 && run_block(&script).is_some_and(|told| told != output(program, &script))
    };
    let mut kept: Vec<Call> = calls(block).map(|(_, op, body)| (op, body.to_vec())).collect();
    // the shortest beginning
    let (mut low, mut high) = (1, kept.len());
    while low < high {
        let middle = (low + high) / 2;
        if differs(&kept[..middle]) {
            high = middle;
        } else {
            low = middle + 1;
        }
    }
    kept.truncate(low);
    drop_parts(&mut kept, &mut differs);
    // in each call as few bytes as possible
    for i in (0..kept.len()).rev() {
        let op = kept[i].0;
        let mut body = kept[i].1.clone();
        drop_parts(&mut body, &mut |b: &[u8]| {
            let mut shorter = kept.clone();
            shorter[i] = (op, b.to_vec());
            differs(&shorter)
        });
        kept[i].1 = body;
    }
    written(&kept)
}

/// Leaves out parts of v, halves first and single ones last, as long as the rest still differs.
fn drop_parts<T: Clone>(v: &mut Vec<T>, differs: &mut dyn FnMut(&[T]) -> bool) {
    let mut step = v.len().div_ceil(2);
    while step > 0 {
        let mut i = 0;
        while i + step <= v.len() {
            let mut shorter = v.clone();
            shorter.drain(i..i + step);
            if differs(&shorter) {
                *v = shorter;
            } else {
                i += step;
            }
        }
        step /= 2;
    }
}

/// The listing program on streams of bytes.
fn compare_listing(program: &Path, seed: u64, count: usize) -> Result<(), String> {
    let start = Instant::now();
    let mut r = Rng(seed);
    let mut bytes = 0;
    for i in 0..count {
        let streams_of = r.pick(&[0, 1, 2, 100, 400]);
        let input = streams(&mut r, streams_of);
        bytes += input.len();
        let (want, have) = (listing(&input), output(program, &input));
        if have != want.as_bytes() {
            let lines = String::from_utf8_lossy(&have).into_owned();
            let at = want.lines().zip(lines.lines()).position(|(a, b)| a != b);
            let at = at.unwrap_or(want.lines().count().min(lines.lines().count()));
            let line = |t: &str| t.lines().nth(at).unwrap_or("nothing").to_string();
            return Err(format!(
                "listing seed {seed} input {i} line {at}:\n  rust {}\n  port {}",
                line(&want),
                line(&lines)
            ));
        }
    }
    let (mega, seconds) = (bytes as f64 / 1e6, start.elapsed().as_secs_f64());
    println!("{:15} equal: {count} inputs, {mega:.1} MB, {seconds:.1} s", "listing");
    Ok(())
}

/// All parts whose program is there; names the programs that are not. Stops at the first difference.
pub fn compare(bin: &Path, full: bool, seed: u64, runs: usize) -> Result<(), String> {
    let mut missing: Vec<&str> = Vec::new();
    for part in PARTS {
        let program = bin.join(part.program);
        if !program.exists() {
            if !missing.contains(&part.program) {
                missing.push(part.program);
            }
            continue;
        }
        compare_part(&program, part, seed, if full { part.full } else { part.quick }, runs)?;
    }
    let program = bin.join("listing");
    if program.exists() {
        compare_listing(&program, seed, if full { 3_000 } else { 100 })?;
    } else {
        missing.push("listing");
    }
    if !missing.is_empty() {
        println!("not there, so not compared: {}", missing.join(", "));
    }
    Ok(())
}
