//! oracle compare BIN quick|full [SEED [--first | --runs N]]   the port's programs in the folder BIN against canboat's Rust;
//!                                         --first, --runs: no search for the smallest calls, or one of so many runs (3,000)
//! oracle differences                      the inputs of docs/DIFFERENCES.md, run on the Rust
//! oracle parts                            the generators: program, name, sizes
//! oracle alone PART|all SEED [SIZE]       the Rust by itself, at full size: how often each number was answered
//! oracle script NAME quick|full SEED      > script, of a program or of one part
//! oracle script NAME first SEED           > the same, but of a random part only quick's first cases
//! oracle run                              < script > transcript
//! oracle show FILE                        the calls of a script, with the Rust's answers, as text
//! oracle sample PROGRAM SEED DIR          DIR/stdin and DIR/stdout, for the program of that name
//! oracle words                            < script > a word for the transcript of each block
//! oracle list                             < bytes    the listing program's lines
use oracle::blocks::{BLOCK, Blocks, run};
use oracle::generate::{PARTS, Part, batches, fill, first_size};
use oracle::script::{answers, calls, sum};
use oracle::{alone, compare, differences, run as side, text};
use std::io::{Read, Write};
use std::path::Path;

fn part(name: &str) -> &'static Part {
    let found = PARTS.iter().find(|p| p.name == name);
    found.unwrap_or_else(|| panic!("no part {name}"))
}

fn number<T: std::str::FromStr>(text: &str) -> T {
    text.parse().unwrap_or_else(|_| panic!("no number: {text}"))
}

fn input() -> Vec<u8> {
    let mut all = Vec::new();
    std::io::stdin().read_to_end(&mut all).unwrap();
    all
}

/// The parts of a program, or the part of that name, in one script, each with the size that `of` takes: the cases of a comparison. Each
/// part begins a block if `apart`.
fn script(name: &str, seed: u64, of: fn(&Part) -> usize, apart: bool) -> Blocks {
    let mut blocks = Blocks::default();
    for part in PARTS.iter().filter(|p| p.program == name || p.name == name) {
        if apart && !blocks.script.is_empty() {
            blocks.next_block();
        }
        for (seed, size) in batches(part, seed, of(part)) {
            fill(part, seed, size, &mut blocks);
        }
    }
    blocks
}

/// A word for the transcript of each block of a script.
fn block_words(script: &[u8]) -> Vec<u8> {
    script.chunks(BLOCK).flat_map(|block| sum(&run(block)).to_le_bytes()).collect()
}

fn show(script: &[u8]) -> String {
    let told = run(script);
    let mut told = answers(&told);
    let mut lines = String::new();
    for (i, block) in script.chunks(BLOCK).enumerate() {
        for (at, op, body) in calls(block) {
            let (call, answer) = (text::call(op, body), text::answer(told.next()));
            lines += &format!("{i}:{at} {call} -> {answer}\n");
        }
    }
    lines
}

fn main() {
    let words: Vec<String> = std::env::args().skip(1).collect();
    let words: Vec<&str> = words.iter().map(String::as_str).collect();
    let out: Vec<u8> = match words[..] {
        ["compare", bin, depth @ ("quick" | "full"), ref seed @ ..] => {
            let runs = match words[..] {
                [.., "--first"] => 0,
                [.., "--runs", runs] => number(runs),
                _ => 3_000,
            };
            let seed = seed.first().map_or(1, |s| number(s));
            if let Err(why) = compare::compare(Path::new(bin), depth == "full", seed, runs) {
                println!("DIFFERENT: {why}");
                std::process::exit(1);
            }
            Vec::new()
        }
        ["differences"] => {
            let (count, wrong) = differences::differences();
            for name in &wrong {
                println!("not so: {name}");
            }
            println!("differences     {count} inputs, {} as docs/DIFFERENCES.md says of the Rust", count - wrong.len());
            if !wrong.is_empty() {
                std::process::exit(1);
            }
            Vec::new()
        }
        ["parts"] => {
            let line = |p: &Part| format!("{:15} {:15} quick {} full {}\n", p.program, p.name, p.quick, p.full);
            PARTS.iter().map(line).collect::<String>().into_bytes()
        }
        ["alone", "all", seed] => {
            PARTS.iter().for_each(|p| alone::alone(p, number(seed), p.full));
            Vec::new()
        }
        ["alone", name, seed, ref size @ ..] => {
            let p = part(name);
            alone::alone(p, number(seed), size.first().map_or(p.full, |s| number(s)));
            Vec::new()
        }
        ["script", name, "quick", seed] => script(name, number(seed), |p| p.quick, true).script,
        ["script", name, "full", seed] => script(name, number(seed), |p| p.full, true).script,
        ["script", name, "first", seed] => script(name, number(seed), first_size, true).script,
        ["words"] => block_words(&input()),
        ["run"] => run(&input()),
        ["show", file] => show(&std::fs::read(file).unwrap()).into_bytes(),
        ["sample", program, seed, dir] => {
            let blocks = script(program, number(seed), |p| p.sample, false);
            std::fs::write(format!("{dir}/stdin"), &blocks.script).unwrap();
            std::fs::write(format!("{dir}/stdout"), &blocks.transcript).unwrap();
            println!("{} cases, {} calls", blocks.cases, blocks.calls);
            Vec::new()
        }
        ["list"] => side::listing(&input()).into_bytes(),
        _ => {
            eprintln!("see the head of src/bin/oracle.rs");
            std::process::exit(2);
        }
    };
    // a reader that has seen enough, as `head`, is no error
    drop(std::io::stdout().write_all(&out));
}
