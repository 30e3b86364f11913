//! Races canboat's Rust, its files unchanged, against the port's static library on the same inputs, and prints a row for each.
//! Before a row is raced both sides do its work once and have to give the same: exit status 1 where they do not.
use oracle::generate::Rng;
use std::fmt::Debug;

mod framing;
mod lists;
#[rustfmt::skip]
#[path = "../../bindings/rust/ngt1.rs"]
mod ngt1;
mod race;
mod records;
mod session;

/// Ends the run where the two sides differ.
fn same<T: PartialEq + Debug + ?Sized>(name: &str, rust: &T, port: &T) {
    if rust != port {
        eprintln!("{name}: the two sides differ\n  rust {rust:?}\n  port {port:?}");
        std::process::exit(1);
    }
}

fn main() {
    println!(
        "# Rust: canboat's files unchanged, opt-level 3, no overflow checks. Port: libngt1_session.a and libngt1.a through bindings/rust/ngt1.rs."
    );
    println!("# Both for any x86-64, no link-time optimisation; runs in turn in one process, best of 31 or more.");
    println!(
        "# decode and encode: ns per byte of the wire; the other rows: ns per call. ratio: rust / port, over 1 the port is faster."
    );
    println!("# No buffer is cleared first: each side goes on in the memory that its last run left.");
    let mut r = Rng(7);
    framing::rows(&mut r);
    records::rows(&mut r);
    session::f1("f1-message");
    lists::rows(&mut r);
    session::rows();
}
