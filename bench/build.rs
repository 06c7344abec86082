// Hands what was compiled how to the report.

use std::env;
use std::process::Command;

/// The words of bench/run on how the library was made.
const MADE: &str = "BENCH_MADE";

fn main() {
    println!("cargo::rerun-if-env-changed={MADE}");
    println!("cargo::rustc-env={MADE}={}", env::var(MADE).unwrap_or_default());
    println!("cargo::rustc-env=BENCH_RUSTC={}", rustc());
    // Cargo parts the flags by this byte.
    let flags = env::var("CARGO_ENCODED_RUSTFLAGS").unwrap_or_default().replace('\x1f', " ");
    println!("cargo::rustc-env=BENCH_RUSTFLAGS={flags}");
}

fn rustc() -> String {
    let asked = Command::new(env::var("RUSTC").unwrap_or("rustc".into())).arg("--version").output();
    asked.map(|said| String::from_utf8_lossy(&said.stdout).trim().to_string()).unwrap_or_default()
}
