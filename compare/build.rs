// Links what compare/run has compiled: the library, and gridstep as a function.

use std::env;

/// The object of the crates host.., and the object that compare/callable makes.
const OBJECTS: [&str; 2] = ["SKWARZYNA_OBJECT", "GRIDSTEP_OBJECT"];

fn main() {
    println!("cargo::rerun-if-changed=build.rs");
    for name in OBJECTS {
        println!("cargo::rerun-if-env-changed={name}");
        let Ok(object) = env::var(name) else {
            println!("cargo::error={name} names nothing to link: compare/run names it and builds this");
            return;
        };
        println!("cargo::rerun-if-changed={object}");
        println!("cargo::rustc-link-arg={object}");
    }
}
