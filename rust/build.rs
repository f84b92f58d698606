//! Links the archive `libtapes.a`: from the folder that `TAPES_LIB` names, else from where `rt lib` in `crates/tapes` leaves it.

use std::{env, path::PathBuf, process};

fn main() {
    println!("cargo:rerun-if-env-changed=TAPES_LIB");
    // a relative folder is meant from this package's own, where cargo runs this program
    let folder = env::var_os("TAPES_LIB").map_or_else(|| PathBuf::from("../crates/tapes/out"), PathBuf::from);

    let target = |part: &str| env::var(format!("CARGO_CFG_TARGET_{part}")).unwrap_or_default();
    let (processor, system) = (target("ARCH"), target("OS"));
    if (processor.as_str(), system.as_str()) != ("x86_64", "linux") {
        refuse(&format!(
            "libtapes.a is x86-64 Linux code, and this build is for {processor} {system}.\n\
             Build for x86_64-unknown-linux-gnu; the script `test` beside Cargo.toml does so on an Arm machine."
        ));
    }

    let Ok(archive) = folder.join("libtapes.a").canonicalize() else {
        refuse(&format!(
            "there is no libtapes.a in {}.\n\
             Run `rt lib` in crates/tapes, or name the folder that has it in TAPES_LIB.",
            folder.display()
        ));
    };
    println!("cargo:rerun-if-changed={}", archive.display());
    if let Some(folder) = archive.parent() {
        println!("cargo:rustc-link-search=native={}", folder.display());
    }
    println!("cargo:rustc-link-lib=static=tapes");
}

/// cargo shows what a failed build script wrote to standard error.
fn refuse(why: &str) -> ! {
    eprintln!("\n{why}\n");
    process::exit(1);
}
