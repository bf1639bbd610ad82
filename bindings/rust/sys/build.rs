//! Links the C library. A release has it in the folder `c` of this crate. ROBOTS_C names a folder where `make install` of bindings/c has
//! put another one, its PREFIX. In the repository, `rt lib` proves and builds it first if that hasn't been done. Where there is none for the
//! platform, and with DOCS_RS, as on docs.rs, nothing is linked, so `cargo check` and `cargo doc` work, and a warning says why linking fails.

use std::env;
use std::path::{Path, PathBuf};
use std::process::Command;

fn main() {
    println!("cargo:rerun-if-env-changed=ROBOTS_C");
    println!("cargo:rerun-if-env-changed=DOCS_RS");
    if env::var_os("DOCS_RS").is_some() {
        return;
    }
    let [arch, os, abi] =
        ["ARCH", "OS", "ENV"].map(|it| env::var(format!("CARGO_CFG_TARGET_{it}")).unwrap_or_default());
    if os != "linux" || !["gnu", "musl"].contains(&&*abi) || !["x86_64", "aarch64"].contains(&&*arch) {
        return warn(&format!("there is no C library robots_c for {os} on {arch}, only for Linux with the GNU C library or musl on x86_64 and aarch64"));
    }
    let packed = Path::new(&env::var_os("CARGO_MANIFEST_DIR").unwrap()).join(format!("c/{arch}/librobots_c.a"));
    let archive =
        match env::var_os("ROBOTS_C") {
            Some(installed) => Path::new(&installed).join("lib/librobots_c.a"),
            None if packed.is_file() => packed,
            None if arch == "x86_64" => from_repository(),
            None => return warn(
                "for aarch64, set ROBOTS_C to the absolute PREFIX of `make install` in bindings/c of the repository",
            ),
        };
    if !archive.is_file() {
        fail(&format!(
            "{} is missing: ROBOTS_C is the absolute PREFIX of `make install` in bindings/c, run without LIBDIR",
            archive.display()
        ));
    }
    println!("cargo:rerun-if-changed={}", archive.display());
    println!("cargo:rustc-link-search=native={}", archive.parent().unwrap().display());
    println!("cargo:rustc-link-lib=static=robots_c");
}

/// The archive of crates/robots_c together with the toolchain's calls of malloc, realloc and free.
fn from_repository() -> PathBuf {
    let root = Path::new(&env::var_os("CARGO_MANIFEST_DIR").unwrap()).join("../../..");
    let library = root.join("crates/robots_c");
    if !library.is_dir() {
        fail("the C library isn't here: set ROBOTS_C to the absolute PREFIX of `make install` in bindings/c of the repository");
    }
    let proved = library.join("out/librobots_c.a");
    println!("cargo:rerun-if-changed={}", proved.display());
    for source in ["robots.c", "heap.c"] {
        println!("cargo:rerun-if-changed={}", root.join("bindings/c").join(source).display());
    }
    if !proved.is_file() {
        run(Command::new("rt").arg("lib").current_dir(library));
    }
    let out = Path::new(&env::var_os("OUT_DIR").unwrap()).join("c");
    let archive = out.join("librobots_c.a");
    run(Command::new("make")
        .arg("-s")
        .arg("-C")
        .arg(root.join("bindings/c"))
        .arg(format!("OUT={}", out.display()))
        .arg(&archive));
    archive
}

fn run(command: &mut Command) {
    match command.status() {
        Ok(status) if status.success() => {}
        ended => fail(&format!("{command:?} failed: {ended:?}")),
    }
}

/// Says why nothing is linked: only linking fails then.
fn warn(message: &str) {
    println!("cargo:warning=texting_robots_verified-sys: nothing can be linked: {message}");
}

fn fail(message: &str) -> ! {
    eprintln!("texting_robots_verified-sys: {message}");
    std::process::exit(1)
}
