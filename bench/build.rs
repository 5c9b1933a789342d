//! Finds what the harness compares with: C libraries, tokio-util's source, and this repository's proved library.
//! What is not there is left out, with a warning.

use std::env;
use std::fs;
use std::path::{Path, PathBuf};
use std::process::Command;

/// Where Debian's packages put the sources of crates.
const REGISTRY: &str = "/usr/share/cargo/registry";

/// Where `apt-get source` is to unpack the sources of C libraries.
const SOURCES: &str = "sources";

/// Where `rt lib` puts the proved library.
const PROVED: &str = "../crates/bench_exports/out";

fn main() {
    println!("cargo:rustc-check-cfg=cfg(libuv, libevent, libev, tokio_util, proved)");
    println!("cargo:rerun-if-changed=build.rs");
    println!("cargo:rerun-if-changed=c");
    println!("cargo:rerun-if-changed={SOURCES}");
    println!("cargo:rerun-if-changed={PROVED}/libbench_exports.a");
    add("libuv", libuv());
    add("libevent", libevent());
    add("libev", libev());
    add("tokio_util", tokio_util());
    add("proved", proved());
}

// Names a contender to the harness if it was found, or says what is missing.
fn add(contender: &str, found: Result<(), String>) {
    match found {
        Ok(()) => println!("cargo:rustc-cfg={contender}"),
        Err(missing) => println!("cargo:warning={contender} is left out: {missing}"),
    }
}

fn output() -> PathBuf {
    PathBuf::from(env::var_os("OUT_DIR").expect("cargo names the output folder"))
}

// The entry of a folder whose name begins so.
fn entry(folder: &str, prefix: &str) -> Result<PathBuf, String> {
    fs::read_dir(folder)
        .into_iter()
        .flatten()
        .flatten()
        .find(|entry| entry.file_name().to_string_lossy().starts_with(prefix))
        .map(|entry| entry.path())
        .ok_or_else(|| format!("no {prefix}* in {folder}"))
}

fn run(command: &mut Command) -> Result<String, String> {
    let output = command
        .output()
        .map_err(|error| format!("{command:?}: {error}"))?;
    if output.status.success() {
        Ok(String::from_utf8_lossy(&output.stdout).into_owned())
    } else {
        let complaint = String::from_utf8_lossy(&output.stderr);
        Err(format!("{command:?}: {}", complaint.replace('\n', " ")))
    }
}

// Compiles c/NAME.c into a static library that is linked.
fn compile(name: &str, includes: &[&Path]) -> Result<(), String> {
    let object = output().join(format!("{name}.o"));
    let archive = output().join(format!("lib{name}_timers.a"));
    let mut gcc = Command::new("gcc");
    gcc.args(["-O3", "-falign-functions=64", "-w", "-c", "-o"])
        .arg(&object);
    for include in includes {
        gcc.arg("-I").arg(include);
    }
    run(gcc.arg(format!("c/{name}.c")))?;
    run(Command::new("ar").arg("rcs").args([&archive, &object]))?;
    println!("cargo:rustc-link-search=native={}", output().display());
    println!("cargo:rustc-link-lib=static={name}_timers");
    Ok(())
}

// libuv's step that runs timers is only in its static library.
fn libuv() -> Result<(), String> {
    let triplet = run(Command::new("gcc").arg("-print-multiarch"))?;
    let folder = format!("/usr/lib/{}", triplet.trim());
    entry(&folder, "libuv_a.a")?;
    compile("libuv", &[])?;
    println!("cargo:rustc-link-search=native={folder}");
    println!("cargo:rustc-link-lib=static=uv_a");
    Ok(())
}

// The header of the min heap is copied away from those beside it in the source, for which there are others in c/libevent.
fn libevent() -> Result<(), String> {
    let header = entry(SOURCES, "libevent-")?.join("minheap-internal.h");
    fs::copy(&header, output().join("minheap-internal.h"))
        .map_err(|error| format!("{}: {error}", header.display()))?;
    compile("libevent", &[&output(), Path::new("c/libevent")])
}

fn libev() -> Result<(), String> {
    compile("libev", &[&entry(SOURCES, "libev-")?])?;
    println!("cargo:rustc-link-lib=m");
    Ok(())
}

// The wheel is no public part of tokio-util, so its source becomes a module of the harness.
fn tokio_util() -> Result<(), String> {
    let wheel = entry(REGISTRY, "tokio-util-")?.join("src/time/wheel/mod.rs");
    let module = format!("#[path = {wheel:?}]\npub(crate) mod wheel;\n");
    fs::write(output().join("tokio_util.rs"), module).map_err(|error| error.to_string())
}

// Its memory comes from the kit's C library, which lies in the folder c beside the guide that `rt doc` names.
// Each of its functions has a section of its own; they are aligned here, as those of the other sides are by their compilers.
fn proved() -> Result<(), String> {
    let built = entry(PROVED, "libbench_exports.a")?;
    let aligned = output().join("libbench_exports.a");
    run(Command::new("objcopy")
        .arg("--set-section-alignment=.text.*=64")
        .args([&built, &aligned]))?;
    let guide = run(Command::new("rt").arg("doc"))?;
    let kit = Path::new(guide.trim())
        .parent()
        .ok_or("rt doc names no guide")?;
    println!("cargo:rustc-link-search=native={}", output().display());
    println!("cargo:rustc-link-lib=static=bench_exports");
    println!("cargo:rustc-link-search=native={}/c", kit.display());
    println!("cargo:rustc-link-lib=static=libc_c");
    Ok(())
}
