// Links the client. For Linux on x86-64 it is the proved archive that the crate carries, or the one in the folder that STAR_CLIENT_LIB names.
// Elsewhere, or with STAR_CLIENT_PORTABLE=1, a C compiler makes it of the portable client, which the crate carries too.
use std::env;
use std::path::{Path, PathBuf};
use std::process::Command;

fn main() {
    for name in ["STAR_CLIENT_LIB", "STAR_CLIENT_PORTABLE", "CC", "AR"] {
        println!("cargo:rerun-if-env-changed={name}");
    }
    println!("cargo:rerun-if-changed=lib");
    println!("cargo:rerun-if-changed=portable");
    let here = PathBuf::from(env::var_os("CARGO_MANIFEST_DIR").unwrap());
    let folder = if let Some(named) = env::var_os("STAR_CLIENT_LIB") {
        PathBuf::from(named)
    } else if is_kept() {
        here.join("lib/x86_64-linux")
    } else {
        compiled(&here.join("portable"))
    };
    println!("cargo:rustc-link-search=native={}", folder.display());
    println!("cargo:rustc-link-lib=static=star_client");
}

// Whether the archive that the crate carries is for the target.
fn is_kept() -> bool {
    let of_target = |name: &str| env::var(name).unwrap_or_default();
    of_target("CARGO_CFG_TARGET_OS") == "linux"
        && of_target("CARGO_CFG_TARGET_ARCH") == "x86_64"
        && of_target("CARGO_CFG_TARGET_POINTER_WIDTH") == "64"
        && env::var("STAR_CLIENT_PORTABLE").as_deref() != Ok("1")
}

// Compiles the portable client into OUT_DIR.
fn compiled(sources: &Path) -> PathBuf {
    let out = PathBuf::from(env::var_os("OUT_DIR").unwrap());
    let objects: Vec<PathBuf> = ["star_client_portable", "module"].iter().map(|name| out.join(name).with_extension("o")).collect();
    for object in &objects {
        let source = sources.join(object.file_name().unwrap()).with_extension("c");
        let words = ["-std=c11", "-O2", "-w", "-fPIC", "-c"];
        run(Command::new(tool("CC", "cc", "gcc")).args(words).arg(source).arg("-o").arg(object));
    }
    run(Command::new(tool("AR", "ar", "ar")).arg("crs").arg(out.join("libstar_client.a")).args(&objects));
    out
}

// The tool that the environment names for the target, or else the usual one: for another machine than this with its name in front.
fn tool(variable: &str, native: &str, cross: &str) -> String {
    let (target, host) = (env::var("TARGET").unwrap(), env::var("HOST").unwrap());
    let of_target = format!("{variable}_{}", target.replace('-', "_"));
    println!("cargo:rerun-if-env-changed={of_target}");
    if let Some(named) = env::var(of_target).ok().or_else(|| env::var(variable).ok()) {
        return named;
    }
    if target == host { native.to_string() } else { format!("{}-{cross}", prefix(&target)) }
}

// What GNU tools for the target have in front of their names.
fn prefix(target: &str) -> String {
    match target {
        "x86_64-pc-windows-gnu" => "x86_64-w64-mingw32".to_string(),
        _ => target.replace("-unknown", ""),
    }
}

fn run(command: &mut Command) {
    let tool = command.get_program().to_string_lossy().into_owned();
    if !command.status().is_ok_and(|status| status.success()) {
        let target = env::var("TARGET").unwrap();
        eprintln!("star_client carries no archive for {target}, so a C11 compiler and ar have to make one ({tool} failed): install them or name them by CC and AR");
        std::process::exit(1);
    }
}
