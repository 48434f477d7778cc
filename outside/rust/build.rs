// Finds libbellbadger.a: in the folder that BELLBADGER_LIB names; else, within the repository, in
// target/lib, which outside/build writes; else where pkg-config says that it is installed.
use std::{env, path::PathBuf, process};

const MAJOR: &str = env!("CARGO_PKG_VERSION_MAJOR");
const MINOR: &str = env!("CARGO_PKG_VERSION_MINOR");

fn main() {
    for name in [
        "BELLBADGER_LIB",
        "PKG_CONFIG",
        "PKG_CONFIG_PATH",
        "PKG_CONFIG_LIBDIR",
    ] {
        println!("cargo:rerun-if-env-changed={name}");
    }
    let folder = folder();
    let library = folder.join("libbellbadger.a");
    println!("cargo:rerun-if-changed={}", library.display());
    if !library.is_file() {
        stop(&format!(
            "{} is not there. Make it, at the top of the repository, with:\n    outside/build\n\
             or name the folder that has it in BELLBADGER_LIB.",
            library.display()
        ));
    }
    println!("cargo:rustc-link-search=native={}", folder.display());
    println!("cargo:rustc-link-lib=static=bellbadger");
}

fn folder() -> PathBuf {
    if let Some(folder) = env::var_os("BELLBADGER_LIB") {
        return PathBuf::from(folder);
    }
    let outside = PathBuf::from(env!("CARGO_MANIFEST_DIR")).join("..");
    if outside.join("link").is_file() {
        return outside.join("../target/lib");
    }
    installed().unwrap_or_else(|said| {
        stop(&format!(
            "bellbadger {MAJOR}.{MINOR} was not found: {said}\n\
             Name the folder with bellbadger.pc in PKG_CONFIG_PATH (PREFIX/lib/pkgconfig), or the one \
             with libbellbadger.a in BELLBADGER_LIB (PREFIX/lib)."
        ))
    })
}

/// The folder of the installed library, where it fits: another major number does not, nor a lower minor one.
fn installed() -> Result<PathBuf, String> {
    let (least, next) = (
        format!("{MAJOR}.{MINOR}"),
        MAJOR.parse::<u32>().unwrap() + 1,
    );
    let fitting = format!("bellbadger >= {least}, bellbadger < {next}");
    pkg_config(&["--exists", "--print-errors", &fitting])?;
    pkg_config(&["--variable=libdir", "bellbadger"]).map(PathBuf::from)
}

fn pkg_config(arguments: &[&str]) -> Result<String, String> {
    let program = env::var_os("PKG_CONFIG").unwrap_or_else(|| "pkg-config".into());
    let done = process::Command::new(program).args(arguments).output();
    let done = done.map_err(|error| format!("pkg-config cannot be run ({error})"))?;
    if !done.status.success() {
        return Err(String::from_utf8_lossy(&done.stderr).trim().to_string());
    }
    Ok(String::from_utf8_lossy(&done.stdout).trim().to_string())
}

fn stop(said: &str) -> ! {
    eprintln!("{said}");
    process::exit(1)
}
