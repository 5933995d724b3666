//! Makes a copy of the library in the folder BEFORE, where that is set, whose names begin with `before_`, so that it can be linked
//! beside the library itself. Needs nm and objcopy. Since R-8 a library has one register more, and replay is told the revision.
use std::collections::BTreeSet;
use std::env;
use std::ffi::OsStr;
use std::fs;
use std::path::Path;
use std::process::Command;

fn main() {
    println!("cargo::rustc-check-cfg=cfg(before)");
    println!("cargo::rustc-check-cfg=cfg(since_r_8)");
    println!("cargo::rerun-if-env-changed=BEFORE");
    if let Some(folder) = env::var_os("BEFORE").filter(|folder| !folder.is_empty()) {
        if let Err(text) = link(Path::new(&folder)) {
            println!("cargo::error={text}");
        }
    }
}

fn link(folder: &Path) -> Result<(), String> {
    let library = folder.join("libexports.a");
    println!("cargo::rerun-if-changed={}", library.display());
    if !folder.is_absolute() || !library.is_file() {
        return Err(format!(
            "no libexports.a in {}: BEFORE is the absolute path of an earlier library's folder",
            folder.display()
        ));
    }
    let out = env::var("OUT_DIR").unwrap();
    let (names, copy) = (format!("{out}/names"), format!("{out}/libbefore.a"));
    // what it only uses, as memcpy, keeps its name
    let defined = run(Command::new("nm").args(["--extern-only", "--defined-only", "--format=posix"]).arg(&library))?;
    let defined: BTreeSet<&str> = defined.lines().filter_map(|line| Some(line.split_once(' ')?.0)).collect();
    // R-8 brought this export together with the register
    if defined.contains("triton_interface_version") {
        println!("cargo::rustc-cfg=since_r_8");
    }
    let renamed: String = defined.iter().map(|name| format!("{name} before_{name}\n")).collect();
    fs::write(&names, renamed).map_err(|error| format!("{names}: {error}"))?;
    run(Command::new("objcopy").arg("--redefine-syms").args([OsStr::new(&names), library.as_os_str(), OsStr::new(&copy)]))?;
    println!("cargo::rustc-link-search=native={out}");
    println!("cargo::rustc-link-lib=static=before");
    println!("cargo::rustc-cfg=before");
    Ok(())
}

/// What a command prints.
fn run(command: &mut Command) -> Result<String, String> {
    let output = command.output().map_err(|error| format!("{command:?}: {error}"))?;
    match output.status.success() {
        true => Ok(String::from_utf8_lossy(&output.stdout).into_owned()),
        false => Err(format!("{command:?}: {}", String::from_utf8_lossy(&output.stderr).trim_end())),
    }
}
