//! Links the static library into the crate: in a package of the crate the one that it has with it, else the installed one, which pkg-config
//! finds.
use std::env::var;
use std::path::Path;
use std::process::Command;

fn asked(variable: &str) -> String {
    let pkg_config = var("PKG_CONFIG").unwrap_or_else(|_| "pkg-config".into());
    let ran = Command::new(&pkg_config)
        .args([&format!("--variable={variable}"), "plurals"])
        .output()
        .unwrap_or_else(|error| panic!("{pkg_config}: {error}"));
    let found = String::from_utf8_lossy(&ran.stdout).trim().to_string();
    if !ran.status.success() || found.is_empty() {
        panic!("{pkg_config} doesn't find plurals.pc: add its folder to PKG_CONFIG_PATH");
    }
    found
}

/// The folder of the library in a package, if it is for the target.
fn packed() -> Option<String> {
    let folder = Path::new(&var("CARGO_MANIFEST_DIR").ok()?).join("library");
    let is_target = |name: &str, value: &str| var(format!("CARGO_CFG_TARGET_{name}")).map_or(false, |it| it == value);
    let is_for_it = is_target("ARCH", "x86_64") && is_target("OS", "linux") && is_target("ENV", "gnu");
    (is_for_it && folder.join("libplurals.a").is_file()).then(|| folder.display().to_string())
}

fn main() {
    for variable in ["PKG_CONFIG", "PKG_CONFIG_PATH"] {
        println!("cargo:rerun-if-env-changed={variable}");
    }
    let (folder, cldr) = match packed() {
        Some(folder) => (folder.clone(), format!("{folder}/cldr.json")),
        None => (asked("libdir"), asked("cldr")),
    };
    println!("cargo:rerun-if-changed={folder}/libplurals.a");
    println!("cargo:rustc-link-search=native={folder}");
    println!("cargo:rustc-link-lib=static=plurals");
    println!("cargo:rustc-env=PLURALS_CLDR={cldr}");
}
