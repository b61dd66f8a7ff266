//! Links the port's static library, liblampughjata.a: that of the folder that LAMPUGHJATA_LIB names, else that of
//! `../lib`, where a release has it, else the one that the project's `tests/host/library` makes.
use std::env;
use std::path::{Path, PathBuf};
use std::process::{Command, Stdio};

const LIBRARY: &str = "liblampughjata.a";

fn main() {
    println!("cargo::rerun-if-env-changed=LAMPUGHJATA_LIB");
    match folder() {
        Ok(folder) => {
            let library = folder.join(LIBRARY);
            println!("cargo::rerun-if-changed={}", library.display());
            println!("cargo::rustc-link-search=native={}", folder.display());
            println!("cargo::rustc-link-lib=static=lampughjata");
        }
        Err(wrong) => println!("cargo::error={wrong}"),
    }
}

fn folder() -> Result<PathBuf, String> {
    let here = Path::new(env!("CARGO_MANIFEST_DIR"));
    if let Some(folder) = given() {
        return match folder.join(LIBRARY).is_file() {
            true => Ok(folder),
            false => Err(format!(
                "LAMPUGHJATA_LIB names {} (from the crate's folder), where there is no {LIBRARY}",
                folder.display()
            )),
        };
    }

    // Both archives are for x86-64.
    let processor = env::var("CARGO_CFG_TARGET_ARCH").unwrap_or_default();
    if processor != "x86_64" {
        return Err(format!(
            "the static library is for x86-64 and this is {processor}; to try the crate here all \
             the same, set LAMPUGHJATA_LIB to the folder that tests/host/library --native prints"
        ));
    }
    let released = here.join("../lib");
    match released.join(LIBRARY).is_file() {
        true => Ok(released),
        false => made_by(&here.join("../..")),
    }
}

/// The folder that the environment names.
fn given() -> Option<PathBuf> {
    let folder = env::var_os("LAMPUGHJATA_LIB").filter(|folder| !folder.is_empty());
    folder.map(PathBuf::from)
}

/// The folder that the project's script makes and prints.
fn made_by(root: &Path) -> Result<PathBuf, String> {
    for source in ["crates", "crates.txt"] {
        println!("cargo::rerun-if-changed={}", root.join(source).display());
    }
    let script = root.join("tests/host/library");
    let made = Command::new(&script).stderr(Stdio::inherit()).output();
    let wrong = match made {
        Ok(made) if made.status.success() => {
            let folder = String::from_utf8_lossy(&made.stdout);
            return Ok(PathBuf::from(folder.trim_end()));
        }
        Ok(made) => format!("ended with {}", made.status),
        Err(error) => format!("cannot be run: {error}"),
    };
    Err(format!(
        "LAMPUGHJATA_LIB is not set, there is no ../lib, and {} {wrong}",
        script.display()
    ))
}
