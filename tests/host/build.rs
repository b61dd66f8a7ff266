//! Links the port's static library, whose folder LAMPUGHJATA_LIB names. The bench has this build script
//! too.
use std::env;
use std::path::Path;

fn main() {
    println!("cargo::rerun-if-env-changed=LAMPUGHJATA_LIB");
    if env::var_os("CARGO_FEATURE_LINKED").is_none() {
        return;
    }
    let Ok(folder) = env::var("LAMPUGHJATA_LIB") else {
        println!(
            "cargo::error=LAMPUGHJATA_LIB does not name the folder of liblampughjata.a (use the script run)"
        );
        return;
    };
    let library = Path::new(&folder).join("liblampughjata.a");
    println!("cargo::rerun-if-changed={}", library.display());
    println!("cargo::rustc-link-search=native={folder}");
    println!("cargo::rustc-link-lib=static=lampughjata");
}
