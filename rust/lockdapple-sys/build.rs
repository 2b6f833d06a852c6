//! Links the static libraries of the features that are on, from the folder that
//! LOCKDAPPLE_DIR names.

use std::{env, path::Path};

const LIBRARIES: [&str; 4] = ["inter", "gridfile", "reader", "compare"];

fn main() {
    println!("cargo::rerun-if-env-changed=LOCKDAPPLE_DIR");
    let is_on =
        |name: &str| env::var_os(format!("CARGO_FEATURE_{}", name.to_uppercase())).is_some();
    let asked: Vec<_> = LIBRARIES.into_iter().filter(|name| is_on(name)).collect();
    if asked.is_empty() {
        return;
    }
    let Ok(folder) = env::var("LOCKDAPPLE_DIR") else {
        let files: Vec<_> = asked.iter().map(|name| format!("lib{name}.a")).collect();
        println!(
            "cargo::error=LOCKDAPPLE_DIR is not set; it names the folder that has {}",
            files.join(", ")
        );
        return;
    };
    println!("cargo::rustc-link-search=native={folder}");
    for name in asked {
        let file = Path::new(&folder).join(format!("lib{name}.a"));
        println!("cargo::rerun-if-changed={}", file.display());
        if !file.is_file() {
            println!(
                "cargo::error=no {}, which `tools/hostlib {name}` writes",
                file.display()
            );
        }
        println!("cargo::rustc-link-lib=static={name}");
    }
}
