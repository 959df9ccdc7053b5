//! Links `liblibrary.a`, which `rt lib` in `../crates/library` writes to its `out`. Another folder goes by
//! `FAROALDER_LIB_DIR`.

use std::{env, path::PathBuf};

fn main() {
  println!("cargo::rerun-if-env-changed=FAROALDER_LIB_DIR");
  let here = PathBuf::from(env::var_os("CARGO_MANIFEST_DIR").expect("cargo sets it"));
  let folder =
    env::var_os("FAROALDER_LIB_DIR").map_or(here.join("../crates/library/out"), PathBuf::from);
  let archive = folder.join("liblibrary.a");
  println!("cargo::rerun-if-changed={}", archive.display());
  if !archive.exists() {
    println!(
      "cargo::warning=no {}: run `rt lib` in crates/library or set FAROALDER_LIB_DIR",
      archive.display()
    );
  }
  println!("cargo::rustc-link-search=native={}", folder.display());
  println!("cargo::rustc-link-lib=static=library");
}
