//! Links the archive of the C interface. `run` names its file.

use std::path::Path;

fn main() {
    let archive =
        std::env::var("ARCHIVE").expect("ARCHIVE: libipaqsuni.a; tools/bench/run sets it");
    let place = Path::new(&archive).parent().expect("an archive in a folder").display();
    println!("cargo:rerun-if-env-changed=ARCHIVE");
    println!("cargo:rerun-if-changed={archive}");
    println!("cargo:rustc-link-search=native={place}");
    println!("cargo:rustc-link-lib=static=ipaqsuni");
}
