//! Links `libdoor.a` from the folder that DOOR_FOLDER names. `tools/archives` writes it to `target/staticlib`.

fn main() {
    println!("cargo:rerun-if-env-changed=DOOR_FOLDER");
    let folder = std::env::var("DOOR_FOLDER").expect("DOOR_FOLDER names the folder of libdoor.a");
    println!("cargo:rerun-if-changed={folder}/libdoor.a");
    println!("cargo:rustc-link-search=native={folder}");
    println!("cargo:rustc-link-lib=static=door");
}
