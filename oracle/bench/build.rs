fn main() {
    println!("cargo:rerun-if-env-changed=TIMED_FOLDER");
    if std::env::var_os("CARGO_FEATURE_TIMED").is_some() {
        let folder = std::env::var("TIMED_FOLDER").expect("TIMED_FOLDER names the folder of libtimed.a");
        println!("cargo:rerun-if-changed={folder}/libtimed.a");
        println!("cargo:rustc-link-search=native={folder}");
        println!("cargo:rustc-link-lib=static=timed");
    }
}
