// Where the script says that the static library is; linked anew whenever it is another one.
use std::env;

fn main() {
    let folder = env::var("OURS").expect("OURS: the folder of libdigest_c.a");
    println!("cargo:rerun-if-changed={folder}/libdigest_c.a");
    println!("cargo:rustc-link-search=native={folder}");
    println!("cargo:rustc-link-lib=static=digest_c");
    println!("cargo:rustc-link-lib=dylib=crypto");
}
