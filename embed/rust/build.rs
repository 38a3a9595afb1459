//! Links the static library: ASSET_LIB is a folder with libasset_c.a and the kit's liblibc_c.a.

fn main() {
    println!("cargo:rerun-if-env-changed=ASSET_LIB");
    if let Ok(folder) = std::env::var("ASSET_LIB") {
        println!("cargo:rustc-link-search=native={folder}");
    }
    println!("cargo:rustc-link-lib=static=asset_c");
    println!("cargo:rustc-link-lib=static=libc_c");
}
