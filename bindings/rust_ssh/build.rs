// The library is looked for in the folder that SAZHONTHIL_SSH_LIB names, else in bindings/out/shared, where bindings/build.sh
// leaves it, else where the linker looks.
use std::path::PathBuf;

fn main() {
    println!("cargo:rerun-if-env-changed=SAZHONTHIL_SSH_LIB");
    let beside = PathBuf::from(env!("CARGO_MANIFEST_DIR")).join("../out/shared");
    let named = std::env::var_os("SAZHONTHIL_SSH_LIB").map(PathBuf::from);
    if let Some(at) = named.or_else(|| beside.canonicalize().ok()) {
        println!("cargo:rustc-link-search=native={}", at.display());
        println!("cargo:rustc-link-arg=-Wl,-rpath,{}", at.display());
    }
    println!("cargo:rustc-link-lib=dylib=sazhonthil_ssh");
}
