// SAZHONTHIL_LIB is the folder of libsazhonthil.a and libsazhonthil_runtime.a.
fn main() {
    println!("cargo:rerun-if-env-changed=SAZHONTHIL_LIB");
    let at = std::env::var("SAZHONTHIL_LIB").expect("SAZHONTHIL_LIB: the folder of libsazhonthil.a");
    println!("cargo:rustc-link-search=native={at}");
    println!("cargo:rustc-link-lib=static=sazhonthil");
    println!("cargo:rustc-link-lib=static=sazhonthil_runtime");
}
