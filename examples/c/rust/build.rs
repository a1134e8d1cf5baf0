// The folder of libibisbookcase.a is the variable IBISBOOKCASE, by default what bin/build_c makes.
fn main() {
    println!("cargo:rerun-if-env-changed=IBISBOOKCASE");
    let top = env!("CARGO_MANIFEST_DIR");
    let folder = std::env::var("IBISBOOKCASE").unwrap_or(format!("{top}/../../../out/c/lib"));
    println!("cargo:rustc-link-search=native={folder}");
    println!("cargo:rustc-link-lib=static=ibisbookcase");
}
