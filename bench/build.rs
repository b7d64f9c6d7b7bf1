//! Links the proved archive, or what bench/trial made of the code as it stands.

fn main() {
    println!("cargo:rerun-if-env-changed=SPOKESHAVER_CODE");
    let code = std::env::var("SPOKESHAVER_CODE").expect("bench/run sets SPOKESHAVER_CODE");
    println!("cargo:rerun-if-changed={code}");
    println!("cargo:rustc-link-arg-bins={code}");
}
