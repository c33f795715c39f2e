//! Links the archives that SPEED_ARCHIVES names, with a space between them.
fn main() {
    println!("cargo:rerun-if-env-changed=SPEED_ARCHIVES");
    for archive in std::env::var("SPEED_ARCHIVES").expect("SPEED_ARCHIVES").split_whitespace() {
        println!("cargo:rerun-if-changed={archive}");
        println!("cargo:rustc-link-arg={archive}");
    }
}
