//! Links the proved libraries, which `rt lib` in the folder of each writes.
fn main() {
    let crates = concat!(env!("CARGO_MANIFEST_DIR"), "/../crates");
    for name in ["jackdawnail", "test_check", "test_ring", "test_sheet", "test_stern"] {
        let folder = format!("{crates}/{name}/out");
        println!("cargo:rustc-link-search=native={folder}");
        println!("cargo:rustc-link-lib=static={name}");
        println!("cargo:rerun-if-changed={folder}/lib{name}.a");
    }
}
