// Where `tools/native-archive` wrote the archive, or the folder that BJARGOLSK_LIB names.
fn main() {
    let folder = std::env::var("BJARGOLSK_LIB").unwrap_or(concat!(env!("CARGO_MANIFEST_DIR"), "/../../target/lib").into());
    println!("cargo:rustc-link-search=native={folder}");
    println!("cargo:rustc-link-lib=static=bjargolsk");
    println!("cargo:rerun-if-changed={folder}/libbjargolsk.a");
    println!("cargo:rerun-if-env-changed=BJARGOLSK_LIB");
}
