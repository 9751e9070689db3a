//! With the feature `proved` the program `speed` is linked with the proved library, whose folder `BJARGOLSK_LIB` names.
fn main() {
    println!("cargo:rerun-if-env-changed=BJARGOLSK_LIB");
    if std::env::var_os("CARGO_FEATURE_PROVED").is_some() {
        let folder =
            std::env::var("BJARGOLSK_LIB").expect("BJARGOLSK_LIB names the folder of libbjargolsk.a");
        println!("cargo:rustc-link-search=native={folder}");
        println!("cargo:rustc-link-lib=static=bjargolsk");
        println!("cargo:rerun-if-changed={folder}/libbjargolsk.a");
    }
}
