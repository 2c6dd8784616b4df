//! With the feature `linked`, the folder of the calls' archives and the names of their crates come from the environment.
fn main() {
    println!("cargo::rerun-if-env-changed=PROBE_LIB");
    println!("cargo::rerun-if-env-changed=PROBE_CRATES");
    if std::env::var_os("CARGO_FEATURE_LINKED").is_some() {
        let dir = std::env::var("PROBE_LIB").expect("PROBE_LIB names the folder of the archives");
        let names = std::env::var("PROBE_CRATES").expect("PROBE_CRATES names the archives' crates");
        println!("cargo::rustc-link-search=native={dir}");
        for name in names.split_whitespace() {
            println!("cargo::rerun-if-changed={dir}/lib{name}.a");
            println!("cargo::rustc-link-lib=static={name}");
        }
    }
}
