//! With the feature `library`, links the static library `paybook` from the directory that `PAYBOOK_LIB` names, or from
//! `crates/paybook/out` of the repository.

fn main() {
    println!("cargo:rerun-if-env-changed=PAYBOOK_LIB");
    if std::env::var_os("CARGO_FEATURE_LIBRARY").is_none() {
        return;
    }
    let home = std::env::var("CARGO_MANIFEST_DIR").unwrap_or_default();
    let directory = std::env::var("PAYBOOK_LIB").unwrap_or_else(|_| format!("{home}/../crates/paybook/out"));
    println!("cargo:rerun-if-changed={directory}/libpaybook.a");
    println!("cargo:rustc-link-search=native={directory}");
    println!("cargo:rustc-link-lib=paybook");
}
