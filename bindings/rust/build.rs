//! Links the archives that `./archive` writes, from the folder that ISET_LIB_DIR names. Without it
//! the crate compiles and is checked, and programs do not link.
fn main() {
    println!("cargo::rustc-check-cfg=cfg(iset_linked)");
    println!("cargo::rustc-check-cfg=cfg(iset_no_core_error)");
    println!("cargo::rerun-if-env-changed=ISET_LIB_DIR");
    let Ok(folder) = std::env::var("ISET_LIB_DIR") else {
        println!(
            "cargo::warning=ISET_LIB_DIR is not set: programs will not link. \
             It names the folder of the archives, libiset*.a, that ./archive writes."
        );
        return;
    };
    let machine = std::env::var("CARGO_CFG_TARGET_ARCH").unwrap_or_default();
    if machine != "x86_64" {
        println!(
            "cargo::warning=the archives hold x86-64 code: a program for {machine} will not link."
        );
    }
    println!("cargo::rustc-link-search=native={folder}");
    for archive in [
        "iset",
        "iset_open",
        "iset_ruled",
        "iset_image",
        "iset_disjoint",
        "iset_narrow",
    ] {
        println!("cargo::rerun-if-changed={folder}/lib{archive}.a");
        println!("cargo::rustc-link-lib=static={archive}");
    }
    println!("cargo::rustc-cfg=iset_linked");
}
