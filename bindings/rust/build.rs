//! Links the library where the environment variable CEPAGE_ARCHIVE names it, which is the `libcepage.a` that
//! bindings/c/build.sh makes. Without it the crate starts the program.

fn main() {
    println!("cargo::rustc-check-cfg=cfg(cepage_library)");
    println!("cargo::rerun-if-changed=build.rs");
    println!("cargo::rerun-if-env-changed=CEPAGE_ARCHIVE");
    let Some(archive) = std::env::var_os("CEPAGE_ARCHIVE").filter(|it| !it.is_empty()) else {
        return;
    };
    // As it is named: a link may lead to another archive later.
    let archive = std::env::current_dir().expect("a build has a folder").join(archive);
    let is_named_so = archive.file_name().is_some_and(|it| it == "libcepage.a");
    assert!(is_named_so && archive.is_file(), "CEPAGE_ARCHIVE names libcepage.a, and not {}", archive.display());
    let folder = archive.parent().expect("a file lies in a folder");
    println!("cargo::rerun-if-changed={}", archive.display());
    if archive.canonicalize().is_ok_and(|it| it != archive) {
        // The archive that a link leads to from now on may be an older one: of a folder cargo asks the links themselves.
        println!("cargo::rerun-if-changed={}", folder.display());
    }
    println!("cargo::rustc-link-search=native={}", folder.display());
    println!("cargo::rustc-link-lib=static=cepage");
    println!("cargo::rustc-cfg=cepage_library");
}
