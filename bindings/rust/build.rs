//! Links the static library: libcapi.a or libperlwynos.a of the folder that the environment
//! variable PERLWYNOS_LIB names, else of target/staticlib of the project, where
//! tools/build/staticlib writes it, or of lib of a release.

use std::env;
use std::path::PathBuf;

fn main() {
    println!("cargo:rerun-if-env-changed=PERLWYNOS_LIB");
    let of = |name: &str| env::var(name).unwrap_or_default();
    if of("CARGO_CFG_TARGET_ARCH") != "x86_64" || of("CARGO_CFG_TARGET_OS") != "linux" {
        panic!("the library of perlwynos is for x86-64 Linux");
    }
    let top = PathBuf::from(of("CARGO_MANIFEST_DIR")).join("../..");
    let places = match env::var_os("PERLWYNOS_LIB") {
        Some(folder) if !folder.is_empty() => {
            let folder = PathBuf::from(folder);
            [("capi", folder.join("libcapi.a")), ("perlwynos", folder.join("libperlwynos.a"))]
        }
        _ => [("capi", top.join("target/staticlib/libcapi.a")), ("perlwynos", top.join("lib/libperlwynos.a"))],
    };
    // A build script runs in the folder of its crate: a path from elsewhere has to be whole.
    let found = places.iter().find_map(|(name, archive)| Some((name, archive.canonicalize().ok()?)));
    let Some((name, archive)) = found else {
        let [(_, first), (_, second)] = &places;
        panic!(
            "there is neither {} nor {}: tools/build/staticlib writes the first, a release has the second, and \
             PERLWYNOS_LIB names another folder",
            first.display(),
            second.display()
        );
    };
    println!("cargo:rerun-if-changed={}", archive.display());
    println!("cargo:rustc-link-search=native={}", archive.parent().expect("a file stands in a folder").display());
    println!("cargo:rustc-link-lib=static={name}");
}
