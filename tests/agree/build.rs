//! Links the archive of the proved codec; `tests/agree/run` says where it is.
use std::path::PathBuf;

fn main() {
    let archive = PathBuf::from(std::env::var("TAGCODEC").expect("TAGCODEC: the archive (tests/agree/run sets it)"));
    let folder = archive.parent().expect("the archive's folder");
    println!("cargo:rustc-link-search=native={}", folder.display());
    println!("cargo:rustc-link-lib=static=capi");
    println!("cargo:rerun-if-env-changed=TAGCODEC");
    println!("cargo:rerun-if-changed={}", archive.display());
}
