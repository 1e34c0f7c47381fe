//! Finds `libvalvepigeon.a` and has it linked. It is looked for where the variable VALVEPIGEON_LIBRARY_DIR says, else in the
//! repository or the release that this package stands in, else where pkg-config says, if the version there fits: an archive's name
//! does not show it.

use std::path::{Path, PathBuf};
use std::process::{exit, Command};

const VARIABLE: &str = "VALVEPIGEON_LIBRARY_DIR";
const ARCHIVE: &str = "libvalvepigeon.a";
const FIRST_NUMBER: &str = env!("CARGO_PKG_VERSION_MAJOR");
const SECOND_NUMBER: &str = env!("CARGO_PKG_VERSION_MINOR");

/// What pkg-config says of the library.
fn pkg_config(what: &str) -> Option<String> {
    let said = Command::new("pkg-config").args([what, "valvepigeon"]).output().ok()?;
    let text = String::from_utf8(said.stdout).ok()?;
    said.status.success().then(|| text.trim().to_string())
}

/// Whether a library of that version has what this package reads: its first number is the same, which moves when the structs do, and
/// its second not below, which moves when something is added, as a field where there was padding.
fn fits(version: &str) -> bool {
    let number = |text: &str| text.parse::<u32>().ok();
    let mut numbers = version.split('.');
    numbers.next() == Some(FIRST_NUMBER) && numbers.next().and_then(number) >= number(SECOND_NUMBER)
}

/// The folder above that of the file valvepigeon.pc, in whose name pkg-config puts a backslash before a blank.
fn by_pkg_config() -> Option<PathBuf> {
    let version = pkg_config("--modversion")?;
    let folder = pkg_config("--variable=pcfiledir")?.replace('\\', "");
    fits(&version).then(|| Path::new(&folder).join(".."))
}

/// The folders to look in, the first first. What the variable says is not passed over.
fn folders() -> Vec<PathBuf> {
    if let Some(said) = std::env::var_os(VARIABLE).filter(|said| !said.is_empty()) {
        return vec![PathBuf::from(said)];
    }
    let top = Path::new(env!("CARGO_MANIFEST_DIR")).join("../..");
    [top.join("target/staticlib"), top.join("lib")].into_iter().chain(by_pkg_config()).collect()
}

fn stop(why: &str) -> ! {
    eprintln!("{why}");
    exit(1)
}

fn main() {
    println!("cargo:rerun-if-env-changed={VARIABLE}");
    let target = std::env::var("TARGET").unwrap_or_default();
    if !(target.starts_with("x86_64") && target.contains("linux")) {
        stop(&format!("{ARCHIVE} is for x86-64 Linux, and cannot be linked for {target}"));
    }
    let Some(folder) = folders().into_iter().find(|folder| folder.join(ARCHIVE).is_file()) else {
        stop(&format!(
            "{ARCHIVE} of version {FIRST_NUMBER}.{SECOND_NUMBER} or a later {FIRST_NUMBER}.x is not found: run ./build-library in the \
             repository, or set {VARIABLE} to the folder that holds it"
        ))
    };
    println!("cargo:rerun-if-changed={}", folder.join(ARCHIVE).display());
    println!("cargo:rustc-link-search=native={}", folder.display());
    println!("cargo:rustc-link-lib=static=valvepigeon");
}
