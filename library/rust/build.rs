//! Finds `libdukpt`: in the folder that `DUKPT_LIBRARY_DIR` names, else in `out/library` of the
//! repository, else where `pkg-config` says. `README.md` says which of both libraries is taken.

use std::env;
use std::fs;
use std::path::{Path, PathBuf};
use std::process::{exit, Command};

const FOLDER: &str = "DUKPT_LIBRARY_DIR";
const STATIC: &str = "DUKPT_STATIC";
const PKG_CONFIG: &str = "PKG_CONFIG";
/// What `pkg-config` itself reads.
const PATHS: [&str; 3] = ["PKG_CONFIG_PATH", "PKG_CONFIG_LIBDIR", "PKG_CONFIG_SYSROOT_DIR"];

/// How the library is linked.
#[derive(Clone, Copy, PartialEq)]
enum Kind {
    Archive,
    Shared,
}

use Kind::{Archive, Shared};

impl Kind {
    fn file(self) -> &'static str {
        match self {
            Archive => "libdukpt.a",
            Shared => "libdukpt.so",
        }
    }

    fn word(self) -> &'static str {
        match self {
            Archive => "static",
            Shared => "dylib",
        }
    }
}

fn main() {
    for variable in [FOLDER, STATIC, PKG_CONFIG].iter().chain(&PATHS) {
        println!("cargo:rerun-if-env-changed={}", variable);
    }
    if let Err(why) = find(wanted()) {
        eprintln!("{}", why);
        exit(1);
    }
}

/// The one kind that is asked for, if one is.
fn wanted() -> Option<Kind> {
    match env::var(STATIC).as_deref() {
        Ok("0") => Some(Shared),
        Ok(text) if !text.is_empty() => Some(Archive),
        _ => env::var_os("CARGO_FEATURE_STATIC").map(|_| Archive),
    }
}

fn find(wanted: Option<Kind>) -> Result<(), String> {
    if let Some(named) = env::var_os(FOLDER) {
        let folder = PathBuf::from(named);
        let kind = kind_in(&folder, [Archive, Shared], wanted).ok_or_else(|| {
            let file = wanted.map_or("libdukpt.a and no libdukpt.so", Kind::file);
            format!("{} is {}, where no {} is", FOLDER, folder.display(), file)
        })?;
        link(&folder, kind);
        return Ok(());
    }
    if let Some(built) = built_beside(Path::new(&of_cargo("CARGO_MANIFEST_DIR"))) {
        if let Some(kind) = kind_in(&built, [Archive, Shared], wanted) {
            demand_version(&version_in(&built)?, &format!("in {}", built.display()))?;
            link(&built, kind);
            return Ok(());
        }
    }
    let folder = installed().map_err(|why| {
        format!(
            "libdukpt is not found: install libdukpt-dev, or build it by tools/library of the \
             repository, or set {} to the folder that has libdukpt.a or libdukpt.so\n{}",
            FOLDER, why
        )
    })?;
    let kind = kind_in(&folder, [Shared, Archive], wanted).ok_or_else(|| {
        let file = wanted.map_or("libdukpt.so", Kind::file);
        format!("dukpt is installed in {}, where no {} is", folder.display(), file)
    })?;
    link(&folder, kind);
    Ok(())
}

/// The first kind that a folder has, of all or of the one that is wanted.
fn kind_in(folder: &Path, order: [Kind; 2], wanted: Option<Kind>) -> Option<Kind> {
    let fits = |kind: &Kind| wanted.map_or(true, |it| it == *kind);
    order.into_iter().filter(fits).find(|kind| folder.join(kind.file()).exists())
}

fn link(folder: &Path, kind: Kind) {
    println!("cargo:rustc-link-search=native={}", folder.display());
    println!("cargo:rustc-link-lib={}=dukpt", kind.word());
    println!("cargo:rerun-if-changed={}", folder.join(kind.file()).display());
}

/// The folder of the library that the repository builds, if the crate stands in the repository.
fn built_beside(here: &Path) -> Option<PathBuf> {
    let root = here.join("../..");
    let is_there = here.ends_with("library/rust") && root.join("crates.txt").is_file();
    is_there.then(|| root.join("out/library"))
}

/// The version of the library in a folder, as the file for `pkg-config` beside it says.
fn version_in(folder: &Path) -> Result<String, String> {
    let file = folder.join("dukpt.pc");
    let text = fs::read_to_string(&file).map_err(|why| format!("{}: {}", file.display(), why))?;
    let found = text.lines().find_map(|line| line.strip_prefix("Version:"));
    found
        .map(|version| version.trim().to_string())
        .ok_or_else(|| format!("{}: no version", file.display()))
}

/// The folder of the installed library.
fn installed() -> Result<PathBuf, String> {
    demand_version(&asked("--modversion")?, "installed")?;
    asked("--variable=libdir").map(PathBuf::from)
}

/// That a library's version is that of this crate but for the last number.
fn demand_version(version: &str, place: &str) -> Result<(), String> {
    let ours = of_cargo("CARGO_PKG_VERSION");
    if first_two(version) == first_two(&ours) {
        return Ok(());
    }
    Err(format!("libdukpt {} is {}, and this crate is of {}", version, place, ours))
}

/// A variable that cargo sets.
fn of_cargo(name: &str) -> String {
    env::var(name).unwrap_or_default()
}

fn first_two(version: &str) -> Vec<&str> {
    version.split('.').take(2).collect()
}

/// What `pkg-config` answers about the library.
fn asked(word: &str) -> Result<String, String> {
    let command = env::var(PKG_CONFIG).unwrap_or_else(|_| "pkg-config".into());
    let told = Command::new(&command).args([word, "dukpt"]).output();
    let told = told.map_err(|why| format!("{} does not run: {}", command, why))?;
    let text = |bytes: &[u8]| String::from_utf8_lossy(bytes).trim().to_string();
    match told.status.success() {
        true => Ok(text(&told.stdout)),
        false => Err(text(&told.stderr)),
    }
}
