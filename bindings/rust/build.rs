//! Tells cargo where the C library is: under the prefix that DYMELOR_DIR names, or else where pkg-config says. It is the archive, or the shared
//! library where DYMELOR_LINK is `shared`.

use std::env;
use std::fs;
use std::path::{Path, PathBuf};
use std::process::{exit, Command};

/// What decides where the library is found: cargo asks again where one of these has changed.
const VARIABLES: [&str; 6] = [
    "DYMELOR_DIR",
    "DYMELOR_LINK",
    "PKG_CONFIG",
    "PKG_CONFIG_PATH",
    "PKG_CONFIG_LIBDIR",
    "PKG_CONFIG_SYSROOT_DIR",
];

fn main() {
    println!("cargo:rerun-if-changed=build.rs");
    for variable in VARIABLES {
        println!("cargo:rerun-if-env-changed={variable}");
    }
    if let Err(why) = Linking::asked().and_then(link) {
        eprintln!("dymelor: {why}\n{}", advice());
        exit(1);
    }
}

/// Links the library of the folder that DYMELOR_DIR names, which has to be there, or the one that pkg-config finds. Where it finds none, what
/// needs no library goes on, as `cargo doc` and `cargo check`; a program isn't linked then, and the warning says why.
fn link(linking: Linking) -> Result<(), String> {
    match env::var_os("DYMELOR_DIR") {
        Some(prefix) => linking.link(&linking.library_below(Path::new(&prefix))?),
        None => match linking.library_of_pkg_config() {
            Ok(folder) => linking.link(&folder),
            Err(why) => {
                let why = why.replace('\n', " ");
                println!("cargo:warning=no program can be linked: {why} {}", advice());
            }
        },
    }
    Ok(())
}

/// What a user does where the library isn't found.
fn advice() -> String {
    format!(
        "The C library dymelor {}.{} is needed: install it, so that `pkg-config --libs dymelor` finds it, \
         or set DYMELOR_DIR to a folder that has lib/libdymelor.a and include/dymelor.h.",
        env!("CARGO_PKG_VERSION_MAJOR"),
        env!("CARGO_PKG_VERSION_MINOR")
    )
}

/// How the library is linked: its file, the word of rustc, and the package of pkg-config.
struct Linking {
    file: &'static str,
    kind: &'static str,
    package: &'static str,
}

const STATIC: Linking = Linking {
    file: "libdymelor.a",
    kind: "static",
    package: "dymelor",
};

const SHARED: Linking = Linking {
    file: "libdymelor.so",
    kind: "dylib",
    package: "dymelor-shared",
};

impl Linking {
    fn asked() -> Result<Linking, String> {
        match env::var("DYMELOR_LINK").as_deref() {
            Err(_) | Ok("" | "static") => Ok(STATIC),
            Ok("shared") => Ok(SHARED),
            Ok(other) => Err(format!(
                "DYMELOR_LINK is {other}, and neither static nor shared."
            )),
        }
    }

    /// Links the library of a folder, and again where it was installed anew.
    fn link(&self, folder: &Path) {
        println!("cargo:rustc-link-search=native={}", folder.display());
        println!("cargo:rustc-link-lib={}=dymelor", self.kind);
        println!(
            "cargo:rerun-if-changed={}",
            folder.join(self.file).display()
        );
    }

    fn is_in(&self, folder: &Path) -> bool {
        folder.join(self.file).is_file()
    }

    /// The folder of the library below a prefix, as an absolute path. Its version is the header's.
    fn library_below(&self, prefix: &Path) -> Result<PathBuf, String> {
        let folder = prefix.join("lib");
        let absolute = match folder.canonicalize() {
            Ok(absolute) if self.is_in(&absolute) => absolute,
            _ => {
                return Err(format!(
                    "DYMELOR_DIR is set, and {} has no {}.",
                    folder.display(),
                    self.file
                ))
            }
        };
        let header = prefix.join("include/dymelor.h");
        println!("cargo:rerun-if-changed={}", header.display());
        let text = fs::read_to_string(&header)
            .map_err(|why| format!("DYMELOR_DIR is set, and {}: {why}.", header.display()))?;
        let (major, minor) = (
            number_of(&text, "DYM_VERSION_MAJOR"),
            number_of(&text, "DYM_VERSION_MINOR"),
        );
        if (major, minor)
            != (
                Some(env!("CARGO_PKG_VERSION_MAJOR")),
                Some(env!("CARGO_PKG_VERSION_MINOR")),
            )
        {
            return Err(format!(
                "The header {} is that of version {}.{}.",
                header.display(),
                major.unwrap_or("?"),
                minor.unwrap_or("?")
            ));
        }
        Ok(absolute)
    }

    /// The folder of the library that pkg-config names.
    fn library_of_pkg_config(&self) -> Result<PathBuf, String> {
        let program = env::var_os("PKG_CONFIG").unwrap_or_else(|| "pkg-config".into());
        let output = Command::new(&program)
            .arg("--libs")
            .args(versions(self.package))
            // Without it the folders in which every linker looks are left out, and rustc looks in none of them.
            .env("PKG_CONFIG_ALLOW_SYSTEM_LIBS", "1")
            .output()
            .map_err(|why| format!("{} can't be run: {why}.", program.to_string_lossy()))?;
        if !output.status.success() {
            return Err(String::from_utf8_lossy(&output.stderr).trim().to_string());
        }
        let line = String::from_utf8(output.stdout)
            .map_err(|_| "What pkg-config says is no UTF-8.".to_string())?;
        words(&line)
            .iter()
            .filter_map(|word| word.strip_prefix("-L"))
            .map(PathBuf::from)
            .find(|folder| self.is_in(folder))
            .ok_or_else(|| format!("No folder that pkg-config names has {}: {line}", self.file))
    }
}

/// What a header defines a name as.
fn number_of<'a>(header: &'a str, name: &str) -> Option<&'a str> {
    header.lines().find_map(|line| {
        let rest = line.strip_prefix("#define ")?.strip_prefix(name)?;
        rest.strip_prefix(' ').map(str::trim)
    })
}

/// What pkg-config is asked for: the library of this crate's version or of a later one, but of the same second number, as a greater
/// one may change the calls.
fn versions(package: &str) -> [String; 2] {
    let major = env!("CARGO_PKG_VERSION_MAJOR");
    let minor = env!("CARGO_PKG_VERSION_MINOR");
    let next = minor.parse::<u32>().map_or(0, |minor| minor + 1);
    [
        format!("{package} >= {major}.{minor}"),
        format!("{package} < {major}.{next}"),
    ]
}

/// The words of a line as pkg-config writes them: a blank in a word stands behind a backslash.
fn words(line: &str) -> Vec<String> {
    let mut words = vec![String::new()];
    let mut characters = line.chars();
    while let Some(character) = characters.next() {
        if character.is_whitespace() {
            words.push(String::new());
        } else if let Some(word) = words.last_mut() {
            word.extend(match character {
                '\\' => characters.next(),
                other => Some(other),
            });
        }
    }
    words
}
