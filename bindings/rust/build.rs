// Links the compiled library: the object of the crates host.. that SKWARZYNA_OBJECT names.

use std::path::{Path, PathBuf};
use std::process::Command;
use std::{env, fs};

const NAMED_BY: &str = "SKWARZYNA_OBJECT";
/// How a static library begins; an object does not.
const ARCHIVE: &[u8] = b"!<arch>\n";

fn main() {
    println!("cargo::rerun-if-changed=build.rs");
    println!("cargo::rerun-if-env-changed={NAMED_BY}");
    match library() {
        Ok(folder) => {
            println!("cargo::rustc-link-search=native={}", folder.display());
            // As a library, not as an argument, so that whoever depends on this crate is linked with it too.
            println!("cargo::rustc-link-lib=static=skwarzyna");
        }
        // This alone ends the build.
        Err(why) => println!("cargo::error={why}"),
    }
}

/// Puts libskwarzyna.a into the folder that it answers.
fn library() -> Result<PathBuf, String> {
    let given = env::var_os(NAMED_BY).filter(|name| !name.is_empty()).ok_or(format!(
        "{NAMED_BY} is not set. It names the compiled library, which bindings/object of the repository makes: \
         export {NAMED_BY}=$(path/to/bindings/object)"
    ))?;
    let object = Path::new(&given);
    // Cargo runs this in the package's folder, which is rarely the one in which the name was written.
    if object.is_relative() {
        return Err(format!("{NAMED_BY} names {}: it must be a whole path, from /", object.display()));
    }
    println!("cargo::rerun-if-changed={}", object.display());
    let bytes =
        fs::read(object).map_err(|error| format!("{NAMED_BY} names {}: {error}", object.display()))?;

    let folder = PathBuf::from(env::var_os("OUT_DIR").ok_or("cargo did not set OUT_DIR")?);
    let library = folder.join("libskwarzyna.a");
    if bytes.starts_with(ARCHIVE) {
        fs::write(&library, bytes).map_err(|error| format!("{}: {error}", library.display()))?;
        return Ok(folder);
    }
    // An old one would keep its members.
    let _ = fs::remove_file(&library);
    let ar = env::var("AR").unwrap_or("ar".into());
    let made = Command::new(&ar).arg("crs").arg(&library).arg(object).status();
    match made {
        Ok(status) if status.success() => Ok(folder),
        Ok(status) => Err(format!("{ar}, which makes a library of {}: {status}", object.display())),
        Err(error) => Err(format!("{ar}, which makes a library of {}: {error}", object.display())),
    }
}
