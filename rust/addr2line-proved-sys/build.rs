//! Tells the linker where libaddr2line is: in lib/ of ADDR2LINE_PREFIX, else where pkg-config finds it.
use std::env;
use std::path::PathBuf;
use std::process::{exit, Command};

fn main() {
    for name in ["ADDR2LINE_PREFIX", "PKG_CONFIG", "PKG_CONFIG_PATH", "PKG_CONFIG_LIBDIR"] {
        println!("cargo:rerun-if-env-changed={name}");
    }
    let folder = match env::var_os("ADDR2LINE_PREFIX") {
        Some(prefix) => PathBuf::from(prefix).join("lib"),
        None => {
            folder_by_pkg_config().unwrap_or_else(|fault| fail(&format!("{fault}, and ADDR2LINE_PREFIX isn't set")))
        }
    };
    let is_shared = env::var_os("CARGO_FEATURE_SHARED").is_some();
    let (kind, file) = if is_shared { ("dylib", "libaddr2line.so") } else { ("static", "libaddr2line.a") };
    // cargo runs this in the crate's folder, so a relative path would be one below that.
    let path = folder.join(file);
    if !path.is_absolute() || !path.is_file() {
        fail(&format!(
            "{} isn't the absolute path of a file; `tools/install_c_library PREFIX` builds it",
            path.display()
        ));
    }
    println!("cargo:rerun-if-changed={}", path.display());
    println!("cargo:rustc-link-search=native={}", folder.display());
    println!("cargo:rustc-link-lib={kind}=addr2line");
}

fn folder_by_pkg_config() -> Result<PathBuf, String> {
    let program = env::var("PKG_CONFIG").unwrap_or_else(|_| "pkg-config".to_owned());
    let done = Command::new(&program)
        .args(["--variable=libdir", "addr2line"])
        .output()
        .map_err(|error| format!("{program}: {error}"))?;
    let folder = String::from_utf8(done.stdout).map_err(|_| format!("{program} gives a path that isn't UTF-8"))?;
    if !done.status.success() || folder.trim_end().is_empty() {
        return Err(format!("{program} finds no addr2line"));
    }
    Ok(PathBuf::from(folder.trim_end()))
}

fn fail(fault: &str) -> ! {
    eprintln!("addr2line-proved-sys: {fault}");
    exit(1)
}
