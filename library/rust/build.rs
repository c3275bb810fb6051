//! Finds libn2kdec by pkg-config; where that knows nothing of it, the linker looks in its own folders.
fn main() {
    let found = std::process::Command::new("pkg-config").args(["--libs-only-L", "n2kdec"]).output();
    for word in found.iter().flat_map(|it| std::str::from_utf8(&it.stdout)).flat_map(str::split_whitespace) {
        println!("cargo:rustc-link-search=native={}", word.trim_start_matches("-L"));
    }
    println!("cargo:rustc-link-lib=n2kdec");
    println!("cargo:rerun-if-env-changed=PKG_CONFIG_PATH");
}
