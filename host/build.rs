//! Links the archive, and makes the layout's constants from the C header, where they are written down once.
use std::{env, fmt::Write, fs, path::Path};

fn main() {
    let root = env::var("CARGO_MANIFEST_DIR").unwrap();
    let archive = match (env::var("DLT_ARCHIVE"), env::var("CARGO_CFG_TARGET_ARCH").as_deref()) {
        (Ok(folder), _) => folder,
        (_, Ok("x86_64")) => format!("{root}/../target/staticlib"),
        _ => panic!("the archive is x86-64 code: on this machine DLT_ARCHIVE must name the folder of one that was compiled for it"),
    };
    let header = format!("{root}/../crates/exports/include/dlt.h");
    println!("cargo:rustc-link-search=native={archive}");
    println!("cargo:rustc-link-lib=static=exports");
    println!("cargo:rerun-if-env-changed=DLT_ARCHIVE");
    println!("cargo:rerun-if-changed={archive}/libexports.a");
    println!("cargo:rerun-if-changed={header}");
    let text = fs::read_to_string(&header).expect("the C header");
    let mut made = String::new();
    for line in text.lines() {
        let words: Vec<&str> = line.split_whitespace().collect();
        if let ["#define", name, number, ..] = words[..] {
            if let (Some(name), Ok(number)) = (name.strip_prefix("DLT_"), number.parse::<u64>()) {
                let (kind, number) = if ["MESSAGE_", "ARGUMENT_", "RAW_"].iter().any(|group| name.starts_with(group)) { ("usize", number) } else { ("u64", number) };
                writeln!(made, "pub const {name}: {kind} = {number};").unwrap();
            }
        }
    }
    fs::write(Path::new(&env::var("OUT_DIR").unwrap()).join("layout.rs"), made).unwrap();
}
