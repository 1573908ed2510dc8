//! Compiles the C source of the library, and makes the declarations of src/lib.rs from its header.
//!
//! The source is the folder `pigale-c` beside this file, or else what the repository's release/pigale-c.tar.xz holds.
use std::path::{Path, PathBuf};
use std::process::Command;
use std::{env, fs};

fn run(command: &mut Command) {
    let status = command.status().unwrap_or_else(|fault| panic!("{command:?}: {fault}"));
    assert!(status.success(), "{command:?} ended with {status}");
}

fn source(out: &Path) -> PathBuf {
    let here = PathBuf::from(env::var_os("CARGO_MANIFEST_DIR").unwrap());
    let own = here.join("pigale-c");
    let released = here.join("../../../release/pigale-c.tar.xz");
    println!("cargo:rerun-if-changed={}", if own.exists() { own.display() } else { released.display() });
    if own.exists() {
        return own;
    }
    run(Command::new("tar").arg("xf").arg(released).arg("-C").arg(out));
    out.join("pigale-c")
}

/// Returns the header's text without comments, lines of the preprocessor and the braces of `extern "C"`.
fn plain(header: &str) -> String {
    let mut text = String::new();
    for (number, part) in header.split("/*").enumerate() {
        text += if number == 0 { part } else { part.split_once("*/").map_or("", |(_, rest)| rest) };
    }
    let lines: Vec<&str> = text.lines().filter(|line| !line.trim_start().starts_with('#')).collect();
    lines.join(" ").replace("extern \"C\" {", " ")
}

fn rust_type(name: &str) -> &str {
    match name {
        "uint8_t" | "char" => "u8",
        "uint16_t" => "u16",
        "uint32_t" => "u32",
        "int32_t" => "i32",
        "size_t" => "usize",
        other => other,
    }
}

/// Returns a parameter, or a field, of C in Rust.
fn parameter(text: &str) -> String {
    let words: Vec<&str> = text.split(|c: char| c.is_whitespace() || c == '*').filter(|word| !word.is_empty()).collect();
    let pointer = match (text.contains('*'), words[0] == "const") {
        (false, _) => "",
        (true, true) => "*const ",
        (true, false) => "*mut ",
    };
    format!("{}: {pointer}{}", words[words.len() - 1], rust_type(words[words.len() - 2]))
}

/// Returns the declarations of a header in Rust: statuses, structs and calls.
fn declarations(header: &str) -> String {
    let text = plain(header);
    let (mut made, mut calls) = (String::new(), String::new());
    for part in text.split('}').flat_map(|piece| piece.split_inclusive(';')) {
        if let Some((head, body)) = part.split_once('{') {
            for pair in body.split(',').filter_map(|it| it.split_once('=')).filter(|_| head.contains("enum")) {
                made += &format!("pub const {}: pigale_status = {};\n", pair.0.trim(), pair.1.trim());
            }
        }
    }
    for piece in text.split("typedef struct").skip(1) {
        let (fields, rest) = piece.trim_start().trim_start_matches('{').split_once('}').unwrap();
        let name = rest.split(';').next().unwrap().trim();
        made += &format!("#[repr(C)]\n#[derive(Clone, Copy, Debug, Default, PartialEq, Eq)]\npub struct {name} {{\n");
        for field in fields.split(';').filter(|it| !it.trim().is_empty()) {
            let (kind, names) = field.trim().split_once(' ').unwrap();
            for one in names.split(',') {
                made += &format!("    pub {}: {},\n", one.trim(), rust_type(kind));
            }
        }
        made += "}\n";
    }
    for line in text.split(|c| c == ';' || c == '}') {
        let Some((head, tail)) = line.trim().split_once('(') else { continue };
        let Some(name) = head.split_whitespace().last().filter(|it| it.starts_with("pigale_")) else { continue };
        if head.contains("static") || head.contains('{') {
            continue;
        }
        let given: Vec<String> = tail.trim_end_matches(')').split(',').filter(|it| it.trim() != "void").map(parameter).collect();
        let result = rust_type(head.split_whitespace().rev().nth(1).unwrap());
        calls += &format!("    pub fn {name}({}) -> {result};\n", given.join(", "));
    }
    format!("{made}extern \"C\" {{\n{calls}}}\n")
}

fn main() {
    let out = PathBuf::from(env::var_os("OUT_DIR").unwrap());
    let source = source(&out);
    let header = fs::read_to_string(source.join("pigale.h")).unwrap();
    fs::write(out.join("calls.rs"), declarations(&header)).unwrap();
    let (object, library) = (out.join("pigale.o"), out.join("libpigale.a"));
    let compiler = env::var("CC").unwrap_or_else(|_| "cc".into());
    run(Command::new(compiler).args(["-O2", "-fPIC", "-c"]).arg(source.join("pigale.c")).arg("-o").arg(&object));
    run(Command::new(env::var("AR").unwrap_or_else(|_| "ar".into())).arg("crs").arg(&library).arg(&object));
    println!("cargo:rustc-link-search=native={}\ncargo:rustc-link-lib=static=pigale", out.display());
}
