//! The C header: a C program that is built with it reads document 01's line 2.

use std::path::Path;
use std::process::Command;

const PROGRAM: &str = r#"
#include "sml_parse.h"
#include <stdio.h>

int main(void) {
    static const uint8_t text[] = ";", toks[] = {12, 0, 0, 1, 0};
    static uint8_t scratch[80], nodes[24], finds[8], last[1];
    uint64_t used[3];
    size_t answer = sml_parse_read(text, 1, toks, 5, toks, 0, 6, 1, scratch, sizeof scratch, nodes, sizeof nodes, finds, sizeof finds,
                                    last, 0, used);
    printf("%d %d %d %d", (int)answer, (int)used[0], (int)used[1], (int)used[2]);
    for (unsigned i = 0; i < sizeof nodes; i++) printf(" %d", nodes[i]);
    return sml_parse_read(text, 1, toks, 5, toks, 0, 5, 1, scratch, 80, nodes, 24, finds, 8, last, 0, used) == SML_TOO_DEEP ? 0 : 1;
}
"#;

#[test]
fn from_c() {
    let folder = Path::new(env!("CARGO_TARGET_TMPDIR"));
    let (source, program) = (folder.join("header.c"), folder.join("header"));
    std::fs::write(&source, PROGRAM).expect("a file can be written");
    let include = Path::new(env!("CARGO_MANIFEST_DIR")).join("../include");
    let mut command = Command::new("cc");
    command
        .args(["-std=c99", "-Wall", "-Wextra", "-Werror", "-o"])
        .arg(&program);
    command
        .arg(&source)
        .arg(sml_reader::ARCHIVE)
        .arg("-I")
        .arg(include);
    let built = command.output().expect("cc, which Rust links by");
    assert!(
        built.status.success(),
        "{}",
        String::from_utf8_lossy(&built.stderr)
    );
    let run = Command::new(&program).output().expect("the program");
    assert!(run.status.success());
    // Root opens, DecWithTail opens and closes, the token, Root closes.
    let wanted = "0 20 8 0 1 91 0 0 1 19 0 0 3 19 0 0 2 12 0 0 3 91 0 0 0 0 0 0";
    assert_eq!(String::from_utf8_lossy(&run.stdout), wanted);
}
