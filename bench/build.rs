//! Links the archive of the engine; compiles the C interpreter; and makes four copies of runner, C interpreter and
//! walker, which begin 0, 16, 32 and 48 bytes after a multiple of 64. Their speed depends on that alignment, which is
//! otherwise left to the linker.
use std::env;
use std::fs;
use std::path::Path;
use std::process::Command;

fn run(program: &str, words: &[&str]) {
    let status = Command::new(program).args(words).status();
    let status = status.unwrap_or_else(|e| panic!("{program}: {e}"));
    assert!(status.success(), "{program} {words:?} failed");
}

/// The copy k of functions, and of the one that is aligned, which has a section of its own in the given object or
/// archive; answers with its object.
fn aligned_copy(out: &str, from: &str, names: &[&str], aligned: &str, k: usize) -> String {
    let [text, pad, object] =
        ["s", "pad.o", "o"].map(|end| format!("{out}/{}_{k}.{end}", names[0]));
    let lines = [
        format!(".section \".text.{aligned}\",\"ax\",@progbits"),
        format!(".balign 64\n.fill {},1,0xcc", 16 * k),
        ".section .note.GNU-stack,\"\",@progbits\n".into(),
    ];
    fs::write(&text, lines.join("\n")).expect("the padding");
    run("gcc", &["-c", &text, "-o", &pad]);
    run("ld", &["-r", "-o", &object, &pad, "--whole-archive", from]);
    for name in names {
        run(
            "objcopy",
            &[&format!("--redefine-sym={name}={name}_{k}"), &object],
        );
    }
    let kept = names
        .iter()
        .map(|name| format!("--keep-global-symbol={name}_{k}"));
    let words: Vec<String> = kept.chain([object.clone()]).collect();
    run(
        "objcopy",
        &words.iter().map(String::as_str).collect::<Vec<_>>(),
    );
    object
}

fn main() {
    let out = env::var("OUT_DIR").unwrap();
    let folder = env::var("CIRCUIT_LIB").unwrap_or_else(|_| "../target/staticlib".into());
    let folder = Path::new(&folder).canonicalize();
    let folder = folder.expect("the folder of libcircuit.a");
    let engine = format!("{}/libcircuit.a", folder.display());

    let object = format!("{out}/interpreter.o");
    let flags = "-std=c11 -O2 -ffunction-sections -Wall -Wextra -Werror -I../bindings/c -c interpreter.c -o";
    let words: Vec<&str> = flags.split(' ').chain([object.as_str()]).collect();
    run("gcc", &words);

    let archive = format!("{out}/libaligned.a");
    let _ = fs::remove_file(&archive);
    for k in 0..4 {
        let runner = aligned_copy(&out, &engine, &["circuit_run"], "circuit_run", k);
        let interpreter = aligned_copy(&out, &object, &["run_c"], "run_c", k);
        let walks = ["circuit_walk", "circuit_walk_probed"];
        let walker = aligned_copy(&out, &engine, &walks, "walker::step::circuit_step", k);
        run("ar", &["crs", &archive, &runner, &interpreter, &walker]);
    }
    println!("cargo::rerun-if-env-changed=CIRCUIT_LIB");
    for file in [
        "build.rs",
        "interpreter.c",
        "../bindings/c/circuit.h",
        &engine,
    ] {
        println!("cargo::rerun-if-changed={file}");
    }
    println!("cargo::rustc-link-search=native={out}");
    println!("cargo::rustc-link-search=native={}", folder.display());
    println!("cargo::rustc-link-lib=static=aligned");
    println!("cargo::rustc-link-lib=static=circuit");
}
