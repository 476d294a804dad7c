//! Prepares the library under test. Its archive is linked into one object in which only the calls
//! stay global, so that nothing else in it can clash with the harness; calls that it does not
//! export yet are left out.

use std::env;
use std::path::Path;
use std::process::Command;

const CALLS: [&str; 10] =
    ["counts", "name", "rows", "records", "chart", "write", "convert", "xs", "stroke_at", "row_order"];

fn run(program: &str, arguments: &[String]) -> String {
    let output = Command::new(program).args(arguments).output().expect("the tool starts");
    assert!(output.status.success(), "{program}: {}", String::from_utf8_lossy(&output.stderr));
    String::from_utf8_lossy(&output.stdout).into_owned()
}

fn main() {
    println!("cargo:rerun-if-env-changed=YUVATONDRO_LIB");
    let library = env::var("YUVATONDRO_LIB").expect("YUVATONDRO_LIB is the path of libhost.a");
    println!("cargo:rerun-if-changed={library}");
    let folder = env::var("OUT_DIR").unwrap();
    let object = Path::new(&folder).join("host.o").display().to_string();
    let symbols = CALLS.map(|call| format!("yuvatondro_{call}"));

    let mut link: Vec<String> = symbols.iter().map(|symbol| format!("--undefined={symbol}")).collect();
    link.extend(["-r", "--force-group-allocation", "-o", &object, &library].map(String::from));
    run("ld", &link);
    let mut keep: Vec<String> = symbols.iter().map(|symbol| format!("--keep-global-symbol={symbol}")).collect();
    keep.push(object.clone());
    run("objcopy", &keep);

    let listed = run("readelf", &["--symbols".into(), "--wide".into(), object.clone()]);
    let is_defined = |symbol: &str| listed.lines().any(|line| line.ends_with(symbol) && !line.contains(" UND "));
    for (call, symbol) in CALLS.iter().zip(&symbols) {
        println!("cargo:rustc-check-cfg=cfg(host_{call})");
        if is_defined(symbol) {
            println!("cargo:rustc-cfg=host_{call}");
        }
    }
    println!("cargo:rustc-link-arg-bins={object}");
}
