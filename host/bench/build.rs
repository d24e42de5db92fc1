//! Compiles RapidJSON's reader into the bench where `RAPIDJSON_INCLUDE` names the directory that has `rapidjson/reader.h`. Without it
//! the bench is built without RapidJSON.

#![forbid(unsafe_code)]

use std::env;
use std::path::PathBuf;
use std::process::Command;

fn main() {
    println!("cargo::rustc-check-cfg=cfg(rapidjson)");
    println!("cargo::rerun-if-env-changed=RAPIDJSON_INCLUDE");
    println!("cargo::rerun-if-env-changed=CXX");
    println!("cargo::rerun-if-changed=rapidjson.cc");
    let Some(include) = env::var_os("RAPIDJSON_INCLUDE") else { return };
    let object = PathBuf::from(env::var_os("OUT_DIR").expect("cargo names a directory")).join("rapidjson.o");
    let mut compiler = Command::new(env::var_os("CXX").unwrap_or("c++".into()));
    compiler.args(["-O3", "-DNDEBUG", "-c", "rapidjson.cc", "-o"]).arg(&object).arg("-I").arg(include);
    match compiler.status() {
        Ok(status) if status.success() => {
            println!("cargo::rustc-link-arg-bins={}", object.display());
            println!("cargo::rustc-link-arg-bins=-lstdc++");
            println!("cargo::rustc-cfg=rapidjson");
        }
        Ok(_) => println!("cargo::error=rapidjson.cc does not compile: has RAPIDJSON_INCLUDE a directory rapidjson?"),
        Err(error) => println!("cargo::error={compiler:?} does not run: {error}"),
    }
}
