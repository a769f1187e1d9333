//! Lays out smoltcp's files, as they are in the checkout that `SMOLTCP` names, as the modules of this
//! crate. The number of runs of the assembler is the one in the package's name.
use std::path::{Path, PathBuf};
use std::{env, fs, process};

const FILES: [&str; 6] = [
    "storage/mod.rs", "storage/assembler.rs", "storage/packet_buffer.rs", "storage/ring_buffer.rs",
    "rand.rs", "time.rs",
];

const FEATURES: [&str; 9] = [
    "alloc", "medium-ethernet", "medium-ip", "packetmeta-id", "proto-ipv4", "proto-ipv4-fragmentation",
    "proto-ipv6", "segmentation-offload", "socket-tcp",
];

fn main() {
    println!("cargo::rerun-if-env-changed=SMOLTCP");
    let checkout = env::var_os("SMOLTCP")
        .unwrap_or_else(|| stop("SMOLTCP is not set: it names the folder of a checkout of smoltcp 0.14.0"));
    let sources = PathBuf::from(checkout).join("src");
    let out = PathBuf::from(env::var_os("OUT_DIR").expect("cargo sets OUT_DIR"));
    fs::create_dir_all(out.join("storage")).expect("OUT_DIR can be written");
    for file in FILES {
        let from = sources.join(file);
        println!("cargo::rerun-if-changed={}", from.display());
        if fs::copy(&from, out.join(file)).is_err() {
            stop(&format!("SMOLTCP has no file {}", from.display()));
        }
    }
    for feature in FEATURES {
        println!("cargo::rustc-cfg=feature=\"{feature}\"");
    }
    let package = env::var("CARGO_PKG_NAME").expect("cargo sets CARGO_PKG_NAME");
    let runs = package.trim_start_matches("original");
    let mut root = format!("mod config {{ pub const ASSEMBLER_MAX_SEGMENT_COUNT: usize = {runs}; }}\n");
    for (module, file) in
        [("pub mod storage", "storage/mod.rs"), ("pub mod time", "time.rs"), ("mod rand", "rand.rs")]
    {
        root.push_str(&format!("#[path = {:?}]\n{module};\n", out.join(file)));
    }
    write(&out.join("root.rs"), &root);
}

fn write(path: &Path, text: &str) {
    fs::write(path, text).expect("OUT_DIR can be written");
}

fn stop(message: &str) -> ! {
    eprintln!("{message}");
    process::exit(1)
}
