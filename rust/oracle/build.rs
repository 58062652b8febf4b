//! Finds the Rust that was ported (`JIWARBEND_ORACLE`, by default ../shared/docs/src beside the repository) and names its files as modules.
//! Two files are read where they stand. Of transform_quant.rs, whose `inverse_core` is private, a copy below the build's own folder has one
//! public function added after its last line.
use std::path::PathBuf;

fn main() {
    println!("cargo:rerun-if-env-changed=JIWARBEND_ORACLE");
    println!("cargo:rustc-check-cfg=cfg(accel)");
    println!("cargo:rustc-check-cfg=cfg(feature, values(\"knobs\"))");
    let here = PathBuf::from(std::env::var("CARGO_MANIFEST_DIR").unwrap());
    let out = PathBuf::from(std::env::var("OUT_DIR").unwrap());
    let folder = std::env::var_os("JIWARBEND_ORACLE").map_or_else(|| here.join("../../../shared/docs/src"), PathBuf::from);
    let folder = folder.canonicalize().unwrap_or_else(|_| {
        panic!("{} is not there: `make .. ORACLE=` names a checkout of rusty_h264 at commit 3c73885dcf", folder.display())
    });
    let file = |name: &str| {
        let path = folder.join("crates").join(name);
        println!("cargo:rerun-if-changed={}", path.display());
        assert!(path.is_file(), "{} is not there", path.display());
        path
    };
    let predict = file("rusty_h264-common/src/predict.rs");
    let intra_pred = file("rusty_h264-accel/src/intra_pred.rs");
    let transform_quant = std::fs::read_to_string(file("rusty_h264-accel/src/transform_quant.rs")).unwrap();
    let opened = out.join("transform_quant.rs");
    let door = "\npub fn inverse_core_of(block: &[i32; 16]) -> [i32; 16] {\n    let mut m = *block;\n    inverse_core(&mut m);\n    m\n}\n";
    std::fs::write(&opened, transform_quant + door).unwrap();
    let modules = format!(
        "#[path = {predict:?}]\npub mod predict;\n#[path = {intra_pred:?}]\npub mod intra_pred;\n#[path = {opened:?}]\npub mod transform_quant;\n"
    );
    std::fs::write(out.join("modules.rs"), modules).unwrap();
}
