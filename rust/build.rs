//! Says where libcddlseq is: in the folder that CDDLSEQ_LIB names, where it is linked into the program, or where the system's linker
//! looks.
use std::env;
use std::path::Path;

fn main() {
    println!("cargo:rerun-if-env-changed=CDDLSEQ_LIB");
    match env::var("CDDLSEQ_LIB") {
        Ok(folder) => {
            println!(
                "cargo:rerun-if-changed={}",
                Path::new(&folder).join("libcddlseq.a").display()
            );
            println!("cargo:rustc-link-search=native={folder}");
            println!("cargo:rustc-link-lib=static=cddlseq");
        }
        Err(_) => println!("cargo:rustc-link-lib=cddlseq"),
    }
}
