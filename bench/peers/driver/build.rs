//! Links the workloads over our own cache, whose libraries the environment names: full paths, with colons between.

use std::env;
use std::path::Path;

fn main() {
    println!("cargo:rerun-if-env-changed=BENCH_LIBRARIES");
    let libraries =
        env::var("BENCH_LIBRARIES").expect("BENCH_LIBRARIES names the libraries to link");
    for library in libraries.split(':') {
        let path = Path::new(library);
        let folder = path.parent().expect("a full path").display();
        let stem = path.file_stem().and_then(|it| it.to_str()).expect("a name");
        let name = stem
            .strip_prefix("lib")
            .expect("a name that begins with lib");
        println!("cargo:rerun-if-changed={}", library);
        println!("cargo:rustc-link-search=native={}", folder);
        println!("cargo:rustc-link-lib=static={}", name);
    }
}
