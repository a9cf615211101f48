//! Links the static libraries that `tools/archive` makes of the crates bench_parts, bench_whole, bench_control_c,
//! bench_control_whole and bowunte_c, from the folder that BENCH_LIBRARY names.

fn main() {
    let folder = std::env::var("BENCH_LIBRARY").expect("BENCH_LIBRARY names the folder of the static libraries");
    println!("cargo:rerun-if-env-changed=BENCH_LIBRARY");
    println!("cargo:rustc-link-search=native={folder}");
    for library in ["bench_parts", "bench_whole", "bench_control", "bench_control_whole", "bowunte"] {
        println!("cargo:rerun-if-changed={folder}/lib{library}.a");
        println!("cargo:rustc-link-lib=static={library}");
    }
}
