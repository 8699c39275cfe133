//! The command `snova`: page 01's operations, streams, response files and benchmarks.

fn main() {
    std::process::exit(snova_host::cli::run(std::env::args_os().skip(1).collect()));
}
