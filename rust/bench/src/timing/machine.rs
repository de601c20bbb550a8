//! What the numbers belong to.

/// Processor, compiler, and the instructions that this crate's Rust is built for.
pub fn line(rust: &str) -> String {
    let vectors = if cfg!(target_feature = "avx2") {
        "with AVX2"
    } else {
        "without AVX2"
    };
    let arch = std::env::consts::ARCH;
    let compiler = env!("BENCH_RUSTC");
    format!("{}; {compiler}; {rust} for {arch} {vectors}.", cpu())
}

/// The first processor, by what the system says of it.
fn cpu() -> String {
    let info = std::fs::read_to_string("/proc/cpuinfo").unwrap_or_default();
    let field = |name: &str| {
        let of_name = |line: &str| {
            let (key, value) = line.split_once(':')?;
            (key.trim() == name).then(|| value.trim().to_owned())
        };
        let found = info.lines().find_map(of_name);
        found.unwrap_or_else(|| "unknown".to_owned())
    };
    let (name, family, model) = (field("model name"), field("cpu family"), field("model"));
    format!("{name}, family {family} model {model}")
}
