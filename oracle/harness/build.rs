//! Links the port's static archives where they are there, and Proton.

/// Tells cargo to link, with a feature, the archive that a variable names.
fn archive(feature: &str, variable: &str, which: &str) {
    println!("cargo:rerun-if-env-changed={variable}");
    if std::env::var_os(feature).is_some() {
        let archive = std::env::var(variable).unwrap_or_else(|_| panic!("{variable} names the archive"));
        println!("cargo:rerun-if-changed={archive}");
        println!("cargo:rustc-link-arg-{which}={archive}");
    }
}

fn main() {
    archive("CARGO_FEATURE_PORT", "HISPROAT_ARCHIVE", "bins");
    if std::env::var_os("CARGO_FEATURE_PROTON").is_some() {
        archive("CARGO_FEATURE_FRAME_READER", "FRAME_READER_ARCHIVE", "bin=sidebyside");
        println!("cargo:rustc-link-arg-bin=sidebyside=-lqpid-proton");
    }
}
