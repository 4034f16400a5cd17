//! Builds the program `keydesk`.

fn main() {
    println!("cargo::rustc-env=KEYDESK={}", linking::program("keydesk").display());
}
