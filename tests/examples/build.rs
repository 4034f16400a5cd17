//! Says where the static library stands that `keydesk` links, for the C program to link it too.

fn main() {
    let library = std::env::var("DEP_DESK_LIBRARY").expect("keydesk says where its library is");
    println!("cargo::rustc-env=DESK_LIBRARY={library}");
}
