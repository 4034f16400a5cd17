//! Links the desk. A package that depends on this one finds the directory of its library in its
//! build script as `DEP_DESK_LIBRARY`.

fn main() {
    let library = linking::link("desk");
    println!("cargo::metadata=library={}", library.display());
}
