//! Links the crate `testing_index`.

fn main() {
    linking::link("testing_index");
}
