//! Links with the archive of the proved library, libdsk_c.a; the package `archive` says where it comes from.

fn main() {
    archive::link("dsk_c");
}
