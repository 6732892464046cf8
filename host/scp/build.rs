//! Links with the archive of the proved library, libscp_c.a; the package `archive` says where it comes from.

fn main() {
    archive::link("scp_c");
}
