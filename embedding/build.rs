//! Links the archive of a segment.

#[path = "../client/link.rs"]
mod link;

fn main() {
    link::archive("YIELDCLEAT_ARCHIVE", "node_c", "../crates");
}
