//! Links the archive of the machine.

#[path = "../../client/link.rs"]
mod link;

fn main() {
    link::archive("YIELDCLEAT_VOLUME_ARCHIVE", "volume_c", "../../crates");
}
