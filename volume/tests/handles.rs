//! The handles of the package in `c/`, with a machine that counts fronts in place of the proved one: no archive is needed.

mod counting;
#[allow(dead_code)]
mod nodes;

#[allow(dead_code)]
#[path = "../c/src/faults.rs"]
mod faults;
#[allow(dead_code)]
#[path = "../c/src/handles.rs"]
mod handles;
#[path = "../c/src/known.rs"]
mod known;

/// In place of what calls the archive.
mod proved {
    use crate::counting::Counting;
    use yieldcleat_volume::VolumeError;

    pub struct Proved;

    impl Proved {
        pub fn start(nodes: usize, quorum: u8) -> Result<Counting, VolumeError> {
            Ok(Counting::of(nodes as u8, quorum))
        }
    }
}

use handles::Handle;
use nodes::Node;
use std::path::{Path, PathBuf};
use std::sync::atomic::{AtomicU32, Ordering};
use std::time::Duration;
use std::{env, fs, process, thread};
use yieldcleat_client::Patch;

/// A folder with three nodes and the file that names them.
struct Three {
    folder: PathBuf,
    nodes: Vec<Node>,
}

static PLACE: AtomicU32 = AtomicU32::new(0);

impl Three {
    fn new() -> Three {
        let folder = env::temp_dir().join(format!("yieldcleat-handles-{}-{}", process::id(), PLACE.fetch_add(1, Ordering::Relaxed)));
        let _ = fs::remove_dir_all(&folder);
        fs::create_dir(&folder).unwrap();
        let nodes: Vec<_> = (0..3).map(|place| Node::start(&folder, place)).collect();
        let lines: String = nodes.iter().map(|node| format!("unix:{}\n", node.path.display())).collect();
        fs::write(folder.join("volume"), lines).unwrap();
        Three { folder, nodes }
    }

    fn place(&self) -> PathBuf {
        Path::join(&self.folder, "volume")
    }
}

impl Drop for Three {
    fn drop(&mut self) {
        let _ = fs::remove_dir_all(&self.folder);
    }
}

#[test]
fn one_thread_stages_and_commits_while_another_one_waits() {
    let three = Three::new();
    let handle = Handle::open_writer(&three.place(), 20_000, false).unwrap();
    three.nodes.iter().for_each(|node| node.set(|state| state.delay = Duration::from_secs(3)));
    let point = handle.commit(b"first".to_vec()).unwrap();
    thread::scope(|scope| {
        let waiting = scope.spawn(|| handle.wait(point, 0));
        thread::sleep(Duration::from_millis(300));
        handle.stage(1, false, vec![Patch::write(0, b"dropped")]).unwrap();
        handle.discard();
        handle.stage(1, false, vec![Patch::write(0, b"kept")]).unwrap();
        assert!(handle.commit(b"second".to_vec()).unwrap() > point);
        assert!(!waiting.is_finished(), "the other thread still waits");
        waiting.join().unwrap().unwrap();
    });
}

#[test]
fn no_point_shows_a_part_of_a_commit() {
    let three = Three::new();
    let handle = Handle::open_writer(&three.place(), 0, false).unwrap();
    let commit = |bytes: &[u8]| {
        [1, 2, 3].into_iter().for_each(|page| handle.stage(page, false, vec![Patch::write(0, bytes)]).unwrap());
        let point = handle.commit(bytes.to_vec()).unwrap();
        handle.wait(point, 0).unwrap();
        point
    };
    let (first, second) = (commit(b"first"), commit(b"later"));
    let reader = Handle::open_reader(&three.place(), 0, None).unwrap();
    for handle in [&handle, &reader] {
        for point in first..=second {
            let header = handle.page_zero(point).unwrap().header;
            assert_eq!(header, if point < second { b"first" } else { b"later" });
            assert!((1..=3).all(|page| handle.read(point, page, 0, 5).unwrap() == header), "{point}");
        }
        assert_eq!(handle.read(first - 1, 1, 0, 5).unwrap(), [0; 5]);
    }
    let between = Handle::open_reader(&three.place(), 0, Some(second - 1)).unwrap();
    assert!((1..=3).all(|page| between.read(second - 1, page, 0, 5).unwrap() == b"first"));
}

#[test]
fn what_no_record_holds_is_not_staged() {
    let three = Three::new();
    let handle = Handle::open_writer(&three.place(), 0, false).unwrap();
    let whole = || Patch::write(0, &[1; 4088]);
    assert!(handle.stage(1, false, vec![whole(), whole(), Patch::write(0, &[1; 9])]).is_err());
    handle.stage(1, false, vec![whole(), whole(), Patch::write(0, &[1; 8])]).unwrap();
    assert!(handle.commit(Vec::new()).is_ok());
}
