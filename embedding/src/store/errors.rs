//! Why a store cannot be opened, or does not answer.

use std::path::{Path, PathBuf};
use std::{fmt, io};
use yieldcleat_client::Error;

/// Why a store cannot be opened, or does not answer. Its files stay as they are, except for a torn end of the log, which is cut off.
#[derive(Debug)]
pub enum StoreError {
    /// The system refused to read or write a file or the folder.
    Io { path: PathBuf, error: io::Error },
    /// The disk is full, or a limit on the files is reached. Nothing of the batch is acknowledged; what it changed in the node is kept and
    /// written first by the next call, which may succeed.
    Full { path: PathBuf, error: io::Error },
    /// Another store has this folder open.
    Locked { folder: PathBuf },
    /// A file is missing that the other files of the folder need.
    Missing { path: PathBuf },
    /// A file differs from what was written, from this offset on, in a way that no crash causes.
    Damaged { path: PathBuf, offset: u64 },
    /// The node answered a logged request differently than before, for example with `memory`.
    Unexpected { request: String, answer: String },
    /// A call to the node failed.
    Node(Error),
    /// A request, an answer or the changes of one batch have 2^32 bytes or more.
    TooLong,
    /// An earlier call failed, so the node may have changes that the log lacks. Open the folder again.
    Stopped,
}

impl StoreError {
    /// Returns whether an error of the system means that there is no room, which may pass.
    pub(super) fn is_full(error: &io::Error) -> bool {
        matches!(error.kind(), io::ErrorKind::StorageFull | io::ErrorKind::QuotaExceeded | io::ErrorKind::FileTooLarge)
    }

    /// Converts an error of the system for this file.
    pub(super) fn io(path: &Path) -> impl FnOnce(io::Error) -> StoreError + '_ {
        move |error| StoreError::Io { path: path.to_path_buf(), error }
    }
}

impl From<Error> for StoreError {
    fn from(error: Error) -> StoreError {
        StoreError::Node(error)
    }
}

impl fmt::Display for StoreError {
    fn fmt(&self, f: &mut fmt::Formatter<'_>) -> fmt::Result {
        match self {
            StoreError::Io { path, error } | StoreError::Full { path, error } => write!(f, "{}: {error}", path.display()),
            StoreError::Locked { folder } => write!(f, "{} is open in another store", folder.display()),
            StoreError::Missing { path } => write!(f, "{} is missing", path.display()),
            StoreError::Damaged { path, offset } => write!(f, "{} is damaged at byte {offset}", path.display()),
            StoreError::Unexpected { request, answer } => write!(f, "the node answered `{request}` with `{answer}`"),
            StoreError::Node(error) => write!(f, "{error}"),
            StoreError::TooLong => f.write_str("the batch is too long"),
            StoreError::Stopped => f.write_str("an earlier call has failed"),
        }
    }
}

impl std::error::Error for StoreError {
    fn source(&self) -> Option<&(dyn std::error::Error + 'static)> {
        match self {
            StoreError::Io { error, .. } | StoreError::Full { error, .. } => Some(error),
            StoreError::Node(error) => Some(error),
            _ => None,
        }
    }
}
