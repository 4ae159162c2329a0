//! Temporary files for other programs to read or write.

use std::path::PathBuf;
use std::sync::atomic::{AtomicUsize, Ordering};

/// The path of a file in the temporary folder, another with each call. Nothing is written.
pub fn own_file(ending: &str) -> PathBuf {
    static CALLS: AtomicUsize = AtomicUsize::new(0);
    let (process, call) = (std::process::id(), CALLS.fetch_add(1, Ordering::Relaxed));
    std::env::temp_dir().join(format!("ridgecrook-{process}-{call}.{ending}"))
}
