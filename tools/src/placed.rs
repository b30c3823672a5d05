//! Files on their way to their places: written beside, with what the file has that they replace, and to the disk
//! before they are renamed.

use std::fs::{self, File, Metadata, OpenOptions, Permissions};
use std::io::{self, Write};
use std::os::unix::fs::{fchown, MetadataExt, OpenOptionsExt, PermissionsExt};
use std::path::Path;

/// The mode while nobody else may read what comes to be written.
const OWN: u32 = 0o600;

/// Writes a file that is to be renamed. Where there is a model, the file has its mode and its group before it has a
/// byte; one that is secret stays so. A power failure behind the rename finds the whole file.
pub fn write(path: &Path, bytes: &[u8], model: Option<&Path>) -> io::Result<()> {
    let model = model.and_then(|model| fs::metadata(model).ok());
    let model = model.filter(Metadata::is_file);
    // What a run of the same number has left, if it was killed.
    let _ = fs::remove_file(path);
    let mut options = OpenOptions::new();
    options.write(true).create_new(true);
    if model.is_some() {
        options.mode(OWN);
    }
    let mut file = options.open(path)?;
    if let Some(model) = model {
        keep(&file, &model)?;
    }
    file.write_all(bytes)?;
    file.sync_all()
}

/// The owner only where this user may give a file away, as the superuser may. The group has to be kept: its members
/// could read the old file, and those of another could read the new one.
fn keep(file: &File, model: &Metadata) -> io::Result<()> {
    let made = file.metadata()?;
    if made.uid() != model.uid() {
        let _ = fchown(file, Some(model.uid()), None);
    }
    if made.gid() != model.gid() {
        let kept = fchown(file, None, Some(model.gid()));
        kept.map_err(|error| io::Error::other(format!("its group cannot be kept: {error}")))?;
    }
    file.set_permissions(Permissions::from_mode(model.mode() & 0o7777))
}
