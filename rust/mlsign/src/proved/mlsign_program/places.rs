// Made by tools/erase of crates/mlsign_program/src/places.rt. Change that, not this.
//! Files that are written as a whole or not at all.

use crate::standing::*;

use crate::proved::mlsign_program::files::{note_open, read_start};
use crate::proved::mlsign_program::labels::{has_private_label, is_other_private_key, labels_private};
use crate::proved::mlsign_program::text::{about, note};
use anyhow::{Context, Error};
use fips204_shake::der::read_private;
use mlsign_engine::pem::Kind;
use mlsign_engine::{KeyFiles, kind_of_text};
use rattle_std::alloc::AllocError;
use rattle_std::fs::{self, File, Metadata, OpenFile, OpenOptions, TryLockError};
use rattle_std::io::{self, ErrorKind, Write};
use std::os::unix::fs::{FileTypeExt, MetadataExt, OpenOptionsExt};
use rattle_std::random::RandomSource;
use rattle_std::thread;
use rattle_std::time::Duration;

/// What a file that is written has.
#[derive(Debug, Clone, Copy, PartialEq, Eq)]
pub(crate) enum Content {
    /// A private key: nobody else may read it.
    PrivateKey,
    /// A public key.
    PublicKey,
    /// A signature.
    Signature,
}

impl Content {
    /// The rights of a new file, before those that the process withholds: 0600 for a private key.
    fn mode(self) -> u32 {
        match self {
            Content::PrivateKey => 0o600,
            Content::PublicKey | Content::Signature => 0o666,
        }
    }
}

/// A file that is to be written.
#[derive(Debug, Clone, Copy)]
pub(crate) struct Target<'a> {
    /// Its name, or `-` for standard output.
    pub path: &'a str,
    /// What it is to have.
    pub content: Content,
    /// Whether it may replace a file that is there.
    pub force: bool,
}

/// Which file this is: its device and its number there.
#[derive(Debug, Clone, Copy, PartialEq, Eq)]
pub(crate) struct FileId {
    device: u64,
    number: u64,
}

impl FileId {
    /// The file with these data.
    pub(crate) fn of(found: &Metadata) -> FileId {
        FileId {
            device: found.dev(),
            number: found.ino(),
        }
    }
}

/// What is at the name of a file that is to be written.
enum Place {
    /// Standard output.
    Standard,
    /// A device or a pipe, which is written where it is.
    Stream(FileId),
    /// Nothing.
    Free,
    /// A file that may be replaced, whose name behind all links this is.
    Taken(String, FileId),
}

/// A file that may be written, as far as what is there now can say.
pub(crate) struct Output<'a> {
    target: Target<'a>,
    place: Place,
}

impl<'a> Output<'a> {
    /// Looks at what is there. An error if that may not be replaced: a directory, a read-only file, a message, a private key by
    /// anything else, and without `force` all but a signature by another one and an empty file by what is no private key. A private
    /// key goes to a device or a pipe only with `force`, and never to another user's pipe.
    pub(crate) fn find(
        rt: &HostRuntime,
        target: Target<'a>,
        messages: &[FileId],
    ) -> Result<Output<'a>, Error> {
        let place = target.place(rt, messages)?;
        Ok(Output { target, place })
    }

    /// Whether two files are one.
    pub(crate) fn is_same(&self, rt: &HostRuntime, other: &Output<'_>) -> bool {
        match (&self.place, &other.place) {
            (Place::Taken(_, one), Place::Taken(_, another)) => one == another,
            (Place::Free, Place::Free) => self.target.path == other.target.path,
            (Place::Taken(_, id), Place::Standard) => is_at(rt, STANDARD_OUTPUT, *id),
            (Place::Standard, Place::Taken(_, id)) => is_at(rt, STANDARD_OUTPUT, *id),
            _ => false,
        }
    }

    /// The file that it replaces.
    pub(crate) fn replaced(&self) -> Option<FileId> {
        match self.place {
            Place::Taken(_, id) => Some(id),
            _ => None,
        }
    }

    /// The folder of the file, if it is one.
    fn folder(&self) -> Option<&str> {
        match self.place {
            Place::Standard | Place::Stream(_) => None,
            _ => Some(folder_of(self.name())),
        }
    }

    /// The name that the file gets.
    fn name(&self) -> &str {
        match &self.place {
            Place::Taken(name, _) => name.as_str(),
            _ => self.target.path,
        }
    }

    /// Writes these bytes, or changes nothing.
    pub(crate) fn write(&self, rt: &HostRuntime, bytes: &[u8]) -> Result<(), Error> {
        self.replace(rt, bytes)?;
        self.tell_left(rt);
        Ok(())
    }

    /// Writes these bytes.
    fn replace(&self, rt: &HostRuntime, bytes: &[u8]) -> Result<(), Error> {
        let mut new = self.prepare(rt, bytes)?;
        self.keep(rt, new.as_mut())?;
        self.put(rt, new.as_mut(), bytes)
    }

    /// Says which files were left here by runs that did not end.
    fn tell_left(&self, rt: &HostRuntime) {
        match self.place {
            Place::Standard | Place::Stream(_) => {}
            _ => {
                let _ = tell_left(rt, self.name());
            }
        }
    }

    /// Writes the bytes into a new file beside the place. There is none for a stream.
    fn prepare<'b>(&self, rt: &'b HostRuntime, bytes: &[u8]) -> Result<Option<New<'b>>, Error> {
        match self.place {
            Place::Standard | Place::Stream(_) => Ok(None),
            _ => Ok(Some(self.beside(rt, bytes).context(self.target.path)?)),
        }
    }

    /// Writes the bytes into a new file beside the place.
    fn beside<'b>(&self, rt: &'b HostRuntime, bytes: &[u8]) -> io::Result<New<'b>> {
        let folder = File::open(folder_of(self.name()))?;
        let name = name_beside(rt, self.name(), "new")?;
        let mut file = create(rt, name.as_str(), self.target.content.mode())?;
        let file_beside = Beside::new(rt, name);
        file.write_all(bytes)?;
        file.sync_all()?;
        Ok(New {
            id: FileId::of(&file.metadata()?),
            file: file_beside,
            folder,
            kept: None,
        })
    }

    /// Gives the file that is to be replaced a second name beside it.
    fn keep<'b>(&self, rt: &'b HostRuntime, new: Option<&mut New<'b>>) -> Result<(), Error> {
        match (&self.place, new) {
            (Place::Taken(name, id), Some(new)) => {
                let kept = kept(rt, name.as_str(), *id).context(self.target.path)?;
                new.kept = Some(kept);
                Ok(())
            }
            _ => Ok(()),
        }
    }

    /// Puts the new file into its place, or writes these bytes to a stream. After an error all is as it was.
    fn put(&self, rt: &HostRuntime, new: Option<&mut New<'_>>, bytes: &[u8]) -> Result<(), Error> {
        let done = match new {
            None => self.write_stream(rt, bytes),
            Some(new) => self.put_file(rt, new),
        };
        done.context(self.target.path)
    }

    /// Puts the new file into its place, and syncs the folder, so that it stays there when the power fails.
    fn put_file(&self, rt: &HostRuntime, new: &mut New<'_>) -> io::Result<()> {
        let name = new.file.name.as_str();
        match &self.place {
            Place::Taken(place, _) => fs::rename(name, place.as_str())?,
            _ => self.put_free(rt, name)?,
        }
        let synced = sync(&new.folder);
        if synced.is_err() {
            self.undo(rt, new);
        }
        synced
    }

    /// Puts the new file where nothing is. A link is never made over a file, and a rename is. A file system without links gets an
    /// empty file first.
    fn put_free(&self, rt: &HostRuntime, new: &str) -> io::Result<()> {
        let path = self.target.path;
        match fs::hard_link(new, path) {
            Err(error) if error.kind() != ErrorKind::AlreadyExists => {}
            done => return done,
        }
        let _ = create(rt, path, self.target.content.mode())?;
        let done = fs::rename(new, path);
        if done.is_err() {
            remove(rt, path);
        }
        done
    }

    /// Writes to standard output, a device or a pipe.
    fn write_stream(&self, rt: &HostRuntime, bytes: &[u8]) -> io::Result<()> {
        let Place::Stream(id) = &self.place else {
            rt.stdout().write_all(bytes)?;
            if self.target.content == Content::PrivateKey {
                note_open(rt, STANDARD_OUTPUT, "standard output");
            }
            return Ok(());
        };
        let mut file = OpenOptions::new().write(true).open(self.target.path)?;
        let opened = file.metadata()?;
        check_unchanged(&opened, *id)?;
        if self.target.content == Content::PrivateKey && is_pipe_of_another(rt, &opened) {
            return Err(of_another());
        }
        file.write_all(bytes)
    }

    /// Undoes `put`, unless another program has put its own file there since.
    fn undo(&self, rt: &HostRuntime, new: &mut New<'_>) {
        match fs::symlink_metadata(self.name()) {
            Ok(found) if FileId::of(&found) != new.id => return,
            _ => {}
        }
        match (&self.place, &mut new.kept) {
            (Place::Taken(name, _), Some(kept)) => {
                let done = fs::rename(kept.name.as_str(), name.as_str());
                kept.stays = done.is_err();
                if done.is_err() {
                    note(
                        rt,
                        kept.name.as_str(),
                        "holds the previous file, which could not be restored",
                    );
                }
            }
            (Place::Free, _) => remove(rt, self.target.path),
            _ => {}
        }
    }
}

/// A file that is put into its place.
struct New<'a> {
    /// It, beside its place.
    file: Beside<'a>,
    /// Which file it is.
    id: FileId,
    /// The folder of both.
    folder: File,
    /// The file that it replaces, under another name.
    kept: Option<Beside<'a>>,
}

/// Standard output as a file, where the system has such names.
const STANDARD_OUTPUT: &str = "/dev/stdout";

/// Makes a file with these rights under a name that is not in use.
fn create(rt: &HostRuntime, name: &str, mode: u32) -> io::Result<File> {
    OpenOptions::new()
        .write(true)
        .create_new(true)
        .mode(mode)
        .open(name)
}

/// The folder of a file.
fn folder_of(path: &str) -> &str {
    let (folder, _) = split(path);
    if folder.is_empty() { "." } else { folder }
}

/// Syncs a folder. There are file systems that cannot.
fn sync(folder: &File) -> io::Result<()> {
    match folder.sync_all() {
        Err(error) if error.kind() == ErrorKind::InvalidInput => Ok(()),
        done => done,
    }
}

/// A second name beside this one for the file that was found under it. A file system without links gets a copy.
fn kept<'a>(rt: &'a HostRuntime, name: &str, id: FileId) -> io::Result<Beside<'a>> {
    let second = name_beside(rt, name, "old")?;
    if fs::hard_link(name, second.as_str()).is_ok() {
        let beside = Beside::new(rt, second);
        check_unchanged(&fs::symlink_metadata(beside.name.as_str())?, id)?;
        return Ok(beside);
    }
    let mut file = File::open(name)?;
    check_unchanged(&file.metadata()?, id)?;
    let mut copy = create(rt, second.as_str(), 0o600)?;
    let beside = Beside::new(rt, second);
    io::copy(&mut file, &mut copy)?;
    copy.sync_all()?;
    Ok(beside)
}

/// An error if what is there now is not the file that was found.
fn check_unchanged(now: &Metadata, id: FileId) -> io::Result<()> {
    if FileId::of(now) != id {
        return Err(io::Error::other("it was changed while this program ran"));
    }
    Ok(())
}

/// Whether this file is at a name.
fn is_at(rt: &HostRuntime, name: &str, id: FileId) -> bool {
    match fs::metadata(name) {
        Ok(found) => FileId::of(&found) == id,
        Err(_) => false,
    }
}

/// The error of a pipe that is another user's.
fn of_another() -> io::Error {
    io::Error::other("it is a pipe of another user, which gets no private key")
}

/// Whether this is a pipe of another user, or of nobody knows whom.
fn is_pipe_of_another(rt: &HostRuntime, found: &Metadata) -> bool {
    if !found.file_type().is_fifo() {
        return false;
    }
    // The system has no call here for the user of this process, whom its own entry belongs to.
    match fs::metadata("/proc/self") {
        Ok(own) => own.uid() != found.uid(),
        Err(_) => true,
    }
}

/// Writes both files, or changes neither.
pub(crate) fn write_pair(
    rt: &HostRuntime,
    public: &Output<'_>,
    private: &Output<'_>,
    keys: &KeyFiles,
) -> Result<(), Error> {
    replace_pair(rt, public, private, keys)?;
    public.tell_left(rt);
    private.tell_left(rt);
    Ok(())
}

/// Writes both files. The private key's comes last, by one step: until then it is as it was, and the public key's can be undone.
fn replace_pair(
    rt: &HostRuntime,
    public: &Output<'_>,
    private: &Output<'_>,
    keys: &KeyFiles,
) -> Result<(), Error> {
    let (public_text, private_text) = (keys.public.as_slice(), keys.private.as_slice());
    let _lock = lock(rt, public, private)?;
    let mut public_new = public.prepare(rt, public_text)?;
    let mut private_new = private.prepare(rt, private_text)?;
    public.keep(rt, public_new.as_mut())?;
    private.keep(rt, private_new.as_mut())?;
    public.put(rt, public_new.as_mut(), public_text)?;
    let done = private.put(rt, private_new.as_mut(), private_text);
    if done.is_err() {
        if let Some(new) = public_new.as_mut() {
            public.undo(rt, new);
        }
    }
    done
}

/// Locks the folder of the private key, or of the public key if that alone goes to a file, if the file system can: two runs that
/// replace a pair at once could leave one key of each. It waits for another program's lock only if a file is replaced, and gives up
/// after five seconds. A run that replaces no file goes on without the lock, because a link never replaces one.
fn lock(
    rt: &HostRuntime,
    public: &Output<'_>,
    private: &Output<'_>,
) -> Result<Option<File>, Error> {
    let Some(name) = private.folder().or(public.folder()) else {
        return Ok(None);
    };
    let folder = File::open(name).context(name)?;
    let replaces = private.replaced().or(public.replaced()).is_some();
    for _count in 0..TRIES {
        match folder.try_lock() {
            Err(TryLockError::WouldBlock) if replaces => {
                thread::sleep(rt, Duration::from_millis(PAUSE));
            }
            _ => return Ok(Some(folder)),
        }
    }
    Err(about(name, "another program has locked the folder"))
}

/// How often a lock is tried.
const TRIES: u64 = 50;

/// How long a run waits before it tries a lock again, in milliseconds.
const PAUSE: u64 = 100;

impl Target<'_> {
    /// What is there, if that may be replaced.
    fn place(&self, rt: &HostRuntime, messages: &[FileId]) -> Result<Place, Error> {
        let path = self.path;
        if path == "-" {
            return Ok(Place::Standard);
        }
        let found = match fs::metadata(path) {
            Ok(found) => found,
            Err(error) if error.kind() == ErrorKind::NotFound => {
                if fs::symlink_metadata(path).is_ok() {
                    return Err(about(path, "it is a link to a file that is not there"));
                }
                return Ok(Place::Free);
            }
            Err(error) => return Err(error).context(path),
        };
        if found.is_dir() {
            return Err(about(path, "it is a directory"));
        }
        if !found.is_file() {
            self.check_stream(rt, &found)?;
            return Ok(Place::Stream(FileId::of(&found)));
        }
        self.check_replaced(rt, &found, messages)?;
        let name = if fs::symlink_metadata(path).context(path)?.is_symlink() {
            fs::canonicalize(path).context(path)?.into_string()
        } else {
            String::from_str(rt.alloc(), path).map_err(io::Error::from)?
        };
        Ok(Place::Taken(name, FileId::of(&found)))
    }

    /// An error if the device or pipe that was found here gets no private key.
    fn check_stream(&self, rt: &HostRuntime, found: &Metadata) -> Result<(), Error> {
        let path = self.path;
        if self.content != Content::PrivateKey {
            return Ok(());
        }
        if !self.force {
            return Err(about(
                path,
                "it is no file, and only --force writes a private key to it",
            ));
        }
        if is_pipe_of_another(rt, found) {
            return Err(of_another()).context(path);
        }
        Ok(())
    }

    /// An error if the file that was found here may not be replaced.
    fn check_replaced(
        &self,
        rt: &HostRuntime,
        found: &Metadata,
        messages: &[FileId],
    ) -> Result<(), Error> {
        let path = self.path;
        if messages.contains(&FileId::of(found)) {
            return Err(about(path, "it is the message, and is not replaced"));
        }
        let start = read_start(rt, path)?;
        let start = start.as_slice();
        let guarded = self.content != Content::PrivateKey;
        if guarded && (is_private_key(start) || labels_private(start)) {
            return Err(private_stays(path));
        }
        if !self.force && !self.may_replace(start) {
            return Err(about(path, "it is there already, and only --force replaces it"));
        }
        if found.permissions().readonly() {
            return Err(about(path, "it is read-only, and is not replaced"));
        }
        // (what is refused is not read to its end)
        if guarded && has_private_label(rt, path).context(path)? {
            return Err(private_stays(path));
        }
        OpenOptions::new().write(true).open(path).context(path)?;
        Ok(())
    }

    /// Whether a file with these bytes may be replaced without `force`: never by a private key, and by a public one if it is empty.
    fn may_replace(&self, bytes: &[u8]) -> bool {
        match self.content {
            Content::PrivateKey => false,
            Content::PublicKey => bytes.is_empty(),
            Content::Signature => bytes.is_empty() || is_signature(bytes),
        }
    }
}

/// The error of a private key that something else would replace.
fn private_stays(path: &str) -> Error {
    about(path, "it has a private key, which is not replaced")
}

/// Whether a file with these bytes is taken for a private key: its text says so, or it has one in DER or in raw bytes.
fn is_private_key(bytes: &[u8]) -> bool {
    kind_of_text(bytes) == Kind::Private
        || read_private(bytes).is_ok()
        || is_other_private_key(bytes)
}

/// Whether a file with these bytes is taken for a signature: it has a signature's length, and is no PEM.
fn is_signature(bytes: &[u8]) -> bool {
    matches!(bytes.len(), 2420 | 3309 | 4627) && !bytes.starts_with(b"-----BEGIN ")
}

/// A file beside another, which is removed in the end unless it is to stay.
struct Beside<'a> {
    rt: &'a HostRuntime,
    name: String,
    stays: bool,
}

impl<'a> Beside<'a> {
    /// The file with this name.
    fn new(rt: &'a HostRuntime, name: String) -> Beside<'a> {
        Beside {
            rt,
            name,
            stays: false,
        }
    }
}

impl Drop for Beside<'_> {
    fn drop(&mut self) {
        let Beside { rt, name, stays } = &*self;
        if !stays {
            remove(rt, name.as_str());
        }
    }
}

/// Removes a file of this run, and says so if it stays.
fn remove(rt: &HostRuntime, name: &str) {
    match fs::remove_file(name) {
        Err(error) if error.kind() != ErrorKind::NotFound => {
            note(rt, name, "could not be removed");
        }
        _ => {}
    }
}

/// A name beside a file's that nobody can foresee: the start of the file's, 16 hex digits, and an end.
fn name_beside(rt: &HostRuntime, path: &str, end: &str) -> io::Result<String> {
    let mut name = String::new(rt.alloc());
    let (folder, last) = split(path);
    name.push_str(folder)?;
    push_start(&mut name, last)?;
    let mut random = [0; 8];
    rt.fill_bytes(&mut random)?;
    let number = u64::from_le_bytes(random);
    name.push_str(try_format!(rt.alloc(); ".{number:016x}.{end}")?.as_str())?;
    Ok(name)
}

/// The folder of a path, with its slash if there is one, and the name in it.
fn split(path: &str) -> (&str, &str) {
    let name = match path.rsplit_once('/') {
        Some((_, name)) => name,
        None => path,
    };
    (path.strip_suffix(name).unwrap_or(""), name)
}

/// Adds a name, or its first 50 characters if it is too long for what follows.
fn push_start(text: &mut String, name: &str) -> Result<(), AllocError> {
    if name.len() <= LONGEST_NAME {
        return text.push_str(name);
    }
    for character in name.chars().take(50) {
        text.push(character)?;
    }
    Ok(())
}

/// The longest name that 21 bytes may follow.
const LONGEST_NAME: usize = 234;

/// Says which files beside this one were left by runs that did not end.
fn tell_left(rt: &HostRuntime, path: &str) -> io::Result<()> {
    let (folder, last) = split(path);
    let mut start = String::new(rt.alloc());
    push_start(&mut start, last)?;
    for entry in fs::read_dir(folder_of(path))? {
        let entry = match entry {
            Ok(entry) => entry,
            // A name that is no UTF-8 is none of these files.
            Err(error) if error.kind() == ErrorKind::InvalidFilename => continue,
            Err(error) => return Err(error),
        };
        if is_left(entry.file_name(), start.as_str()) {
            let mut name = String::from_str(rt.alloc(), folder)?;
            name.push_str(entry.file_name())?;
            note(rt, name.as_str(), "was left by a run that did not end");
        }
    }
    Ok(())
}

/// Whether a name is one that `name_beside` gives for a file whose name starts so.
fn is_left(name: &str, start: &str) -> bool {
    let Some(rest) = name.strip_prefix(start) else {
        return false;
    };
    let Some(rest) = rest.strip_prefix('.') else {
        return false;
    };
    let Some((digits, end)) = rest.split_once('.') else {
        return false;
    };
    digits.len() == 16
        && digits.bytes().all(|digit| digit.is_ascii_hexdigit())
        && matches!(end, "new" | "old")
}
