//! The disk: files below one folder, which stay open once they are written.
use std::collections::HashMap;
use std::fs::{self, File, OpenOptions};
use std::io::{self, Seek, SeekFrom, Write};
use std::path::{Path, PathBuf};
use std::rc::Rc;

pub const ROOT: &str = "ais_log_root";

/// A call of the disk, as a value.
#[derive(Clone)]
pub enum Deed {
    Create { name: Rc<str> },
    Write { name: Rc<str>, at: u64, bytes: Rc<[u8]> },
    Sync { name: Rc<str> },
    Rename { from: Rc<str>, to: Rc<str> },
    Remove { name: Rc<str> },
}

/// The files that are open, with their lengths.
#[derive(Default)]
pub struct Disk {
    open: HashMap<Rc<str>, (File, u64)>,
}

fn path_of(name: &str) -> PathBuf {
    Path::new(ROOT).join(name)
}

fn sync_root() -> io::Result<()> {
    File::open(ROOT)?.sync_all()
}

impl Disk {
    pub fn perform(&mut self, deeds: &[Deed]) -> io::Result<()> {
        deeds.iter().try_for_each(|deed| match deed {
            Deed::Create { name } => self.create(name),
            Deed::Write { name, at, bytes } => self.write_at(name, *at, bytes),
            Deed::Sync { name } => self.sync(name),
            Deed::Rename { from, to } => self.rename(from, to),
            Deed::Remove { name } => self.remove(name),
        })
    }

    /// How many files there are, and the sum of their lengths.
    pub fn lengths() -> io::Result<(usize, u64)> {
        let mut found = (0, 0);
        for entry in fs::read_dir(ROOT)? {
            found = (found.0 + 1, found.1 + entry?.metadata()?.len());
        }
        Ok(found)
    }

    fn create(&mut self, name: &Rc<str>) -> io::Result<()> {
        if !Path::new(ROOT).exists() {
            fs::create_dir_all(ROOT)?;
            File::open(".")?.sync_all()?;
        }
        let file = File::create(path_of(name))?;
        file.sync_all()?;
        self.open.insert(name.clone(), (file, 0));
        sync_root()
    }

    // The file of a name, where one stands.
    fn file(&mut self, name: &Rc<str>) -> io::Result<Option<&mut (File, u64)>> {
        if !self.open.contains_key(name) {
            let path = path_of(name);
            if !path.exists() {
                return Ok(None);
            }
            let len = fs::symlink_metadata(&path)?.len();
            let file = OpenOptions::new().write(true).open(path)?;
            self.open.insert(name.clone(), (file, len));
        }
        Ok(self.open.get_mut(name))
    }

    fn write_at(&mut self, name: &Rc<str>, at: u64, bytes: &[u8]) -> io::Result<()> {
        let Some((file, len)) = self.file(name)? else {
            return Err(io::Error::from(io::ErrorKind::NotFound));
        };
        if at > *len {
            return Ok(());
        }
        file.seek(SeekFrom::Start(at))?;
        file.write_all(bytes)?;
        *len = (*len).max(at + bytes.len() as u64);
        Ok(())
    }

    fn sync(&mut self, name: &Rc<str>) -> io::Result<()> {
        match self.file(name)? {
            Some((file, _)) => file.sync_all(),
            None => Ok(()),
        }
    }

    fn rename(&mut self, from: &Rc<str>, to: &Rc<str>) -> io::Result<()> {
        self.open.remove(from);
        self.open.remove(to);
        if !path_of(from).exists() {
            return Ok(());
        }
        fs::rename(path_of(from), path_of(to))?;
        sync_root()
    }

    fn remove(&mut self, name: &Rc<str>) -> io::Result<()> {
        self.open.remove(name);
        if !path_of(name).exists() {
            return Ok(());
        }
        fs::remove_file(path_of(name))?;
        sync_root()
    }
}
