use std::fs;
use std::path::{Path, PathBuf};

use super::FileError;
use super::disk::{Lock, read_bytes, replace};
use crate::desk::Store;
use crate::{Answer, Image, LARGEST_IMAGE, Version};

/// An image in a file, with one writer. Each change is saved whole before it is told of, or not at all. It is a
/// [`Store`] for desks: an answer is given when the image that it left is saved.
///
/// ```
/// use lupaniele::desk::Desk;
/// use lupaniele::files::{FileError, ImageFile};
/// use lupaniele::{DeskId, Image, Version};
///
/// # let folder = std::env::temp_dir().join(format!("lupaniele-image-{}", std::process::id()));
/// # std::fs::create_dir_all(&folder)?;
/// let path = folder.join("cards");
/// let mut file = ImageFile::create(&path, Image::make(Version::One, 1, 16)?)?;
/// assert!(matches!(ImageFile::open(&path), Err(FileError::InUse)));
///
/// Desk::start(DeskId::new(1, 0)).write_original(&mut file, 0, b"205")?;
/// drop(file);
/// let file = ImageFile::open(&path)?;
/// assert_eq!(file.image().card(0).map(|card| card.original()), Some(&b"205"[..]));
/// # std::fs::remove_dir_all(&folder)?;
/// # Ok::<(), Box<dyn std::error::Error>>(())
/// ```
#[derive(Debug)]
pub struct ImageFile {
    path: PathBuf,
    image: Image,
    unknown: bool,
    _lock: Lock,
}

impl ImageFile {
    /// Makes a file with this image.
    ///
    /// # Errors
    ///
    /// Where there is such a file already, or it cannot be made.
    ///
    /// ```
    /// use lupaniele::files::{FileError, ImageFile};
    /// use lupaniele::{Image, Version};
    /// # let folder = std::env::temp_dir().join(format!("lupaniele-created-{}", std::process::id()));
    /// # std::fs::create_dir_all(&folder)?;
    /// let path = folder.join("cards");
    /// let fresh = Image::make(Version::One, 1, 16)?;
    /// drop(ImageFile::create(&path, fresh.clone())?);
    /// assert!(matches!(ImageFile::create(&path, fresh), Err(FileError::Exists)));
    /// # std::fs::remove_dir_all(&folder)?;
    /// # Ok::<(), Box<dyn std::error::Error>>(())
    /// ```
    pub fn create(path: impl AsRef<Path>, image: Image) -> Result<ImageFile, FileError> {
        let path = path.as_ref().to_path_buf();
        let lock = Lock::on(&path)?;
        if fs::exists(&path).map_err(FileError::Unreadable)? {
            return Err(FileError::Exists);
        }
        replace(&path, image.bytes())?;
        Ok(ImageFile {
            path,
            image,
            unknown: false,
            _lock: lock,
        })
    }

    /// Opens the file of an image, of either version.
    ///
    /// # Errors
    ///
    /// Where it is in use, cannot be read, or has no sound image.
    ///
    /// ```
    /// use lupaniele::files::{FileError, ImageFile};
    /// # let folder = std::env::temp_dir().join(format!("lupaniele-opened-{}", std::process::id()));
    /// # std::fs::create_dir_all(&folder)?;
    /// let path = folder.join("cards");
    /// std::fs::write(&path, "no image")?;
    /// assert!(matches!(ImageFile::open(&path), Err(FileError::Image(_))));
    /// # std::fs::remove_dir_all(&folder)?;
    /// # Ok::<(), Box<dyn std::error::Error>>(())
    /// ```
    pub fn open(path: impl AsRef<Path>) -> Result<ImageFile, FileError> {
        let path = path.as_ref().to_path_buf();
        let lock = Lock::on(&path)?;
        let bytes = read_bytes(&path, LARGEST_IMAGE)?;
        let image = Image::check(bytes).map_err(FileError::Image)?;
        Ok(ImageFile {
            path,
            image,
            unknown: false,
            _lock: lock,
        })
    }

    /// The image as it was last saved.
    ///
    /// ```
    /// use lupaniele::files::ImageFile;
    /// use lupaniele::{Image, Version};
    /// # let folder = std::env::temp_dir().join(format!("lupaniele-its-image-{}", std::process::id()));
    /// # std::fs::create_dir_all(&folder)?;
    /// let file = ImageFile::create(folder.join("cards"), Image::make(Version::One, 7, 16)?)?;
    /// assert_eq!(file.image().count(), 7);
    /// # std::fs::remove_dir_all(&folder)?;
    /// # Ok::<(), Box<dyn std::error::Error>>(())
    /// ```
    #[must_use]
    pub fn image(&self) -> &Image {
        &self.image
    }

    /// Changes the image, any number of requests at once, and saves it.
    ///
    /// # Errors
    ///
    /// Where it was not saved: nothing is changed then, or it is not known and the file is to be opened again.
    ///
    /// ```
    /// use lupaniele::files::ImageFile;
    /// use lupaniele::{Image, Version};
    /// # let folder = std::env::temp_dir().join(format!("lupaniele-change-{}", std::process::id()));
    /// # std::fs::create_dir_all(&folder)?;
    /// # let path = folder.join("cards");
    /// let mut file = ImageFile::create(&path, Image::make(Version::One, 1, 16)?)?;
    /// let stream = [0; 52]; // a stream of commands
    /// let (answers, _) = file.change(|image| image.run(&stream, &mut [0; 16]))?;
    /// assert_eq!(answers.len(), 1);
    /// # std::fs::remove_dir_all(&folder)?;
    /// # Ok::<(), Box<dyn std::error::Error>>(())
    /// ```
    pub fn change<T>(&mut self, work: impl FnOnce(&mut Image) -> T) -> Result<T, FileError> {
        if self.unknown {
            return Err(FileError::OpenAgain);
        }
        let mut image = self.image.clone();
        let done = work(&mut image);
        if image != self.image {
            let saved = replace(&self.path, image.bytes());
            self.unknown = matches!(saved, Err(FileError::Unknown(_)));
            saved?;
            self.image = image;
        }
        Ok(done)
    }
}

impl Store for ImageFile {
    type Error = FileError;

    fn version(&self) -> Version {
        self.image.version()
    }

    fn room(&self) -> u16 {
        self.image.room()
    }

    fn send(&mut self, command: &[u8], reply: &mut [u8]) -> Result<Answer, FileError> {
        self.change(|image| image.answer_bytes(command, reply))
    }
}
