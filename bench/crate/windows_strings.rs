//! Stand-in for std's Windows `OsStr`/`OsString`/`Path`, over std's own WTF-8
//! (`alloc::wtf8`), which is what `std::sys::os_str::wtf8` wraps on Windows.
use alloc::wtf8::{Wtf8, Wtf8Buf};
use std::borrow::{Borrow, Cow};
use std::cmp::Ordering;
use std::fmt;
use std::hash::{Hash, Hasher};
use std::mem;
use std::ops::Deref;

#[repr(transparent)]
pub struct OsStr(Wtf8);
pub struct OsString(Wtf8Buf);

impl OsStr {
    pub fn new<S: AsRef<OsStr> + ?Sized>(s: &S) -> &OsStr {
        s.as_ref()
    }
    fn from_inner(s: &Wtf8) -> &OsStr {
        unsafe { mem::transmute(s) }
    }
    pub unsafe fn from_encoded_bytes_unchecked(b: &[u8]) -> &OsStr {
        Self::from_inner(unsafe { Wtf8::from_bytes_unchecked(b) })
    }
    pub fn as_encoded_bytes(&self) -> &[u8] {
        self.0.as_bytes()
    }
    pub fn to_str(&self) -> Option<&str> {
        self.0.as_str().ok()
    }
    pub fn to_string_lossy(&self) -> Cow<'_, str> {
        self.0.to_string_lossy()
    }
    pub fn is_empty(&self) -> bool {
        self.as_encoded_bytes().is_empty()
    }
    pub fn len(&self) -> usize {
        self.as_encoded_bytes().len()
    }
    pub fn to_os_string(&self) -> OsString {
        OsString(self.0.to_owned())
    }
}
impl OsString {
    pub fn new() -> Self {
        OsString(Wtf8Buf::from_string(String::new()))
    }
    pub fn push<T: AsRef<OsStr>>(&mut self, s: T) {
        self.0.push_wtf8(&s.as_ref().0)
    }
    pub fn into_encoded_bytes(self) -> Vec<u8> {
        self.0.into_bytes()
    }
    pub unsafe fn from_encoded_bytes_unchecked(b: Vec<u8>) -> Self {
        OsString(unsafe { Wtf8Buf::from_bytes_unchecked(b) })
    }
    pub fn into_string(self) -> Result<String, OsString> {
        self.0.into_string().map_err(OsString)
    }
    pub fn as_os_str(&self) -> &OsStr {
        self
    }
}
impl Deref for OsString {
    type Target = OsStr;
    fn deref(&self) -> &OsStr {
        OsStr::from_inner(&self.0)
    }
}
impl AsRef<OsStr> for OsStr {
    fn as_ref(&self) -> &OsStr {
        self
    }
}
impl AsRef<OsStr> for OsString {
    fn as_ref(&self) -> &OsStr {
        self
    }
}
impl AsRef<OsStr> for str {
    fn as_ref(&self) -> &OsStr {
        OsStr::from_inner(Wtf8::from_str(self))
    }
}
impl AsRef<OsStr> for String {
    fn as_ref(&self) -> &OsStr {
        (&**self).as_ref()
    }
}
impl Borrow<OsStr> for OsString {
    fn borrow(&self) -> &OsStr {
        self
    }
}
impl ToOwned for OsStr {
    type Owned = OsString;
    fn to_owned(&self) -> OsString {
        self.to_os_string()
    }
}
impl Clone for OsString {
    fn clone(&self) -> Self {
        self.to_os_string()
    }
}
impl From<String> for OsString {
    fn from(s: String) -> Self {
        OsString(Wtf8Buf::from_string(s))
    }
}
impl From<&OsStr> for OsString {
    fn from(s: &OsStr) -> Self {
        s.to_os_string()
    }
}
impl<'a> Extend<&'a OsStr> for OsString {
    fn extend<T: IntoIterator<Item = &'a OsStr>>(&mut self, iter: T) {
        for s in iter {
            self.push(s)
        }
    }
}
impl PartialEq for OsStr {
    fn eq(&self, o: &Self) -> bool {
        self.as_encoded_bytes() == o.as_encoded_bytes()
    }
}
impl Eq for OsStr {}
impl PartialOrd for OsStr {
    fn partial_cmp(&self, o: &Self) -> Option<Ordering> {
        Some(self.cmp(o))
    }
}
impl Ord for OsStr {
    fn cmp(&self, o: &Self) -> Ordering {
        self.0.cmp(&o.0)
    }
}
impl Hash for OsStr {
    fn hash<H: Hasher>(&self, h: &mut H) {
        self.as_encoded_bytes().hash(h)
    }
}
impl PartialEq for OsString {
    fn eq(&self, o: &Self) -> bool {
        **self == **o
    }
}
impl Eq for OsString {}
impl fmt::Debug for OsStr {
    fn fmt(&self, f: &mut fmt::Formatter<'_>) -> fmt::Result {
        fmt::Debug::fmt(&self.0, f)
    }
}
impl fmt::Debug for OsString {
    fn fmt(&self, f: &mut fmt::Formatter<'_>) -> fmt::Result {
        fmt::Debug::fmt(&**self, f)
    }
}

#[repr(transparent)]
#[derive(PartialEq, Eq, Debug)]
pub struct Path(OsStr);
#[derive(PartialEq, Eq, Debug)]
pub struct PathBuf(OsString);
impl Path {
    pub fn new<S: AsRef<OsStr> + ?Sized>(s: &S) -> &Path {
        unsafe { mem::transmute(s.as_ref()) }
    }
    pub fn as_os_str(&self) -> &OsStr {
        &self.0
    }
}
impl PathBuf {
    pub fn into_os_string(self) -> OsString {
        self.0
    }
}
impl From<OsString> for PathBuf {
    fn from(s: OsString) -> Self {
        PathBuf(s)
    }
}
impl Borrow<Path> for PathBuf {
    fn borrow(&self) -> &Path {
        Path::new(&*self.0)
    }
}
impl ToOwned for Path {
    type Owned = PathBuf;
    fn to_owned(&self) -> PathBuf {
        PathBuf(self.0.to_os_string())
    }
}

/// Stand-in for `std::os::windows`.
pub mod os {
    pub mod ffi {
        use super::super::{OsStr, OsString};
        #[derive(Clone)]
        pub struct EncodeWide<'a>(alloc::wtf8::EncodeWide<'a>);
        impl Iterator for EncodeWide<'_> {
            type Item = u16;
            fn next(&mut self) -> Option<u16> {
                self.0.next()
            }
            fn size_hint(&self) -> (usize, Option<usize>) {
                self.0.size_hint()
            }
        }
        pub trait OsStrExt {
            fn encode_wide(&self) -> EncodeWide<'_>;
        }
        impl OsStrExt for OsStr {
            fn encode_wide(&self) -> EncodeWide<'_> {
                EncodeWide(self.0.encode_wide())
            }
        }
        pub trait OsStringExt: Sized {
            fn from_wide(wide: &[u16]) -> Self;
        }
        impl OsStringExt for OsString {
            fn from_wide(wide: &[u16]) -> Self {
                OsString(alloc::wtf8::Wtf8Buf::from_wide(wide))
            }
        }
    }
}
