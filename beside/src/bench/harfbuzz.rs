//! HarfBuzz, where its library is there: lines shaped by a font of given tables.

use crate::font::sfnt::typed_font;
use std::ffi::{c_void, CStr};
use std::os::raw::c_char;
use std::ptr::null;

extern "C" {
    fn dlopen(name: *const c_char, flags: i32) -> *mut c_void;
    fn dlsym(library: *mut c_void, name: *const c_char) -> *mut c_void;
}

const LIBRARY: &[u8] = b"libharfbuzz.so.0\0";

/// Bind all at once.
const NOW: i32 = 2;

/// Declares what is taken from the library, all found or none.
macro_rules! library {
    ($($name:ident($($told:ty),*) -> $given:ty;)*) => {
        #[derive(Clone, Copy)]
        struct Library {
            $($name: extern "C" fn($($told),*) -> $given,)*
        }

        impl Library {
            fn open() -> Option<Self> {
                unsafe {
                    let library = dlopen(LIBRARY.as_ptr().cast(), NOW);
                    if library.is_null() {
                        return None;
                    }
                    Some(Library {
                        $($name: {
                            let found = dlsym(library, concat!("hb_", stringify!($name), "\0").as_ptr().cast());
                            if found.is_null() {
                                return None;
                            }
                            std::mem::transmute::<*mut c_void, extern "C" fn($($told),*) -> $given>(found)
                        },)*
                    })
                }
            }
        }
    };
}

/// A blob, face, font, buffer or language.
type Handle = *mut c_void;

library! {
    version_string() -> *const c_char;
    blob_create(*const u8, u32, i32, Handle, Handle) -> Handle;
    face_create(Handle, u32) -> Handle;
    font_create(Handle) -> Handle;
    language_from_string(*const c_char, i32) -> Handle;
    buffer_create() -> Handle;
    buffer_clear_contents(Handle) -> ();
    buffer_add_codepoints(Handle, *const u32, i32, u32, i32) -> ();
    buffer_set_direction(Handle, i32) -> ();
    buffer_set_script(Handle, u32) -> ();
    buffer_set_language(Handle, Handle) -> ();
    buffer_get_glyph_infos(Handle, *mut u32) -> *const Info;
    shape(Handle, Handle, *const c_void, u32) -> ();
}

/// What a buffer holds of a glyph; the first is its number.
type Info = [u32; 5];

/// The blob's bytes are copied.
const COPIED: i32 = 0;
const LEFT_TO_RIGHT: i32 = 4;
const LATIN: u32 = u32::from_be_bytes(*b"Latn");

/// A font and a buffer, which stay as long as the program.
pub struct Harfbuzz {
    library: Library,
    font: Handle,
    buffer: Handle,
    language: Handle,
}

impl Harfbuzz {
    /// A font of so many glyphs and of these tables.
    pub fn open(glyphs: u16, morx: &[u8], kerx: &[u8]) -> Option<Self> {
        let library = Library::open()?;
        let file = typed_font(glyphs, vec![(*b"morx", morx.to_vec()), (*b"kerx", kerx.to_vec())]);
        let blob = (library.blob_create)(
            file.as_ptr(),
            file.len() as u32,
            COPIED,
            null::<u8>() as Handle,
            null::<u8>() as Handle,
        );
        let font = (library.font_create)((library.face_create)(blob, 0));
        let language = (library.language_from_string)(b"en\0".as_ptr().cast(), -1);
        Some(Harfbuzz { library, font, buffer: (library.buffer_create)(), language })
    }

    /// The library's version.
    pub fn version(&self) -> String {
        unsafe { CStr::from_ptr((self.library.version_string)()) }.to_string_lossy().into_owned()
    }

    /// Shapes a line of characters.
    pub fn shape(&mut self, typed: &[u32]) {
        let Harfbuzz { library, font, buffer, language } = *self;
        let length = typed.len() as i32;
        (library.buffer_clear_contents)(buffer);
        (library.buffer_set_direction)(buffer, LEFT_TO_RIGHT);
        (library.buffer_set_script)(buffer, LATIN);
        (library.buffer_set_language)(buffer, language);
        (library.buffer_add_codepoints)(buffer, typed.as_ptr(), length, 0, length);
        (library.shape)(font, buffer, null(), 0);
    }

    /// The glyphs of the line that was shaped last.
    pub fn glyphs(&self) -> Vec<u16> {
        let mut count = 0;
        let infos = (self.library.buffer_get_glyph_infos)(self.buffer, &mut count);
        unsafe { std::slice::from_raw_parts(infos, count as usize) }.iter().map(|info| info[0] as u16).collect()
    }
}
