//! Stubs of our own for the modules that doradb's page files import. Each has
//! the least that those files use.

/// Identifiers: `u64` in a newtype.
pub(crate) mod id {
    macro_rules! id {
        ($name:ident) => {
            #[derive(Debug, Clone, Copy, PartialEq, Eq, PartialOrd, Ord)]
            pub struct $name(u64);

            impl $name {
                pub(crate) const fn new(raw: u64) -> Self {
                    $name(raw)
                }

                pub(crate) const fn as_u64(self) -> u64 {
                    self.0
                }

                pub(crate) fn from_le_bytes(bytes: [u8; 8]) -> Self {
                    $name(u64::from_le_bytes(bytes))
                }

                pub(crate) fn to_le_bytes(self) -> [u8; 8] {
                    self.0.to_le_bytes()
                }
            }

            impl From<u64> for $name {
                fn from(raw: u64) -> Self {
                    $name(raw)
                }
            }

            impl From<$name> for u64 {
                fn from(id: $name) -> u64 {
                    id.0
                }
            }
        };
    }

    id!(PageID);
    id!(RowID);
    id!(TrxID);
}

/// The row identifier that names no row.
pub(crate) mod row {
    pub(crate) const INVALID_ROW_ID: crate::id::RowID = crate::id::RowID::new(!0);
}

/// Pages of document 01's size.
pub(crate) mod buffer {
    pub(crate) mod page {
        pub(crate) const PAGE_SIZE: usize = 16_384;
        pub(crate) const INVALID_PAGE_ID: crate::id::PageID = crate::id::PageID::new(!0);

        /// A type that fills one page.
        ///
        /// # Safety
        /// Every run of `PAGE_SIZE` bytes is a value of the type.
        pub(crate) unsafe trait BufferPage: Sized + 'static {}

        /// Holds a page type to the page's size.
        pub(crate) const fn assert_buffer_page<T: BufferPage>() {
            let size = size_of::<T>();
            assert!(size == PAGE_SIZE, "a page type has the page's size");
        }
    }
}

/// The trailer of document 01's size.
pub(crate) mod file {
    pub(crate) mod block_integrity {
        use zerocopy_derive::{FromBytes, IntoBytes};

        pub(crate) const BLOCK_INTEGRITY_TRAILER_SIZE: usize = 32;

        #[derive(Debug, Clone, FromBytes, IntoBytes)]
        #[repr(C)]
        pub(crate) struct BlockIntegrityTrailer {
            bytes: [u8; BLOCK_INTEGRITY_TRAILER_SIZE],
        }
    }
}

/// Owned keys: a vector of bytes.
pub(crate) mod memcmp {
    use std::ops::{Deref, DerefMut};

    /// Something that bytes can be appended to.
    pub(crate) trait BytesExtendable {
        fn extend_from_byte_slice(&mut self, bytes: &[u8]);
    }

    impl BytesExtendable for Vec<u8> {
        fn extend_from_byte_slice(&mut self, bytes: &[u8]) {
            self.extend_from_slice(bytes);
        }
    }

    /// A key with its bytes.
    #[derive(Debug, Clone, PartialEq, Eq, PartialOrd, Ord)]
    pub(crate) struct MemCmpKey(Vec<u8>);

    impl MemCmpKey {
        /// The key without bytes.
        pub(crate) fn empty() -> Self {
            MemCmpKey(Vec::new())
        }

        /// A key of some length whose bytes are written next.
        pub(crate) fn arbitrary(len: usize) -> Self {
            MemCmpKey(vec![0; len])
        }

        /// The key's bytes, to be written.
        pub(crate) fn modify_inplace(&mut self) -> InPlace<'_> {
            InPlace(&mut self.0)
        }
    }

    impl Deref for MemCmpKey {
        type Target = [u8];
        fn deref(&self) -> &[u8] {
            &self.0
        }
    }

    /// The bytes of a key while they are written.
    pub(crate) struct InPlace<'a>(&'a mut [u8]);

    impl Drop for InPlace<'_> {
        fn drop(&mut self) {}
    }

    impl Deref for InPlace<'_> {
        type Target = [u8];
        fn deref(&self) -> &[u8] {
            self.0
        }
    }

    impl DerefMut for InPlace<'_> {
        fn deref_mut(&mut self) -> &mut [u8] {
            self.0
        }
    }
}

/// Views of bytes as values, as zerocopy gives them.
pub(crate) mod layout {
    use std::mem::{align_of, size_of};
    use std::slice;

    /// # Safety
    /// Every run of bytes of the type's size is a value of it.
    pub(crate) unsafe trait FromBytes {}

    /// # Safety
    /// The type has no padding.
    pub(crate) unsafe trait IntoBytes {}

    /// Views bytes as one value.
    pub(crate) fn ref_from_bytes<T: FromBytes>(bytes: &[u8]) -> &T {
        assert_eq!(bytes.len(), size_of::<T>());
        &slice_from_bytes(bytes)[0]
    }

    /// Views bytes as one value that can be changed.
    pub(crate) fn mut_from_bytes<T: FromBytes + IntoBytes>(bytes: &mut [u8]) -> &mut T {
        assert_eq!(bytes.len(), size_of::<T>());
        &mut slice_from_bytes_mut(bytes)[0]
    }

    /// Views bytes as values that follow each other.
    pub(crate) fn slice_from_bytes<T: FromBytes>(bytes: &[u8]) -> &[T] {
        assert_view::<T>(bytes);
        // SAFETY: length and alignment were tested, every byte pattern is a
        // value, and the view borrows the bytes.
        unsafe { slice::from_raw_parts(bytes.as_ptr().cast(), bytes.len() / size_of::<T>()) }
    }

    /// Views bytes as values that follow each other and can be changed.
    pub(crate) fn slice_from_bytes_mut<T: FromBytes + IntoBytes>(bytes: &mut [u8]) -> &mut [T] {
        assert_view::<T>(bytes);
        // SAFETY: as above; without padding every value leaves whole bytes.
        unsafe {
            slice::from_raw_parts_mut(bytes.as_mut_ptr().cast(), bytes.len() / size_of::<T>())
        }
    }

    fn assert_view<T>(bytes: &[u8]) {
        assert!(bytes.len().is_multiple_of(size_of::<T>()));
        assert!(bytes.as_ptr().addr().is_multiple_of(align_of::<T>()));
    }
}
