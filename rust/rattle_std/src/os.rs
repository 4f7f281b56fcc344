//! What one system has and another hasn't.

/// Systems of Unix's kind.
#[cfg(unix)]
pub mod unix {
    /// Their files.
    pub mod fs {
        use crate::fs::OpenOptions;
        use crate::rt::Files;
        pub use std::os::unix::fs::{MetadataExt, PermissionsExt};

        /// What a file is opened with besides.
        pub trait OpenOptionsExt {
            /// The permissions of a file that is made.
            fn mode(&mut self, mode: u32) -> &mut Self;
        }

        impl OpenOptionsExt for OpenOptions {
            fn mode(&mut self, mode: u32) -> &mut OpenOptions {
                std::os::unix::fs::OpenOptionsExt::mode(&mut self.0, mode);
                self
            }
        }

        /// Changes the owner and the group of what is at the path, of a link itself.
        pub fn lchown<F: Files>(
            _files: &F,
            path: &str,
            user: Option<u32>,
            group: Option<u32>,
        ) -> std::io::Result<()> {
            std::os::unix::fs::lchown(path, user, group)
        }
    }
}
