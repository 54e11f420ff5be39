// SPDX-License-Identifier: MIT OR Apache-2.0
//! What every message in pieces has, whichever its function.

/// A message that comes in pieces, whose state is the memory of the value itself.
macro_rules! message {
    ($(#[$about:meta])* $Message:ident, $State:ident, $c_update:ident) => {
        $(#[$about])*
        #[derive(Clone)]
        pub struct $Message(native::$State);

        impl $Message {
            /// Adds a piece to the message. It is refused if the message would be longer than the function takes,
            /// which is 2^61 - 1 bytes at least.
            pub fn update(&mut self, piece: &[u8]) -> Result<(), Refusal> {
                checked(unsafe { native::$c_update(&mut self.0, piece.as_ptr(), piece.len()) })
            }
        }

        impl core::fmt::Debug for $Message {
            // the state may hold a key
            fn fmt(&self, f: &mut core::fmt::Formatter<'_>) -> core::fmt::Result {
                f.debug_struct(stringify!($Message)).finish_non_exhaustive()
            }
        }

        #[cfg(feature = "std")]
        impl std::io::Write for $Message {
            fn write(&mut self, piece: &[u8]) -> std::io::Result<usize> {
                self.update(piece)?;
                Ok(piece.len())
            }

            fn flush(&mut self) -> std::io::Result<()> {
                Ok(())
            }
        }
    };
}

pub(crate) use message;
