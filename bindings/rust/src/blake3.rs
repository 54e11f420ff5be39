// SPDX-License-Identifier: MIT OR Apache-2.0
use crate::message::message;
use crate::native;
use crate::refusal::{checked, Refusal};

/// BLAKE3 of a message.
///
/// ```
/// assert_eq!(sums_hash::blake3_hash(b"abc")[..4], [0x64, 0x37, 0xb3, 0xac]);
/// ```
pub fn blake3_hash(input: &[u8]) -> [u8; 32] {
    let mut out = [0; 32];
    unsafe { native::sums_blake3_hash(&mut out, input.as_ptr(), input.len()) };
    out
}

/// Bytes of the BLAKE3 output of a message, from a position on; [`blake3_hash`] has the first 32. They are refused if
/// they would end past byte 2^64 - 1.
pub fn blake3(out: &mut [u8], position: u64, input: &[u8]) -> Result<(), Refusal> {
    checked(unsafe { native::sums_blake3(out.as_mut_ptr(), out.len(), position, input.as_ptr(), input.len()) })
}

/// Writes bytes of the output like [`blake3`], under a key.
pub fn blake3_keyed(out: &mut [u8], position: u64, input: &[u8], key: &[u8; 32]) -> Result<(), Refusal> {
    let (into, from) = (out.as_mut_ptr(), input.as_ptr());
    checked(unsafe { native::sums_blake3_keyed(into, out.len(), position, from, input.len(), key) })
}

/// Bytes that are derived from key material for a context, which is a text of the application.
pub fn blake3_derive(out: &mut [u8], position: u64, material: &[u8], context: &[u8]) -> Result<(), Refusal> {
    let (into, from, about) = (out.as_mut_ptr(), material.as_ptr(), context.as_ptr());
    checked(unsafe {
        native::sums_blake3_derive(into, out.len(), position, from, material.len(), about, context.len())
    })
}

message! {
    /// BLAKE3 of a message that comes in pieces.
    Blake3, Blake3State, sums_blake3_update
}

impl Blake3 {
    /// Begins a message.
    pub fn new() -> Self {
        let mut state = native::Blake3State::ZERO;
        unsafe { native::sums_blake3_init(&mut state) };
        Self(state)
    }

    /// Begins a message under a key.
    pub fn keyed(key: &[u8; 32]) -> Self {
        let mut state = native::Blake3State::ZERO;
        unsafe { native::sums_blake3_init_keyed(&mut state, key) };
        Self(state)
    }

    /// Begins key material for a context, which is a text of the application.
    pub fn derive(context: &[u8]) -> Self {
        let mut state = native::Blake3State::ZERO;
        unsafe { native::sums_blake3_init_derive(&mut state, context.as_ptr(), context.len()) };
        Self(state)
    }

    /// Forgets the message. What comes then is hashed under the same key, or for the same context.
    ///
    /// ```
    /// let mut message = sums_hash::Blake3::keyed(&[7; 32]);
    /// message.update(b"of before")?;
    /// message.reset();
    /// message.update(b"abc")?;
    /// let (mut output, mut whole) = ([0; 32], [0; 32]);
    /// message.output(0, &mut output)?;
    /// sums_hash::blake3_keyed(&mut whole, 0, b"abc", &[7; 32])?;
    /// assert_eq!(output, whole);
    /// # Ok::<(), sums_hash::Refusal>(())
    /// ```
    pub fn reset(&mut self) {
        checked(unsafe { native::sums_blake3_reset(&mut self.0) }).expect("a state that was begun is not refused");
    }

    /// Bytes of the output, from a position on; a digest is the first 32. The message can go on. They are refused if
    /// they would end past byte 2^64 - 1.
    pub fn output(&self, position: u64, out: &mut [u8]) -> Result<(), Refusal> {
        checked(unsafe { native::sums_blake3_output(&self.0, position, out.as_mut_ptr(), out.len()) })
    }
}

impl Default for Blake3 {
    fn default() -> Self {
        Self::new()
    }
}
