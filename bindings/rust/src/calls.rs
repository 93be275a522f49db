//! The library's eleven calls on bytes and numbers, as they are: any bytes, any numbers. For tables
//! that are kept elsewhere than in a [`crate::Table`]. All unsafe code of the crate is here.
//!
//! The parameters are those of document 01: `now` is at most 2^40-1, a set has bit i-1 for node i,
//! kind 1 is a file and 2 a directory. What is outside its range is refused.

use crate::Refusal;

/// What a call answers. Number 0 is done, and the value is the new id (create), the bytes written
/// (push, receive), the entries written (list) or the count (pending), else 0. Numbers 1 to 17 are
/// refusals ([`Refusal`]): the value is 0, and no byte lent has changed.
#[derive(Clone, Copy, Debug, PartialEq, Eq)]
pub struct Answer {
    /// 0, or why the call was refused.
    pub number: u32,
    /// What a call that is done gives.
    pub value: u32,
}

impl Answer {
    /// "number * 4294967296 + value", taken apart.
    fn unpacked(packed: u64) -> Answer {
        Answer {
            number: (packed >> 32) as u32,
            value: packed as u32,
        }
    }

    /// The value of a call that was done, or why it was refused.
    pub fn done(self) -> Result<u32, Refusal> {
        if self.number == 0 {
            return Ok(self.value);
        }
        let refusal = Refusal::from_number(self.number);
        Err(refusal.expect("the library gives no number above 17"))
    }
}

/// The exported functions. A slice is its pointer and its length.
mod library {
    extern "C" {
        pub fn rumbezalo_start(table: *mut u8, table_size: usize, node: u64, n: u64) -> u64;
        pub fn rumbezalo_create(
            table: *mut u8,
            table_size: usize,
            now: u64,
            directory: u64,
            kind: u64,
            name: *const u8,
            name_size: usize,
            set: u64,
        ) -> u64;
        pub fn rumbezalo_unlink(table: *mut u8, table_size: usize, now: u64, id: u64) -> u64;
        pub fn rumbezalo_rename(
            table: *mut u8,
            table_size: usize,
            now: u64,
            id: u64,
            directory: u64,
            name: *const u8,
            name_size: usize,
        ) -> u64;
        pub fn rumbezalo_remove(table: *mut u8, table_size: usize, now: u64, id: u64) -> u64;
        pub fn rumbezalo_spread(table: *mut u8, table_size: usize, id: u64, set: u64) -> u64;
        pub fn rumbezalo_list(
            table: *const u8,
            table_size: usize,
            id: u64,
            out: *mut u8,
            out_size: usize,
        ) -> u64;
        pub fn rumbezalo_push(
            table: *const u8,
            table_size: usize,
            id: u64,
            node: u64,
            out: *mut u8,
            out_size: usize,
        ) -> u64;
        pub fn rumbezalo_receive(
            table: *mut u8,
            table_size: usize,
            now: u64,
            message: *const u8,
            message_size: usize,
            out: *mut u8,
            out_size: usize,
        ) -> u64;
        pub fn rumbezalo_acknowledged(
            table: *mut u8,
            table_size: usize,
            message: *const u8,
            message_size: usize,
        ) -> u64;
        pub fn rumbezalo_pending(table: *const u8, table_size: usize) -> u64;
    }
}

// Each call below is sound for the same reason: the library reads and writes within the lengths
// that it is given, is done with the pointers when it returns, and has no other memory. A slice is
// valid for its length, and one that is lent by `&mut` overlaps no other.

/// Starts a table: that of a node, of N nodes.
pub fn start(table: &mut [u8], node: u64, n: u64) -> Answer {
    // SAFETY: the table is valid for its length, and lent to us alone.
    Answer::unpacked(unsafe { library::rumbezalo_start(table.as_mut_ptr(), table.len(), node, n) })
}

/// Creates a file or a directory. The value is its id.
pub fn create(
    table: &mut [u8],
    now: u64,
    directory: u64,
    kind: u64,
    name: &[u8],
    set: u64,
) -> Answer {
    // SAFETY: table and name are valid for their lengths; the table is lent to us alone.
    Answer::unpacked(unsafe {
        library::rumbezalo_create(
            table.as_mut_ptr(),
            table.len(),
            now,
            directory,
            kind,
            name.as_ptr(),
            name.len(),
            set,
        )
    })
}

/// Unlinks a file.
pub fn unlink(table: &mut [u8], now: u64, id: u64) -> Answer {
    // SAFETY: the table is valid for its length, and lent to us alone.
    Answer::unpacked(unsafe { library::rumbezalo_unlink(table.as_mut_ptr(), table.len(), now, id) })
}

/// Moves a file into a directory, under a name.
pub fn rename(table: &mut [u8], now: u64, id: u64, directory: u64, name: &[u8]) -> Answer {
    // SAFETY: table and name are valid for their lengths; the table is lent to us alone.
    Answer::unpacked(unsafe {
        library::rumbezalo_rename(
            table.as_mut_ptr(),
            table.len(),
            now,
            id,
            directory,
            name.as_ptr(),
            name.len(),
        )
    })
}

/// Removes a directory.
pub fn remove(table: &mut [u8], now: u64, id: u64) -> Answer {
    // SAFETY: the table is valid for its length, and lent to us alone.
    Answer::unpacked(unsafe { library::rumbezalo_remove(table.as_mut_ptr(), table.len(), now, id) })
}

/// Has more nodes hold a file or directory.
pub fn spread(table: &mut [u8], id: u64, set: u64) -> Answer {
    // SAFETY: the table is valid for its length, and lent to us alone.
    Answer::unpacked(unsafe { library::rumbezalo_spread(table.as_mut_ptr(), table.len(), id, set) })
}

/// Writes the live entries of a directory, 32 bytes each. The value is how many.
pub fn list(table: &[u8], id: u64, out: &mut [u8]) -> Answer {
    // SAFETY: table and output are valid for their lengths; the output is lent to us alone.
    Answer::unpacked(unsafe {
        library::rumbezalo_list(table.as_ptr(), table.len(), id, out.as_mut_ptr(), out.len())
    })
}

/// Writes the push of a file or directory to a node. The value is its length.
pub fn push(table: &[u8], id: u64, node: u64, out: &mut [u8]) -> Answer {
    // SAFETY: table and output are valid for their lengths; the output is lent to us alone.
    Answer::unpacked(unsafe {
        library::rumbezalo_push(
            table.as_ptr(),
            table.len(),
            id,
            node,
            out.as_mut_ptr(),
            out.len(),
        )
    })
}

/// Receives a push and writes its acknowledgement. The value is 16.
pub fn receive(table: &mut [u8], now: u64, message: &[u8], out: &mut [u8]) -> Answer {
    // SAFETY: table, message and output are valid for their lengths; table and output are lent to
    // us alone.
    Answer::unpacked(unsafe {
        library::rumbezalo_receive(
            table.as_mut_ptr(),
            table.len(),
            now,
            message.as_ptr(),
            message.len(),
            out.as_mut_ptr(),
            out.len(),
        )
    })
}

/// Receives an acknowledgement.
pub fn acknowledged(table: &mut [u8], message: &[u8]) -> Answer {
    // SAFETY: table and message are valid for their lengths; the table is lent to us alone.
    Answer::unpacked(unsafe {
        library::rumbezalo_acknowledged(
            table.as_mut_ptr(),
            table.len(),
            message.as_ptr(),
            message.len(),
        )
    })
}

/// Counts the pushes that are due.
pub fn pending(table: &[u8]) -> Answer {
    // SAFETY: the table is valid for its length.
    Answer::unpacked(unsafe { library::rumbezalo_pending(table.as_ptr(), table.len()) })
}
