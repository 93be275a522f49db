//! A call as the second program has it as data (`asked::Call`), made by the library. The benchmark
//! uses this file too.

use rumbezalo::calls::{self, Answer};
use rumbezalo_model::asked::Call;

/// Makes the call; `out` has the length that `room` says.
pub fn by_library(call: &Call, table: &mut [u8], out: &mut [u8]) -> Answer {
    match call {
        Call::Start { node, n } => calls::start(table, *node, *n),
        Call::Create {
            now,
            directory,
            kind,
            name,
            set,
        } => calls::create(table, *now, *directory, *kind, name, *set),
        Call::Unlink { now, id } => calls::unlink(table, *now, *id),
        Call::Rename {
            now,
            id,
            directory,
            name,
        } => calls::rename(table, *now, *id, *directory, name),
        Call::Remove { now, id } => calls::remove(table, *now, *id),
        Call::Spread { id, set } => calls::spread(table, *id, *set),
        Call::List { id, .. } => calls::list(table, *id, out),
        Call::Push { id, node, .. } => calls::push(table, *id, *node, out),
        Call::Receive { now, message, .. } => calls::receive(table, *now, message, out),
        Call::Acknowledged { message } => calls::acknowledged(table, message),
        Call::Pending => calls::pending(table),
    }
}
