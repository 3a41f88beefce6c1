//! Where things lie in the lent store.

use crate::kernel::{ObjectSlot, Queue, TaskSlot};
use std::ops::Range;

/// "The lent store is 9,216 bytes."
pub const STORE_BYTES: usize = 9_216;

/// "Task t has a slip of 64 bytes from 8,192 + 64t." The first `size` bytes of it.
pub fn slip(task: TaskSlot, size: usize) -> Range<usize> {
    let from = 8_192 + 64 * task.index();
    from..from + size
}

/// "Object k has the 512 bytes from 512k." "Item i from the oldest lies in place
/// (first + i) mod capacity of the object's part; place p begins p times the item
/// size into it."
pub fn item(object: ObjectSlot, queue: &Queue, i: usize) -> Range<usize> {
    let size = queue.size as usize;
    let place = (queue.first as usize + i) % queue.capacity as usize;
    let from = 512 * object.index() + place * size;
    from..from + size
}
