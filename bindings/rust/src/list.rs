//! One operation at every place of a list.

use crate::raw;
use crate::Refusal;

/// The most places of a list.
pub const LIST_LIMIT: usize = 8192;

/// The operations of the list call.
#[derive(Clone, Copy, Debug, PartialEq, Eq, Hash)]
pub enum ListOperation {
    /// Number 1: [`sqrt64`](crate::sqrt64).
    Sqrt = 1,
    /// Number 2: [`floor64`](crate::floor64).
    Floor = 2,
    /// Number 3: [`trunc64`](crate::trunc64).
    Trunc = 3,
}

impl ListOperation {
    /// The operation's number.
    pub const fn number(self) -> u32 {
        self as u32
    }
}

/// Does an operation at every place: each place of `ys` becomes the operation of the same place of
/// `xs`. Two empty lists are done.
///
/// # Errors
///
/// [`Refusal::ListTooLong`] where either list is longer than [`LIST_LIMIT`] places, else
/// [`Refusal::LengthsDiffer`] where they have not the same length. `ys` is then as it was.
///
/// ```
/// use paskerotim::{list64, ListOperation, Refusal};
///
/// let xs = [0x3fe0000000000000, 0xc004000000000000];
/// let mut ys = [0; 2];
/// assert_eq!(list64(ListOperation::Floor, &xs, &mut ys), Ok(()));
/// assert_eq!(ys, [0x0000000000000000, 0xc008000000000000]);
/// assert_eq!(list64(ListOperation::Floor, &xs, &mut ys[1..]), Err(Refusal::LengthsDiffer));
/// ```
///
/// The lists are two: one that is both read and written does not compile.
///
/// ```compile_fail,E0502
/// let mut xs = [0x3fe0000000000000];
/// paskerotim::list64(paskerotim::ListOperation::Floor, &xs, &mut xs);
/// ```
pub fn list64(op: ListOperation, xs: &[u64], ys: &mut [u64]) -> Result<(), Refusal> {
    list64_by_number(op.number(), xs, ys)
}

/// [`list64`] by the number of the operation.
///
/// # Errors
///
/// [`Refusal::UnknownOperation`] where `op` is the number of no [`ListOperation`], else those of
/// [`list64`]. `ys` is then as it was.
pub fn list64_by_number(op: u32, xs: &[u64], ys: &mut [u64]) -> Result<(), Refusal> {
    Refusal::given(raw::list64(op, xs, ys))
}
