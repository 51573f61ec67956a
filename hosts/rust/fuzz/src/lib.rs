//! Harnesses for a coverage-guided fuzzer. Each takes the fuzzer's bytes, makes a
//! state and a block, row, file, wish, list, order, plan or index of them, gives both to the
//! static library and to the plain implementation, and ends the program if an answer
//! or a byte differs.

mod act;
mod compare;
mod fold;
mod index;
mod input;
mod life;
mod merge;
mod order;
mod plan;
mod read_file;
mod row;
mod sab2;
mod take;

pub use act::act;
pub use fold::fold;
pub use index::index;
pub use merge::merge;
pub use order::order;
pub use plan::plan;
pub use read_file::read_file;
pub use row::row_calls;
pub use sab2::sab2;
pub use take::take;

/// The fuzzer's bytes.
///
/// # Safety
/// `data` points to `size` bytes.
unsafe fn bytes<'a>(data: *const u8, size: usize) -> &'a [u8] {
    if size == 0 {
        return &[];
    }
    unsafe { std::slice::from_raw_parts(data, size) }
}

macro_rules! harness {
    ($name:ident, $run:path) => {
        /// # Safety
        /// `data` points to `size` bytes.
        #[unsafe(no_mangle)]
        pub unsafe extern "C" fn $name(data: *const u8, size: usize) {
            $run(unsafe { bytes(data, size) });
        }
    };
}

harness!(fuzz_take, take::take);
harness!(fuzz_read_file, read_file::read_file);
harness!(fuzz_act, act::act);
harness!(fuzz_merge, merge::merge);
harness!(fuzz_row, row::row_calls);
harness!(fuzz_index, index::index);
harness!(fuzz_fold, fold::fold);
harness!(fuzz_sab2, sab2::sab2);
harness!(fuzz_order, order::order);
harness!(fuzz_plan, plan::plan);
