//! The exports of the proved code, by their names.

macro_rules! exports {
    ($($name:ident)*) => {
        unsafe extern "C" {
            $(fn $name(data: *const u8, count: usize, reps: u32) -> usize;)*
        }

        fn calls() -> Vec<(&'static str, loads::OfBytes)> {
            // SAFETY: each export reads a slice, which it is given as a pointer and a length, and keeps nothing of it.
            vec![$((stringify!($name), |d, reps| unsafe { $name(d.as_ptr(), d.len(), reps) })),*]
        }
    };
}
