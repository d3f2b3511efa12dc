//! The reference's calls with the C interface, exported under no name: the library's are linked beside them.

macro_rules! calls {
    ($($name:ident($($argument:ident: $type:ty),* $(,)?) $body:block)*) => {
        $(
            #[allow(clippy::too_many_arguments)]
            unsafe extern "C" fn $name($($argument: $type),*) -> u64 {
                // SAFETY: the caller's.
                unsafe { $body }
            }
        )*

        /// The addresses of the calls by their names.
        pub fn addresses() -> Vec<(&'static str, *const ())> {
            vec![$((stringify!($name), $name as *const ())),*]
        }
    };
}

#[path = "../../engine/src/calls.rs"]
mod calls;

pub use calls::addresses;
