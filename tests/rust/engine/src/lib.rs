//! The reference behind the interface of `fantanolive.h`, as a shared library: an engine for `fantanolive agree`, and the one in
//! whose copies the faults of `agreement/faults` are planted.

macro_rules! calls {
    ($($name:ident($($argument:ident: $type:ty),* $(,)?) $body:block)*) => {
        $(
            /// # Safety
            /// What `fantanolive.h` asks of the pointers.
            #[export_name = concat!("fantanolive_", stringify!($name))]
            pub unsafe extern "C" fn $name($($argument: $type),*) -> u64 {
                // SAFETY: the caller's.
                unsafe { $body }
            }
        )*
    };
}

mod calls;
