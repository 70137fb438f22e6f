//! The functions of `include/cedunmi.h`: the one place that declares them for Rust, and the one
//! place that calls them. `tests/header.rs` holds the declarations to the header.
//!
//! Each line of `declare!` has a function's arguments in the header's order, a buffer without its
//! length. Made of it are the function as C has it, in `c`; the function over slices, which is safe:
//! a slice has a pointer that is not null, with its own length, and a `&mut` overlaps no other slice;
//! and a line of `FUNCTIONS`, over any pointers, for tests.

/// A buffer by its pointer and its length.
#[derive(Clone, Copy, Debug)]
pub struct Lent<P> {
    pub pointer: P,
    pub len: usize,
}

impl Lent<*const u8> {
    fn as_ptr(self) -> *const u8 {
        self.pointer
    }
}

impl Lent<*mut u8> {
    fn as_mut_ptr(self) -> *mut u8 {
        self.pointer
    }
}

impl<P> Lent<P> {
    fn len(&self) -> usize {
        self.len
    }
}

/// An argument of a function of the header.
#[derive(Clone, Copy, Debug)]
pub enum Word {
    Number(u64),
    Read(Lent<*const u8>),
    Written(Lent<*mut u8>),
}

/// A function of the header, over all its arguments. The pointers must be as
/// the header says.
pub type Function = unsafe fn(&[Word]) -> u64;

/// A name in the header, the kinds of its arguments with their names, and the function.
pub type Declared = (&'static str, &'static [(&'static str, &'static str)], Function);

/// The word of this kind that an argument must be.
macro_rules! word {
    ($word:expr, number) => {
        word!(@ $word, Number)
    };
    ($word:expr, read) => {
        word!(@ $word, Read)
    };
    ($word:expr, written) => {
        word!(@ $word, Written)
    };
    (@ $word:expr, $kind:ident) => {
        match $word {
            Word::$kind(value) => value,
            other => panic!("{other:?} where the header has another kind"),
        }
    };
}

/// The type of an argument of this kind.
macro_rules! slice {
    (number) => {
        u64
    };
    (read) => {
        &[u8]
    };
    (written) => {
        &mut [u8]
    };
}

/// The declaration for C: a buffer is a pointer and a length.
macro_rules! extern_c {
    ($name:ident($($done:tt)*)) => {
        extern "C" {
            pub fn $name($($done)*) -> u64;
        }
    };
    ($name:ident($($done:tt)*) $argument:ident: number, $($rest:tt)*) => {
        extern_c! { $name($($done)* $argument: u64,) $($rest)* }
    };
    ($name:ident($($done:tt)*) $argument:ident: read, $($rest:tt)*) => {
        extern_c! { $name($($done)* $argument: *const u8, _: usize,) $($rest)* }
    };
    ($name:ident($($done:tt)*) $argument:ident: written, $($rest:tt)*) => {
        extern_c! { $name($($done)* $argument: *mut u8, _: usize,) $($rest)* }
    };
}

/// The call, of arguments that are named as they are declared.
macro_rules! call_c {
    ($name:ident($($done:tt)*)) => {
        c::$name($($done)*)
    };
    ($name:ident($($done:tt)*) $argument:ident: number, $($rest:tt)*) => {
        call_c!($name($($done)* $argument,) $($rest)*)
    };
    ($name:ident($($done:tt)*) $argument:ident: read, $($rest:tt)*) => {
        call_c!($name($($done)* $argument.as_ptr(), $argument.len(),) $($rest)*)
    };
    ($name:ident($($done:tt)*) $argument:ident: written, $($rest:tt)*) => {
        call_c!($name($($done)* $argument.as_mut_ptr(), $argument.len(),) $($rest)*)
    };
}

macro_rules! declare {
    ($($name:ident($($argument:ident: $kind:ident),*);)*) => {
        /// The functions as C has them.
        pub mod c {
            $(extern_c! { $name() $($argument: $kind,)* })*
        }

        $(pub fn $name($($argument: slice!($kind)),*) -> u64 {
            // SAFETY: the buffers are slices.
            unsafe { call_c!($name() $($argument: $kind,)*) }
        })*

        pub const FUNCTIONS: &[Declared] = &[$({
            unsafe fn call(words: &[Word]) -> u64 {
                let [$($argument),*] = <[Word; [$(stringify!($argument)),*].len()]>::try_from(words)
                    .expect("as many arguments as the header has");
                $(let $argument = word!($argument, $kind);)*
                call_c!($name() $($argument: $kind,)*)
            }
            (stringify!($name), &[$((stringify!($kind), stringify!($argument))),*], call)
        }),*];
    };
}

declare! {
    cmt_sha256(message: read, digest: written);
    cmt_table_check(depth: number, table: read);
    cmt_house_table(depth: number, table: written);
    cmt_tree_write(depth: number, kind: number, table: read, block: read, tree: written, marks: written, record: written);
    cmt_block_read(depth: number, record: read, tree: read, marks: read, block: written);
    cmt_sample_take(depth: number, number: number, tree: read, marks: read, sample: written);
    cmt_sample_check(depth: number, number: number, record: read, sample: read);
    cmt_proof_check(depth: number, record: read, table: read, proof: read);
    cmt_repair(depth: number, record: read, table: read, tree: written, marks: written, output: written);
    cmt_recode(depth: number, record: read, table: read, tree: read, marks: read, new_tree: written, new_marks: written, new_record: written);
}
