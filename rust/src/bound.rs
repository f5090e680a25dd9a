//! What keeps the crate from being linked with a library of another first number: the symbol that such a library does
//! not have.

extern "C" {
    /// A function that answers 4. It is there for its name.
    fn pinorange_version_4() -> u32;
}

/// The reference. Nobody calls it.
#[used]
static BOUND: unsafe extern "C" fn() -> u32 = pinorange_version_4;
