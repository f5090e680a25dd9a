//! The exported hashing as it is, over the declaration of the crate (rust/): with its number and its out-parameters.

/// What `pinorange_hashes` answers, and what the two out-parameters hold after it when they held `old` before.
pub fn hashes(tabulation: &[u16], r: u32, station: u32, key: u32, old: [u32; 2]) -> (u32, [u32; 2]) {
    let [mut table0, mut table1] = old;
    // Safe: the slice is valid for its length, and the call is proved to read nothing else and to write only the two
    // numbers.
    let answer = unsafe {
        pinorange::raw::pinorange_hashes(
            tabulation.as_ptr(),
            tabulation.len(),
            r,
            station,
            key,
            &mut table0,
            &mut table1,
        )
    };
    (answer, [table0, table1])
}
