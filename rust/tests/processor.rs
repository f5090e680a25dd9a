//! The crate is refused where the library's calls would not be the compiler's: the compiler is told that it builds for
//! Windows, whose convention on x86-64 is another one. As it is, without that word, the same command builds it.

mod compiler;

use compiler::{folder, rustc, source};

/// What lib.rs says where there is no library.
const SAID: &str = "there is none for this processor or system";

#[test]
fn another_convention_is_refused() {
    // A word that the compiler gives by itself is denied as a flag unless that is allowed.
    let windows = ["-Aexplicit_builtin_cfgs_in_flags", "--cfg=windows"];
    let folder = folder("another_convention");
    for (flags, is_built) in [(&windows[..1], true), (&windows[..], false)] {
        let mut command = rustc(&folder, "pinorange", &source("src/lib.rs"));
        let output = command.arg("--emit=metadata").args(flags).output().expect("rustc runs");
        let text = String::from_utf8_lossy(&output.stderr);
        assert_eq!(output.status.success(), is_built, "{flags:?}: {text}");
        assert_eq!(text.contains(SAID), !is_built, "{flags:?}: {text}");
    }
}
