//! The test vectors that `make lib` leaves for a till maker, made anew by scripts/vectors: each as the program by
//! another hand has it, and all edges among them that docs/TILL.md names.

use std::collections::BTreeSet;
use std::process::Command;

use reference::hash::{hashes, MAX_R, MAX_STATION};
use reference::house::HOUSE;
use reference::key::first_part;

/// A line: r, station, key and the two slots.
type Vector = [u32; 5];

fn numbers(line: &str) -> Vector {
    let parsed: Vec<u32> = line.split(',').map(|field| field.parse().expect("a number")).collect();
    parsed.try_into().expect("five numbers")
}

/// What scripts/vectors prints.
fn printed() -> String {
    let script = concat!(env!("CARGO_MANIFEST_DIR"), "/../../scripts/vectors");
    let output = Command::new(script).output().expect("scripts/vectors runs");
    assert!(output.status.success(), "{}", String::from_utf8_lossy(&output.stderr));
    String::from_utf8(output.stdout).expect("text")
}

fn vectors() -> Vec<Vector> {
    let text = printed();
    let mut lines = text.lines();
    assert_eq!(lines.next(), Some("r,station,key,first,second"));
    lines.map(numbers).collect()
}

#[test]
fn the_vectors_of_the_library() {
    let vectors = vectors();
    assert_eq!(vectors.iter().collect::<BTreeSet<_>>().len(), 1_000);
    assert_eq!(vectors.len(), 1_000);
    for [r, station, key, first, second] in vectors {
        let told = hashes(&HOUSE, r, station, key).map_err(|refusal| refusal.number());
        assert_eq!(told, Ok([first, second]), "r {r}, station {station}, key {key}");
    }
}

#[test]
fn edges_among_the_vectors() {
    let vectors = vectors();
    let some = |holds: &dyn Fn(&Vector) -> bool| vectors.iter().any(holds);
    assert!(some(&|v| v[0] == 1) && some(&|v| v[0] == MAX_R));
    assert!(some(&|v| v[1] == 0) && some(&|v| v[1] == MAX_STATION));
    assert!(some(&|v| v[2] == 10) && some(&|v| v[2] == u32::MAX));
    for power in [1 << 8, 1 << 16, 1 << 24] {
        assert!([power - 1, power].iter().all(|part| some(&|v| first_part(v[2]) == *part)), "{power}");
    }
    assert!(some(&|v| first_part(v[2]) % 256 + v[1] > 255));
    for key in [410_017, 999_001, u32::MAX] {
        assert!(some(&|v| v[..3] == [MAX_R, 17, key]), "{key}");
    }
}
