//! Evmole's files are as published: their SHA-256 sums are those of `SHA256SUMS`, which
//! `sha256sum -c` reads too.

use std::fs;
use std::path::{Path, PathBuf};

/// The sources that are not evmole's.
const OURS: [&str; 3] = ["src/bin/rows.rs", "src/evm/mod.rs", "src/lib.rs"];

fn here() -> PathBuf {
    PathBuf::from(env!("CARGO_MANIFEST_DIR"))
}

fn sources(folder: &Path, found: &mut Vec<String>) {
    for entry in fs::read_dir(folder).expect("the folder of the sources is readable") {
        let path = entry.expect("its entries are readable").path();
        if path.is_dir() {
            sources(&path, found);
        } else {
            let inside = path
                .strip_prefix(here())
                .expect("a source lies in this crate");
            found.push(inside.to_string_lossy().into_owned());
        }
    }
}

#[test]
fn every_copied_file_is_unchanged() {
    let list = fs::read_to_string(here().join("SHA256SUMS")).expect("SHA256SUMS is readable");
    for line in list.lines() {
        let (sum, file) = line
            .split_once("  ")
            .expect("a line is a sum, two blanks, a file");
        let bytes = fs::read(here().join(file)).expect("a listed file is readable");
        assert_eq!(sha256(&bytes), sum, "{file} is not as published");
    }
}

#[test]
fn every_source_is_listed_or_ours() {
    let list = fs::read_to_string(here().join("SHA256SUMS")).expect("SHA256SUMS is readable");
    let mut expected: Vec<String> = OURS.map(String::from).to_vec();
    expected.extend(
        list.lines()
            .filter_map(|line| line.split_once("  "))
            .map(|(_, f)| f.into()),
    );
    expected.sort();
    let mut found = Vec::new();
    sources(&here().join("src"), &mut found);
    found.sort();
    assert_eq!(found, expected);
}

/// The first 32 bits of a root's fraction: where FIPS 180-4 takes its constants from.
fn fraction(root: f64) -> u32 {
    (root.fract() * 4_294_967_296.0) as u32
}

fn primes(count: usize) -> Vec<f64> {
    let prime = |n: &u32| !(2..*n).any(|d| n.is_multiple_of(d));
    (2..).filter(prime).take(count).map(f64::from).collect()
}

/// FIPS 180-4, section 6.2.
fn sha256(bytes: &[u8]) -> String {
    let mut sum: Vec<u32> = primes(8).iter().map(|p| fraction(p.sqrt())).collect();
    let keys: Vec<u32> = primes(64).iter().map(|p| fraction(p.cbrt())).collect();
    let mut padded = bytes.to_vec();
    padded.push(0x80);
    padded.resize(padded.len().next_multiple_of(64), 0);
    if padded.len() < bytes.len() + 9 {
        padded.resize(padded.len() + 64, 0);
    }
    let end = padded.len() - 8;
    padded[end..].copy_from_slice(&(bytes.len() as u64 * 8).to_be_bytes());
    for chunk in padded.chunks_exact(64) {
        let mixed = rounds(&sum, &keys, &schedule(chunk));
        for (old, new) in sum.iter_mut().zip(mixed) {
            *old = old.wrapping_add(new);
        }
    }
    sum.iter().map(|word| format!("{word:08x}")).collect()
}

fn schedule(chunk: &[u8]) -> Vec<u32> {
    let mut w: Vec<u32> = chunk
        .chunks_exact(4)
        .map(|four| u32::from_be_bytes(four.try_into().expect("a word is four bytes")))
        .collect();
    for i in 16..64 {
        let s0 = w[i - 15].rotate_right(7) ^ w[i - 15].rotate_right(18) ^ (w[i - 15] >> 3);
        let s1 = w[i - 2].rotate_right(17) ^ w[i - 2].rotate_right(19) ^ (w[i - 2] >> 10);
        w.push(
            w[i - 16]
                .wrapping_add(s0)
                .wrapping_add(w[i - 7])
                .wrapping_add(s1),
        );
    }
    w
}

fn rounds(sum: &[u32], keys: &[u32], w: &[u32]) -> [u32; 8] {
    let mut v: [u32; 8] = sum.try_into().expect("a sum is eight words");
    for (key, word) in keys.iter().zip(w) {
        let [a, b, c, d, e, f, g, h] = v;
        let s1 = e.rotate_right(6) ^ e.rotate_right(11) ^ e.rotate_right(25);
        let choice = (e & f) ^ (!e & g);
        let t1 = h
            .wrapping_add(s1)
            .wrapping_add(choice)
            .wrapping_add(*key)
            .wrapping_add(*word);
        let s0 = a.rotate_right(2) ^ a.rotate_right(13) ^ a.rotate_right(22);
        let majority = (a & b) ^ (a & c) ^ (b & c);
        let t2 = s0.wrapping_add(majority);
        v = [t1.wrapping_add(t2), a, b, c, d.wrapping_add(t1), e, f, g];
    }
    v
}

#[test]
fn sha256_of_the_standards_example() {
    let sum = "ba7816bf8f01cfea414140de5dae2223b00361a396177a9cb410ff61f20015ad";
    assert_eq!(sha256(b"abc"), sum);
}
