//! Rows of the programs that replay recorded answers: words of 16 hexadecimal digits. Every NaN is 7ff8000000000000.

pub fn bits(x: f64) -> u64 {
    if x.is_nan() { 0x7ff8_0000_0000_0000 } else { x.to_bits() }
}

/// The words of a list that has room for n, zero past it.
pub fn doubles(list: &[f64], n: usize) -> Vec<u64> {
    numbers(&list.iter().map(|x| bits(*x)).collect::<Vec<_>>(), n)
}

pub fn numbers(list: &[u64], n: usize) -> Vec<u64> {
    assert!(list.len() <= n);
    let mut words = list.to_vec();
    words.resize(n, 0);
    words
}

/// Prints a row of n words.
pub fn print(words: &[u64], n: usize) {
    println!("{}", numbers(words, n).iter().map(|w| format!("{w:016x}")).collect::<Vec<_>>().join(" "));
}
