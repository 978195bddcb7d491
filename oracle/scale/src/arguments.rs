//! The arguments of a program: names, each followed by a number.

/// The numbers given for these names, in their order, or what stands with the name where none is given. Nothing where an argument is
/// another one or its number can't be read.
pub fn numbers<const N: usize>(named: [(&str, u64); N]) -> Option<[u64; N]> {
    let words: Vec<String> = std::env::args().skip(1).collect();
    let (pairs, []) = words.as_chunks::<2>() else {
        return None;
    };

    let mut numbers = named.map(|(_, number)| number);

    for [name, number] in pairs {
        let place = named.iter().position(|(known, _)| known == name)?;
        numbers[place] = number.parse().ok()?;
    }

    Some(numbers)
}
