//! The nearest name to one that is misspelt.

/// What to say of a name that is not listed: the nearest one that is, or all of them.
pub fn unknown(what: &str, name: &str, names: &[&str]) -> String {
    match suggestion(name, names) {
        none if none.is_empty() => {
            format!("unknown {what} `{name}`: there are {}", names.join(", "))
        }
        near => format!("unknown {what} `{name}`{near}"),
    }
}

/// What to add to a message about a name that is not listed: the nearest one that is, if any is
/// near.
pub fn suggestion(name: &str, names: &[&str]) -> String {
    nearest(name, names).map(|near| format!("; do you mean `{near}`?")).unwrap_or_default()
}

/// The first of the names that are nearest to a misspelt one, capitals aside. None if all are
/// farther off than a slip or two of the hand: one letter in two, two in five, three in eight.
fn nearest<'a>(name: &str, names: &[&'a str]) -> Option<&'a str> {
    let letters = |name: &str| name.to_lowercase().chars().collect::<Vec<char>>();
    let wanted = letters(name);
    let measured = names.iter().map(|listed| {
        let found = letters(listed);
        (distance(&wanted, &found), wanted.len().max(found.len()), *listed)
    });
    let near = measured.filter(|(distance, longer, _)| 3 * distance <= longer + 1);
    near.min_by_key(|(distance, ..)| *distance).map(|(.., listed)| listed)
}

/// How many letters must be put in, taken out, replaced, or exchanged with their neighbour, to
/// make one word of the other.
fn distance(left: &[char], right: &[char]) -> usize {
    let mut rows: Vec<Vec<usize>> = vec![(0..=right.len()).collect()];
    while rows.len() <= left.len() {
        rows.push(next_row(&rows, left, right));
    }
    rows[left.len()][right.len()]
}

/// The distances of the left word's next beginning from each beginning of the right word, given
/// those of its shorter beginnings.
fn next_row(rows: &[Vec<usize>], left: &[char], right: &[char]) -> Vec<usize> {
    let at = rows.len();
    let mut row = vec![at];
    for column in 1..=right.len() {
        let differ = (left[at - 1] != right[column - 1]) as usize;
        let changed = rows[at - 1][column - 1] + differ;
        let longer = rows[at - 1][column].min(row[column - 1]) + 1;
        let exchanged = at > 1
            && column > 1
            && left[at - 1] == right[column - 2]
            && left[at - 2] == right[column - 1];
        let swapped = if exchanged { rows[at - 2][column - 2] + 1 } else { usize::MAX };
        row.push(changed.min(longer).min(swapped));
    }
    row
}

#[cfg(test)]
mod tests {
    use super::*;

    #[test]
    fn slips_of_the_hand() {
        let names = ["mov", "sel", "and", "while", "endif", "break"];
        for (name, near) in [
            ("movv", Some("mov")),
            ("mv", Some("mov")),
            ("mvo", Some("mov")),
            ("MOV", Some("mov")),
            ("whlie", Some("while")),
            ("wile", Some("while")),
            ("brk", Some("break")),
            ("send", None),
            ("", None),
        ] {
            assert_eq!(nearest(name, &names), near, "{name}");
        }
        assert_eq!(nearest("f", &["ud", "d", "uw", "w"]), None);
    }

    #[test]
    fn distances() {
        let of = |left: &str, right: &str| {
            let letters = |word: &str| word.chars().collect::<Vec<char>>();
            distance(&letters(left), &letters(right))
        };
        for (left, right, letters) in
            [("", "abc", 3), ("kitten", "sitting", 3), ("ab", "ba", 1), ("abcd", "acbd", 1)]
        {
            assert_eq!((of(left, right), of(right, left)), (letters, letters), "{left} {right}");
        }
    }
}
