//! Numbers in sentences. A count, a size or an offset has a comma before every three digits; the number of a record, a coordinate and a
//! line stand as an editor shows them.

/// `1 byte`, `2,000 bytes`.
pub fn counted(count: usize, thing: &str) -> String {
    format!("{} {thing}{}", grouped(count as i128), if count == 1 { "" } else { "s" })
}

/// `1 entry`, `4,096 entries`.
pub fn entries(count: usize) -> String {
    match count {
        1 => "1 entry".to_string(),
        _ => format!("{} entries", grouped(count as i128)),
    }
}

/// A number with a comma before every three digits.
pub fn grouped(number: i128) -> String {
    let digits = number.unsigned_abs().to_string();
    let mut text = String::from(if number < 0 { "-" } else { "" });
    for (at, digit) in digits.char_indices() {
        if at > 0 && (digits.len() - at).is_multiple_of(3) {
            text.push(',');
        }
        text.push(digit);
    }
    text
}

/// `MAP01`, `MAP01 and MAP02`, `MAP01, MAP02 and 3 more`: at most `most` of them are named.
pub fn listed(names: &[String], most: usize) -> String {
    let more = names.len().saturating_sub(most);
    let mut said: Vec<String> = names.iter().take(most).cloned().collect();
    if more > 0 {
        said.push(format!("{} more", grouped(more as i128)));
    }
    match said.split_last() {
        Some((last, rest)) if !rest.is_empty() => format!("{} and {last}", rest.join(", ")),
        _ => said.concat(),
    }
}

#[cfg(test)]
mod tests {
    use super::*;

    #[test]
    fn numbers_are_grouped_by_threes() {
        let said = [0, 7, 999, 1_000, 65_536, 16_777_217, -1, -999, -1_000, i128::from(i32::MIN)].map(grouped);
        assert_eq!(said, ["0", "7", "999", "1,000", "65,536", "16,777,217", "-1", "-999", "-1,000", "-2,147,483,648"]);
    }

    #[test]
    fn things_are_counted() {
        let said = [0, 1, 2, 1_000].map(|count| counted(count, "byte"));
        assert_eq!(said, ["0 bytes", "1 byte", "2 bytes", "1,000 bytes"]);
    }

    #[test]
    fn a_long_list_is_cut_short() {
        let names: Vec<String> = ["A", "B", "C", "D"].map(String::from).to_vec();
        let said = [1, 2, 3, 4].map(|count| listed(&names[..count], 2));
        assert_eq!(said, ["A", "A and B", "A, B and 1 more", "A, B and 2 more"]);
        assert_eq!(listed(&[], 2), "");
    }
}
