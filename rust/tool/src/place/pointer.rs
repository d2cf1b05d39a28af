//! The bytes around a place, with a mark below the ones that are meant.

/// So many bytes are shown before the place, and behind what stands there.
const BEFORE: usize = 8;
const BEHIND: usize = 6;
/// Stands for bytes that are not shown.
const MORE: &str = "..";

/// Two lines about so many bytes at a place, with what stands in front of it and from it on; none
/// about a file without bytes.
pub fn pointer(front: &[u8], behind: &[u8], length: usize) -> String {
    if front.is_empty() && behind.is_empty() {
        return String::new();
    }
    let cut = front.len().saturating_sub(BEFORE);
    let kept = behind.len().min(length + BEHIND);
    let more = |is_cut: bool| is_cut.then(|| MORE.to_string()).into_iter();
    let left: Vec<String> = more(cut > 0).chain(cells(&front[cut..])).collect();
    let right: Vec<String> = cells(&behind[..kept])
        .chain(more(kept < behind.len()))
        .collect();
    let blanks = "   ".repeat(left.len());
    let marks = vec!["^^"; length.max(1)].join(" ");
    let line = [left, right].concat().join(" ");
    format!("\n    {line}\n    {blanks}{marks}")
}

fn cells(bytes: &[u8]) -> impl Iterator<Item = String> + '_ {
    bytes.iter().map(|byte| format!("{byte:02x}"))
}

#[cfg(test)]
mod tests {
    use super::*;

    fn lines(front: &[u8], behind: &[u8], length: usize) -> Vec<String> {
        let pointer = pointer(front, behind, length);
        pointer.lines().skip(1).map(str::to_string).collect()
    }

    #[test]
    fn the_mark_stands_below_the_bytes() {
        assert_eq!(lines(&[], &[0x41, 0], 1), ["    41 00", "    ^^"]);
        assert_eq!(
            lines(&[2, 2], &[0xc1, 1, 7], 2),
            ["    02 02 c1 01 07", "          ^^ ^^"]
        );
    }

    #[test]
    fn an_end_is_marked_behind_the_last_byte() {
        assert_eq!(lines(&[2, 2], &[], 0), ["    02 02", "          ^^"]);
        assert_eq!(pointer(&[], &[], 0), "");
    }

    #[test]
    fn of_a_long_file_only_a_part_is_shown() {
        let front: Vec<u8> = (0..9).collect();
        assert_eq!(
            lines(&front, &[0xaa, 0xab, 0, 1, 2, 3, 4, 5, 6], 2),
            [
                "    .. 01 02 03 04 05 06 07 08 aa ab 00 01 02 03 04 05 ..",
                "                               ^^ ^^"
            ]
        );
        assert_eq!(
            lines(&front[..8], &[9, 0, 1, 2, 3, 4, 5], 1),
            [
                "    00 01 02 03 04 05 06 07 09 00 01 02 03 04 05",
                "                            ^^"
            ]
        );
    }
}
