//! Cuts a list that shows a difference down to one from which no line can be taken away.
//! Large chunks are tried first, then smaller ones, and single lines until none of them can go.

pub fn shrink<T: Clone>(lines: &[T], mut still_differs: impl FnMut(&[T]) -> bool) -> Vec<T> {
    let mut kept = lines.to_vec();
    let mut chunk = kept.len().max(1);
    loop {
        let before = kept.len();
        let mut at = 0;
        while at < kept.len() {
            let end = (at + chunk).min(kept.len());
            let fewer = [&kept[..at], &kept[end..]].concat();
            if still_differs(&fewer) {
                kept = fewer;
            } else {
                at = end;
            }
        }
        if chunk > 1 {
            chunk = chunk.div_ceil(2);
        } else if kept.len() == before {
            return kept;
        }
    }
}

#[cfg(test)]
mod tests {
    use super::shrink;

    #[test]
    fn keeps_only_what_the_difference_needs() {
        let lines: Vec<u32> = (0..500).collect();
        let kept = shrink(&lines, |l| l.contains(&3) && l.contains(&77) && l.contains(&499));
        assert_eq!(kept, [3, 77, 499]);
    }

    #[test]
    fn repeats_single_lines_until_none_can_go() {
        // 1 can only go after 2, and 2 after 3.
        let needs =
            |l: &[u32]| l.contains(&0) && (l.contains(&1) || !l.contains(&2)) && (l.contains(&2) || !l.contains(&3));
        assert_eq!(shrink(&[0, 1, 2, 3], needs), [0]);
    }

    #[test]
    fn may_leave_nothing() {
        assert!(shrink(&[1, 2, 3], |_| true).is_empty());
        assert!(shrink(&[] as &[u32], |_| true).is_empty());
    }
}
