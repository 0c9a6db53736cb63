
/// Added for the benchmark after the original's own text: the part of `trim_clipped_modifications_raw` that works on sequences in read
/// orientation, for one tag and without a record. Its lines are those of that function.
pub fn trim_clipped_modifications(
    mm: &str,
    ml: Option<&[u8]>,
    before: &[u8],
    after: &[u8],
    removed_start: Option<usize>,
) -> Option<(String, Vec<u8>)> {
    let lo = if after.len() == before.len() { Some(0) } else { removed_start };
    let window = lo.and_then(|lo| Some(lo..lo.checked_add(after.len())?));
    let fits = window.as_ref().and_then(|w| before.get(w.clone())).is_some_and(|kept| {
        kept.iter().zip(after).all(|(&b, &a)| a == b || a.eq_ignore_ascii_case(&b'N'))
    });
    let Some(window) = window.filter(|_| fits) else {
        return None;
    };
    if after == before {
        return None;
    }
    rewrite_modifications(
        mm,
        ml,
        before,
        |base, pos| window.contains(&pos) && (base == b'N' || after[pos - window.start] == base),
        |_| true,
    )
}
