//! Which column of a bad field is named: the first at which no acceptable
//! field begins with the characters up to there.

/// The column to name of a field that starts in column `first` and is bad as
/// it is held; `acceptable` judges columns of its width.
///
/// A beginning that can be completed at all can be completed with one
/// character, repeated up to the field's last column, or up to a one there.
/// What is blank goes on with blanks; a number, a signed one or an angle with
/// zeros, the least that begins so, and with a one behind them where it would
/// be 0 and may not be; a month and a media identifier with ones, since year
/// 0001 is good, months 01 and 11, and a 1 as the last digit of a day; a text
/// or code with letters or digits. So each character is tried, and no kind of
/// field has to be known here.
///
/// Few fields are bad: the search is kept away from the good ones.
#[cold]
pub(super) fn column(
    first: usize,
    held: &[u8],
    mut acceptable: impl FnMut(&[u8]) -> bool,
) -> usize {
    let mut tried = held.to_vec();
    let mut can_be_completed = |length: usize| {
        tried[..length].copy_from_slice(&held[..length]);
        (b' '..=b'~').any(|character| {
            tried[length..].fill(character);
            acceptable(&tried) || {
                tried[held.len() - 1] = b'1';
                acceptable(&tried)
            }
        })
    };
    let good = (1..held.len()).take_while(|&length| can_be_completed(length));
    // Where every shorter beginning is good, the last column is named: the
    // whole field is bad.
    first + good.count()
}
