//! The page of a roll, read back by its fields (docs/CARD.md, "The roll"), apart from the model.

/// The number of a field: spaces, then a sign or none, then digits with no zero in front.
pub fn number_in(field: &[u8]) -> Option<i64> {
    let mut rest = field;
    while let [b' ', behind @ ..] = rest {
        rest = behind;
    }
    let (sign, digits) = match rest {
        [b'-', digits @ ..] => (-1, digits),
        digits => (1, digits),
    };
    let well_put = match digits {
        [] => false,
        [b'0'] => sign == 1,
        [first, ..] => *first != b'0',
    };
    if !well_put {
        return None;
    }
    let mut number: i64 = 0;
    for &digit in digits {
        let digit = i64::from(digit.checked_sub(b'0').filter(|digit| *digit < 10)?);
        number = number.checked_mul(10)?.checked_add(sign * digit)?;
    }
    Some(number)
}

/// A line of a value: row, column and value.
pub type ValueLine = (i64, i64, i64);

/// The figure and the lines of the values. Each line has to be 24 characters and byte 10.
pub fn read_page(page: &[u8]) -> (i64, Vec<ValueLine>) {
    let number = |field| number_in(field).unwrap_or_else(|| panic!("{}", field.escape_ascii()));
    let mut lines = Vec::new();
    for line in page.chunks(25) {
        assert_eq!((line.len(), line[24]), (25, 10));
        assert!(!line[..24].contains(&10));
        lines.push(&line[..24]);
    }
    let values = lines[1..]
        .iter()
        .map(|line| (number(&line[..4]), number(&line[4..8]), number(&line[8..])));
    (number(lines[0]), values.collect())
}

/// The lines of all values, as they should be read back.
pub fn lines_of(cols: u64, values: &[i64]) -> Vec<ValueLine> {
    let place = |at: usize| (at as i64 / cols as i64, at as i64 % cols as i64);
    let line = |(at, &value)| (place(at).0, place(at).1, value);
    values.iter().enumerate().map(line).collect()
}
