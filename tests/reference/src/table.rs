//! The hard table: its file, its checks, its response bounds, its writer.

/// Most rows a table can have.
pub const MOST_ROWS: usize = 16;

/// Bytes of a field's header: the tag and the two-byte length.
pub const HEADER: usize = 3;

/// Bytes of the longest table: each row with a margin, and the end field.
pub const LONGEST_TABLE: usize = MOST_ROWS * (HEADER + MARGIN_ROW_LENGTH) + HEADER + END_LENGTH;

const ROW_TAG: u8 = 0x01;
const ROW_LENGTH: usize = 7;
const MARGIN_ROW_TAG: u8 = 0x02;
const MARGIN_ROW_LENGTH: usize = 9;
const END_TAG: u8 = 0x0f;
const END_LENGTH: usize = 0;

/// One row: C, D, T, the lower rank and the margin M.
#[derive(Clone, Copy, Debug, PartialEq, Eq)]
pub struct Row {
    pub c: u16,
    pub d: u16,
    pub t: u16,
    pub rank: u8,
    pub m: u16,
}

/// A row where it stands in a file: its whole field has `size` bytes, starting
/// at `from`.
#[derive(Clone, Copy, Debug, PartialEq, Eq)]
pub struct RowField {
    pub row: Row,
    pub from: usize,
    pub size: usize,
    tag: u8,
}

/// What planning finds for a row: R, U and the rounds.
#[derive(Clone, Copy, Debug, PartialEq, Eq)]
pub struct Bound {
    pub response: u128,
    pub promotion: u128,
    pub rounds: u128,
}

/// A table that passed every check, with the bound of each row.
#[derive(Clone, Debug, PartialEq, Eq)]
pub struct Table {
    pub rows: Vec<Row>,
    pub bounds: Vec<Bound>,
}

/// A refusal of a lent file: the number, the part of the file it shows (`size`
/// bytes, starting at `from`), and, where it is about a row of a table, that
/// row, counted from 1.
#[derive(Clone, Copy, Debug, PartialEq, Eq)]
pub struct FileRefusal {
    pub number: u8,
    pub from: usize,
    pub size: usize,
    pub row: Option<usize>,
}

/// A fault of a row: the number (6 to 10, 21, 22) and the row's index, counted
/// from 0.
#[derive(Clone, Copy, Debug, PartialEq, Eq)]
pub struct RowFault {
    pub number: u8,
    pub index: usize,
}

/// A big-endian 16-bit number.
pub fn big_endian(high: u8, low: u8) -> u16 {
    u16::from(high) * 256 + u16::from(low)
}

/// Reads a table file: the scan (1 to 5), then the rows (6 to 9 and 21), then
/// 10 and 22.
pub fn read_table(file: &[u8]) -> Result<Table, FileRefusal> {
    let fields = scan(file)?;
    let rows = rows_of(&fields);
    let show_row = |fault: RowFault| FileRefusal {
        number: fault.number,
        from: fields[fault.index].from,
        size: fields[fault.index].size,
        row: Some(fault.index + 1),
    };
    check_fields(&fields).map_err(show_row)?;
    let bounds = all_bounds(&rows).map_err(show_row)?;
    Ok(Table { rows, bounds })
}

/// The rows in these fields.
pub fn rows_of(fields: &[RowField]) -> Vec<Row> {
    fields.iter().map(|field| field.row).collect()
}

/// Scans the whole file, field by field: refusals 1, 2, 3, 5 and then 4.
pub fn scan(file: &[u8]) -> Result<Vec<RowField>, FileRefusal> {
    let mut fields: Vec<RowField> = Vec::new();
    let mut place = 0;
    loop {
        let from = place;
        let left = &file[from..];
        let refuse = |number: u8, size: usize| FileRefusal { number, from, size, row: None };

        if left.len() < HEADER {
            return Err(refuse(1, left.len()));
        }
        let tag = left[0];
        let right_length = match tag {
            ROW_TAG => ROW_LENGTH,
            MARGIN_ROW_TAG => MARGIN_ROW_LENGTH,
            END_TAG => END_LENGTH,
            _ => return Err(refuse(2, HEADER)),
        };
        let length = usize::from(big_endian(left[1], left[2]));
        if length != right_length {
            return Err(refuse(3, HEADER));
        }
        if tag != END_TAG && fields.len() == MOST_ROWS {
            return Err(refuse(5, HEADER));
        }
        let size = HEADER + length;
        if left.len() < size {
            return Err(refuse(1, left.len()));
        }

        place += size;
        if tag == END_TAG {
            break;
        }
        let row = row_of_value(tag, &left[HEADER..size]);
        fields.push(RowField { row, from, size, tag });
    }
    if place < file.len() {
        return Err(FileRefusal { number: 4, from: place, size: file.len() - place, row: None });
    }
    Ok(fields)
}

/// The row in the value of a row field: seven bytes, and two more for M under
/// its tag.
fn row_of_value(tag: u8, value: &[u8]) -> Row {
    Row {
        c: big_endian(value[0], value[1]),
        d: big_endian(value[2], value[3]),
        t: big_endian(value[4], value[5]),
        rank: value[6],
        m: if tag == MARGIN_ROW_TAG { big_endian(value[7], value[8]) } else { 0 },
    }
}

/// The rows of a file in order, 6 to 9 and then 21 in each.
fn check_fields(fields: &[RowField]) -> Result<(), RowFault> {
    let rows = rows_of(fields);
    for index in 0..rows.len() {
        check_numbers(&rows, index)?;
        check_rank(&rows, index)?;
        check_tag(fields, index)?;
    }
    Ok(())
}

/// Rows in order, 6 to 9 in each.
pub fn check_rows(rows: &[Row]) -> Result<(), RowFault> {
    for index in 0..rows.len() {
        check_numbers(rows, index)?;
        check_rank(rows, index)?;
    }
    Ok(())
}

/// 6 to 8: 1 <= C <= D <= T.
fn check_numbers(rows: &[Row], index: usize) -> Result<(), RowFault> {
    let row = rows[index];
    let fault = |number: u8| Err(RowFault { number, index });
    if row.c == 0 {
        return fault(6);
    }
    if row.c > row.d {
        return fault(7);
    }
    if row.d > row.t {
        return fault(8);
    }
    Ok(())
}

/// 9: a rank of n or above, or used by an earlier row.
fn check_rank(rows: &[Row], index: usize) -> Result<(), RowFault> {
    let rank = rows[index].rank;
    let too_large = usize::from(rank) >= rows.len();
    let used = rows[..index].iter().any(|earlier| earlier.rank == rank);
    if too_large || used {
        return Err(RowFault { number: 9, index });
    }
    Ok(())
}

/// 21: the tag of a row with a margin, and M is 0.
fn check_tag(fields: &[RowField], index: usize) -> Result<(), RowFault> {
    let field = fields[index];
    if field.tag == MARGIN_ROW_TAG && field.row.m == 0 {
        return Err(RowFault { number: 21, index });
    }
    Ok(())
}

/// The bounds of all rows, in order, 10 and then 22 in each.
pub fn all_bounds(rows: &[Row]) -> Result<Vec<Bound>, RowFault> {
    let mut bounds = Vec::new();
    for index in 0..rows.len() {
        bounds.push(bound(rows, index).map_err(|number| RowFault { number, index })?);
    }
    Ok(bounds)
}

/// f(w) = C_i + the sum over the rows above i of ceil(w / T_j) x C_j.
pub fn f(rows: &[Row], index: usize, w: u128) -> u128 {
    let mut sum = u128::from(rows[index].c);
    for above in &rows[..index] {
        let jobs = w.div_ceil(u128::from(above.t));
        sum += jobs * u128::from(above.c);
    }
    sum
}

/// The values of the iteration: C_i first, then each evaluation of f, up to
/// the one that repeats or passes D.
pub fn iteration(rows: &[Row], index: usize) -> Vec<u128> {
    let deadline = u128::from(rows[index].d);
    let mut values = vec![u128::from(rows[index].c)];
    loop {
        let w = values[values.len() - 1];
        let next = f(rows, index, w);
        values.push(next);
        if next == w || next > deadline {
            return values;
        }
    }
}

/// R, U and rounds of a row that passed 6 to 8; 10 if the iteration passes D,
/// 22 if R and M together are above D.
pub fn bound(rows: &[Row], index: usize) -> Result<Bound, u8> {
    let values = iteration(rows, index);
    let deadline = u128::from(rows[index].d);
    let margin = u128::from(rows[index].m);
    let response = values[values.len() - 1];
    if response > deadline {
        return Err(10);
    }
    if response + margin > deadline {
        return Err(22);
    }
    Ok(Bound {
        response,
        promotion: deadline - response - margin,
        // The first value is the start, every other one an evaluation of f.
        rounds: values.len() as u128 - 1,
    })
}

/// The bytes of a row field as the writer writes it: M and its tag only where M
/// is not 0.
pub fn row_field(row: &Row) -> Vec<u8> {
    if row.m == 0 {
        return [vec![ROW_TAG, 0, ROW_LENGTH as u8], plain_value(row)].concat();
    }
    margin_row_field(row)
}

/// The bytes of a row field with M, be it 0.
pub fn margin_row_field(row: &Row) -> Vec<u8> {
    let header = vec![MARGIN_ROW_TAG, 0, MARGIN_ROW_LENGTH as u8];
    [header, plain_value(row), two_bytes(row.m)].concat()
}

/// C, D, T and the rank, as both kinds of row field start.
fn plain_value(row: &Row) -> Vec<u8> {
    [two_bytes(row.c), two_bytes(row.d), two_bytes(row.t), vec![row.rank]].concat()
}

fn two_bytes(number: u16) -> Vec<u8> {
    vec![(number / 256) as u8, (number % 256) as u8]
}

/// The bytes of the end field.
pub fn end_field() -> Vec<u8> {
    vec![END_TAG, 0, END_LENGTH as u8]
}

/// The file of these rows, whatever they hold.
pub fn file_of_rows(rows: &[Row]) -> Vec<u8> {
    let mut bytes: Vec<u8> = rows.iter().flat_map(row_field).collect();
    bytes.extend(end_field());
    bytes
}

/// Writes a table: 5 to 9, then 10 and 22, then 19. On success it returns the length, and the
/// bytes of `output` after it stay; on a refusal all of `output` stays.
pub fn write_table(rows: &[Row], output: &mut [u8]) -> Result<usize, u8> {
    if rows.len() > MOST_ROWS {
        return Err(5);
    }
    check_rows(rows).map_err(|fault| fault.number)?;
    all_bounds(rows).map_err(|fault| fault.number)?;
    let bytes = file_of_rows(rows);
    if output.len() < bytes.len() {
        return Err(19);
    }
    output[..bytes.len()].copy_from_slice(&bytes);
    Ok(bytes.len())
}

#[cfg(test)]
mod tests {
    use super::*;

    pub const TABLE_A: [u8; 23] = [
        0x01, 0x00, 0x07, 0x00, 0x02, 0x00, 0x06, 0x00, 0x08, 0x00, 0x01, 0x00, 0x07, 0x00, 0x05,
        0x00, 0x0c, 0x00, 0x0c, 0x01, 0x0f, 0x00, 0x00,
    ];

    /// Rows of these (C, D, T), ranked in row order.
    fn rows(numbers: &[(u16, u16, u16)]) -> Vec<Row> {
        let ranked = numbers.iter().enumerate();
        ranked.map(|(index, &(c, d, t))| Row { c, d, t, rank: index as u8, m: 0 }).collect()
    }

    /// The same rows, each with its margin.
    fn with_margins(rows: Vec<Row>, margins: &[u16]) -> Vec<Row> {
        rows.iter().zip(margins).map(|(&row, &m)| Row { m, ..row }).collect()
    }

    /// The file of these rows, all with the tag of a margin.
    fn margin_file(rows: &[Row]) -> Vec<u8> {
        [rows.iter().flat_map(margin_row_field).collect(), end_field()].concat()
    }

    /// A refusal that is about no row.
    fn refusal(number: u8, from: usize, size: usize) -> Result<Table, FileRefusal> {
        Err(FileRefusal { number, from, size, row: None })
    }

    fn row_refusal(number: u8, row: usize, from: usize, size: usize) -> Result<Table, FileRefusal> {
        Err(FileRefusal { number, from, size, row: Some(row) })
    }

    fn response(numbers: &[(u16, u16, u16)], index: usize) -> Option<u128> {
        bound(&rows(numbers), index).ok().map(|found| found.response)
    }

    // The station figures on tables.

    #[test]
    fn figure_table_a() {
        let table = read_table(&TABLE_A).unwrap();
        assert_eq!(table.rows[0], Row { c: 2, d: 6, t: 8, rank: 0, m: 0 });
        assert_eq!(table.rows[1], Row { c: 5, d: 12, t: 12, rank: 1, m: 0 });
        assert_eq!(table.bounds[0], Bound { response: 2, promotion: 4, rounds: 1 });
        assert_eq!(table.bounds[1], Bound { response: 7, promotion: 5, rounds: 2 });
    }

    #[test]
    fn nine_solves_table_a_too_but_seven_is_the_least() {
        let table = read_table(&TABLE_A).unwrap();
        assert_eq!(f(&table.rows, 1, 9), 9);
        assert_eq!((1..).find(|&w| f(&table.rows, 1, w) == w), Some(7));
    }

    #[test]
    fn figure_three_rows() {
        let two = [(3, 6, 6), (2, 8, 8)];
        assert_eq!(response(&two, 0), Some(3));
        assert_eq!(response(&two, 1), Some(5));
        let three = rows(&[(3, 6, 6), (2, 8, 8), (3, 12, 12)]);
        assert_eq!(iteration(&three, 2), vec![3, 8, 11, 13]);
        assert_eq!(read_table(&file_of_rows(&three)), row_refusal(10, 3, 20, 10));
    }

    #[test]
    fn figure_two_and_two_of_four() {
        let good = rows(&[(2, 4, 4), (2, 4, 4)]);
        let found = bound(&good, 1).unwrap();
        assert_eq!((found.response, found.promotion), (4, 0));
        let bad = rows(&[(2, 4, 4), (3, 4, 4)]);
        assert_eq!(read_table(&file_of_rows(&bad)), row_refusal(10, 2, 10, 10));
    }

    #[test]
    fn figure_one_of_one() {
        let found = bound(&rows(&[(1, 1, 1)]), 0).unwrap();
        assert_eq!((found.response, found.promotion), (1, 0));
    }

    #[test]
    fn figure_largest_row() {
        assert_eq!(response(&[(65535, 65535, 65535)], 0), Some(65535));
    }

    /// All (C, D, T) with 1 <= C <= D <= T <= 6.
    fn small_rows() -> Vec<(u16, u16, u16)> {
        let mut list = Vec::new();
        for t in 1..=6 {
            for d in 1..=t {
                for c in 1..=d {
                    list.push((c, d, t));
                }
            }
        }
        list
    }

    #[test]
    fn the_response_is_the_least_solution_or_there_is_none_up_to_d() {
        let small = small_rows();
        for &first in &small {
            for &second in &small {
                for &third in &small {
                    let three = rows(&[first, second, third]);
                    let deadline = u128::from(third.1);
                    let least = (1..=deadline).find(|&w| f(&three, 2, w) == w);
                    let found = bound(&three, 2).ok();
                    assert_eq!(found.map(|found| found.response), least);
                    let rounds = iteration(&three, 2).len() - 1;
                    assert!(rounds <= usize::from(third.1 - third.0) + 1);
                }
            }
        }
    }

    // One test for each refusal of a table file.

    #[test]
    fn empty_table() {
        let table = read_table(&[0x0f, 0, 0]).unwrap();
        assert!(table.rows.is_empty() && table.bounds.is_empty());
    }

    #[test]
    fn refusal_1() {
        assert_eq!(read_table(&[]), refusal(1, 0, 0));
        assert_eq!(read_table(&[0x0f, 0]), refusal(1, 0, 2));
        assert_eq!(read_table(&TABLE_A[..20]), refusal(1, 20, 0));
        assert_eq!(read_table(&TABLE_A[..22]), refusal(1, 20, 2));
        assert_eq!(read_table(&TABLE_A[..19]), refusal(1, 10, 9));
        assert_eq!(read_table(&TABLE_A[..13]), refusal(1, 10, 3));
    }

    #[test]
    fn refusal_2() {
        assert_eq!(read_table(&[0x04, 0, 7, 1]), refusal(2, 0, 3));
    }

    #[test]
    fn refusal_3() {
        assert_eq!(read_table(&[0x01, 0, 6, 1]), refusal(3, 0, 3));
        assert_eq!(read_table(&[0x0f, 0, 1, 1]), refusal(3, 0, 3));
    }

    #[test]
    fn refusal_4() {
        let mut file = TABLE_A.to_vec();
        file.extend([7, 8]);
        assert_eq!(read_table(&file), refusal(4, 23, 2));
    }

    #[test]
    fn refusal_5_comes_before_a_cut_value() {
        let sixteen = rows(&[(1, 100, 100); 16]);
        let mut file = file_of_rows(&sixteen);
        assert!(read_table(&file).is_ok());
        file.truncate(160);
        file.extend([0x01, 0, 7]);
        assert_eq!(read_table(&file), refusal(5, 160, 3));
    }

    #[test]
    fn refusals_6_to_8() {
        let second = |c, d, t| read_table(&file_of_rows(&rows(&[(1, 9, 9), (c, d, t)])));
        assert_eq!(second(0, 0, 0), row_refusal(6, 2, 10, 10));
        assert_eq!(second(3, 2, 1), row_refusal(7, 2, 10, 10));
        assert_eq!(second(1, 2, 1), row_refusal(8, 2, 10, 10));
    }

    #[test]
    fn refusal_9() {
        let mut two = rows(&[(1, 9, 9), (1, 9, 9)]);
        two[0].rank = 2;
        assert_eq!(read_table(&file_of_rows(&two)), row_refusal(9, 1, 0, 10));
        two[0].rank = 1;
        assert_eq!(read_table(&file_of_rows(&two)), row_refusal(9, 2, 10, 10));
        two[1].rank = 0;
        assert!(read_table(&file_of_rows(&two)).is_ok());
    }

    #[test]
    fn refusal_10_comes_after_all_rows() {
        let three = rows(&[(2, 4, 4), (3, 4, 4), (0, 1, 1)]);
        assert_eq!(read_table(&file_of_rows(&three)), row_refusal(6, 3, 20, 10));
        assert_eq!(read_table(&file_of_rows(&three[..2])), row_refusal(10, 2, 10, 10));
    }

    #[test]
    fn rounds_are_at_most_d_less_c_and_one() {
        let two = rows(&[(1, 2, 2), (1, 2, 2)]);
        // f(1) = 2 and f(2) = 2: two rounds, and D - C + 1 is two.
        assert_eq!(bound(&two, 1).unwrap().rounds, 2);
    }

    // Margins.

    /// Table A with margins 1 and 5.
    fn table_a_with_margins() -> Vec<Row> {
        with_margins(rows(&[(2, 6, 8), (5, 12, 12)]), &[1, 5])
    }

    #[test]
    fn a_margin_moves_the_promotion_and_nothing_else() {
        let file = [
            0x02, 0x00, 0x09, 0x00, 0x02, 0x00, 0x06, 0x00, 0x08, 0x00, 0x00, 0x01, 0x02, 0x00,
            0x09, 0x00, 0x05, 0x00, 0x0c, 0x00, 0x0c, 0x01, 0x00, 0x05, 0x0f, 0x00, 0x00,
        ];
        let table = read_table(&file).unwrap();
        assert_eq!(table.rows, table_a_with_margins());
        assert_eq!(table.bounds[0], Bound { response: 2, promotion: 3, rounds: 1 });
        assert_eq!(table.bounds[1], Bound { response: 7, promotion: 0, rounds: 2 });
        assert_eq!(file_of_rows(&table.rows), file);
    }

    #[test]
    fn rows_of_both_tags_in_one_file() {
        let three = with_margins(rows(&[(1, 9, 9), (1, 9, 9), (1, 300, 300)]), &[0, 7, 256]);
        let file = file_of_rows(&three);
        let starts: Vec<_> = scan(&file).unwrap().iter().map(|f| (f.from, f.size)).collect();
        assert_eq!(starts, [(0, 10), (10, 12), (22, 12)]);
        assert_eq!(file[32..34], [1, 0]);
        assert_eq!(read_table(&file).unwrap().rows, three);
    }

    #[test]
    fn refusals_1_3_and_5_of_a_row_with_a_margin() {
        let file = file_of_rows(&table_a_with_margins());
        assert_eq!(read_table(&file[..23]), refusal(1, 12, 11));
        assert_eq!(read_table(&file[..14]), refusal(1, 12, 2));
        assert_eq!(read_table(&[0x02, 0, 7, 1]), refusal(3, 0, 3));
        assert_eq!(read_table(&[0x01, 0, 9, 1]), refusal(3, 0, 3));
        let sixteen = with_margins(rows(&[(1, 100, 100); 16]), &[9; 16]);
        let mut file = file_of_rows(&sixteen);
        assert!(read_table(&file).is_ok());
        assert_eq!(file.len(), LONGEST_TABLE);
        file.truncate(192);
        for seventeenth in [[0x01, 0, 7], [0x02, 0, 9]] {
            assert_eq!(read_table(&[&file[..], &seventeenth].concat()), refusal(5, 192, 3));
        }
    }

    #[test]
    fn refusals_6_to_10_show_the_whole_field_where_it_stands() {
        let third = |c, d, t, rank| {
            let two = with_margins(rows(&[(1, 9, 9), (1, 9, 9)]), &[0, 1]);
            read_table(&file_of_rows(&[two, vec![Row { c, d, t, rank, m: 1 }]].concat()))
        };
        assert_eq!(third(0, 0, 0, 9), row_refusal(6, 3, 22, 12));
        assert_eq!(third(3, 2, 1, 9), row_refusal(7, 3, 22, 12));
        assert_eq!(third(1, 2, 1, 9), row_refusal(8, 3, 22, 12));
        assert_eq!(third(1, 9, 9, 1), row_refusal(9, 3, 22, 12));
        assert_eq!(third(8, 9, 9, 2), row_refusal(10, 3, 22, 12));
    }

    #[test]
    fn refusal_21_after_9_in_its_row_and_before_later_rows() {
        let mut two = rows(&[(1, 9, 9), (0, 9, 9)]);
        assert_eq!(read_table(&margin_file(&two)), row_refusal(21, 1, 0, 12));
        two[0].rank = 2;
        assert_eq!(read_table(&margin_file(&two)), row_refusal(9, 1, 0, 12));
        // No fault where the tag is the one of a row without a margin.
        two[0].rank = 0;
        assert_eq!(read_table(&file_of_rows(&two)), row_refusal(6, 2, 10, 10));
    }

    #[test]
    fn refusal_21_before_10_and_22_of_an_earlier_row() {
        for earlier in [(3, 4, 4), (1, 4, 4)] {
            let three = with_margins(rows(&[(2, 4, 4), earlier, (1, 4, 4)]), &[1, 4, 0]);
            assert_eq!(read_table(&margin_file(&three)), row_refusal(21, 3, 24, 12));
        }
    }

    #[test]
    fn refusal_22_where_one_more_does_not_fit() {
        let mut two = table_a_with_margins();
        two[1].m = 6;
        assert_eq!(read_table(&file_of_rows(&two)), row_refusal(22, 2, 12, 12));
        two[0].m = 5;
        assert_eq!(read_table(&file_of_rows(&two)), row_refusal(22, 1, 0, 12));
        two[0].m = 65535;
        assert_eq!(read_table(&file_of_rows(&two)), row_refusal(22, 1, 0, 12));
    }

    #[test]
    fn refusal_22_comes_directly_after_10_in_its_row() {
        let numbers = [(2, 4, 4), (3, 4, 4)];
        let both = with_margins(rows(&numbers), &[0, 1]);
        assert_eq!(read_table(&file_of_rows(&both)), row_refusal(10, 2, 10, 12));
        let before = with_margins(rows(&numbers), &[3, 1]);
        assert_eq!(read_table(&file_of_rows(&before)), row_refusal(22, 1, 0, 12));
    }

    // The writer.

    #[test]
    fn writer_keeps_the_bytes_after() {
        let table = read_table(&TABLE_A).unwrap();
        let mut output = [0xaa; 30];
        assert_eq!(write_table(&table.rows, &mut output), Ok(23));
        assert_eq!(output[..23], TABLE_A);
        assert_eq!(output[23..], [0xaa; 7]);
    }

    #[test]
    fn writer_refuses_and_writes_nothing() {
        let refused = |numbers: &[(u16, u16, u16)], size: usize| {
            let mut output = vec![0xaa; size];
            let number = write_table(&rows(numbers), &mut output).unwrap_err();
            assert!(output.iter().all(|&byte| byte == 0xaa));
            number
        };
        assert_eq!(refused(&[(0, 0, 0); 17], 0), 5);
        assert_eq!(refused(&[(0, 0, 0)], 0), 6);
        assert_eq!(refused(&[(2, 1, 0)], 0), 7);
        assert_eq!(refused(&[(1, 2, 1)], 0), 8);
        assert_eq!(refused(&[(2, 4, 4), (3, 4, 4)], 0), 10);
        assert_eq!(refused(&[(2, 4, 4), (2, 4, 4)], 22), 19);
        assert_eq!(refused(&[], 2), 19);
        let twice = [Row { c: 1, d: 9, t: 9, rank: 0, m: 0 }; 2];
        assert_eq!(write_table(&twice, &mut []), Err(9));
        let margins = |margins| with_margins(rows(&[(2, 4, 4), (2, 4, 4)]), margins);
        assert_eq!(write_table(&margins(&[2, 1]), &mut []), Err(22));
        assert_eq!(write_table(&margins(&[3, 0]), &mut []), Err(22));
        assert_eq!(write_table(&margins(&[2, 0]), &mut [0; 24]), Err(19));
        assert_eq!(write_table(&margins(&[2, 0]), &mut [0; 25]), Ok(25));
    }
}
