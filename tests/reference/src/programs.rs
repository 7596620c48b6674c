//! The exact text that `plan` and `run` print.

use crate::event::{read_event, Event, Found};
use crate::station::{Answer, Band, Closing, Job, Notes, Runner, Station};
use crate::table::{read_table, FileRefusal};

/// Most bytes of a table.
pub const TABLE_LIMIT: usize = 256;

/// Most bytes of events.
pub const EVENTS_LIMIT: usize = 60_000;

const TOO_LONG: &str = "too long\n";

/// What `plan` prints for these bytes on standard input.
pub fn plan(file: &[u8]) -> String {
    if file.len() > TABLE_LIMIT {
        return TOO_LONG.to_string();
    }
    let table = match read_table(file) {
        Ok(table) => table,
        Err(refusal) => return file_refusal_line(refusal, file),
    };
    let mut text = String::new();
    for (index, (row, bound)) in table.rows.iter().zip(&table.bounds).enumerate() {
        text += &format!(
            "{} {} {} {} {} {} {}\n",
            index + 1,
            row.c,
            row.d,
            row.t,
            bound.response,
            bound.promotion,
            bound.rounds
        );
    }
    text
}

/// What `run` prints for these bytes of `table.bin` and `events.bin`. A file
/// that is not there is empty.
pub fn run(table_file: &[u8], events_file: &[u8]) -> String {
    if table_file.len() > TABLE_LIMIT || events_file.len() > EVENTS_LIMIT {
        return TOO_LONG.to_string();
    }
    let table = match read_table(table_file) {
        Ok(table) => table,
        Err(refusal) => return file_refusal_line(refusal, table_file),
    };
    let mut station = Station::new(&table);
    let mut text = String::new();
    let mut place = 0;
    loop {
        match read_event(events_file, place) {
            Found::End => return text,
            // 1, 2, 3 and 20: the program stops.
            Found::Refused(refusal) => return text + &file_refusal_line(refusal, events_file),
            // 15 to 18: the program goes on.
            Found::Event(event, size) => {
                let field = &events_file[place..place + size];
                text += &event_lines(&mut station, event, field);
                place += size;
            }
        }
    }
}

/// Gives an event to the station; the line of its answer or its refusal, and
/// after a tick's line those of its notes.
fn event_lines(station: &mut Station, event: Event, field: &[u8]) -> String {
    match event {
        Event::Tick { releases, done, soft } => {
            let answer = station.tick(releases, done, soft);
            answer_line(answer) + &note_lines(answer.notes)
        }
        Event::Offer { budget, deadline } => match station.offer(budget, deadline) {
            Ok(ticket) => format!("offer F{ticket}\n"),
            Err(number) => refusal_line(number, field),
        },
    }
}

fn answer_line(answer: Answer) -> String {
    let runner = match answer.runner {
        Runner::Hard(row, Band::Upper) => format!("U{row}"),
        Runner::Hard(row, Band::Lower) => format!("L{row}"),
        Runner::Firm(ticket) => format!("F{ticket}"),
        Runner::Soft => "S".to_string(),
        Runner::Idle => "I".to_string(),
    };
    let closing = match answer.closing {
        Closing::None => "-".to_string(),
        Closing::Done(job) => format!("{} done", job_name(job)),
        Closing::Spent(job) => format!("{} spent", job_name(job)),
    };
    format!("{} {} {}\n", answer.clock, runner, closing)
}

/// `note`, the number, and for 12 and 14 the bits as four hex digits; by number.
fn note_lines(notes: Notes) -> String {
    let mut lines = String::new();
    if notes.unknown > 0 {
        lines += &format!("note 12 {:04x}\n", notes.unknown);
    }
    if notes.none_ran {
        lines += "note 13\n";
    }
    if notes.not_ready > 0 {
        lines += &format!("note 14 {:04x}\n", notes.not_ready);
    }
    lines
}

fn job_name(job: Job) -> String {
    match job {
        Job::Hard(row) => format!("H{row}"),
        Job::Firm(ticket) => format!("F{ticket}"),
    }
}

fn file_refusal_line(refusal: FileRefusal, file: &[u8]) -> String {
    refusal_line(refusal.number, &file[refusal.from..refusal.from + refusal.size])
}

/// `refused`, the number, and each shown byte as two hex digits.
fn refusal_line(number: u8, shown: &[u8]) -> String {
    let mut line = format!("refused {number}");
    for byte in shown {
        line += &format!(" {byte:02x}");
    }
    line + "\n"
}

#[cfg(test)]
mod tests {
    use super::*;
    use crate::event::{offer_field, tick_field};

    /// The bytes of a hex text with spaces.
    fn hex(text: &str) -> Vec<u8> {
        text.split_whitespace().map(|two| u8::from_str_radix(two, 16).unwrap()).collect()
    }

    fn table_a() -> Vec<u8> {
        hex("01 00 07 00 02 00 06 00 08 00 01 00 07 00 05 00 0c 00 0c 01 0f 00 00")
    }

    fn empty() -> Vec<u8> {
        hex("0f 00 00")
    }

    #[test]
    fn figure_plan_of_table_a() {
        assert_eq!(plan(&table_a()), "1 2 6 8 2 4 1\n2 5 12 12 7 5 2\n");
    }

    #[test]
    fn figure_the_whole_listing() {
        let events =
            hex("21 00 03 00 03 00 21 00 03 00 00 02 22 00 04 00 02 00 04 21 00 03 00 00 00 \
             21 00 03 00 01 00 21 00 03 00 00 00 21 00 03 00 00 00 21 00 03 00 00 01");
        let want = "0 L1 -\n\
                    1 S -\n\
                    offer F0\n\
                    2 F0 -\n\
                    3 F0 -\n\
                    note 14 0001\n\
                    4 U1 F0 spent\n\
                    5 U2 H1 spent\n\
                    6 I H2 done\n";
        assert_eq!(run(&table_a(), &events), want);
    }

    #[test]
    fn figure_the_three_offers_of_the_empty_table() {
        let events = [offer_field(5, 5), offer_field(1, 5), offer_field(1, 6)].concat();
        let want = "offer F0\nrefused 18 22 00 04 00 01 00 05\noffer F1\n";
        assert_eq!(run(&empty(), &events), want);
    }

    /// `plan` and `run` print the same line for a refused table.
    fn both(table: &str, want: &str) {
        assert_eq!(plan(&hex(table)), want);
        assert_eq!(run(&hex(table), &tick_field(0, 0)), want);
    }

    #[test]
    fn tables_refused_1_to_4() {
        both("", "refused 1\n");
        both("01 00 07 00 01 00 01 00 01 00", "refused 1\n");
        both("0f 00", "refused 1 0f 00\n");
        both("01 00 07 00 01 00", "refused 1 01 00 07 00 01 00\n");
        both("1f 00 07 00 01", "refused 2 1f 00 07\n");
        both("01 00 17 00 01", "refused 3 01 00 17\n");
        both("0f 00 00 01 00 07", "refused 4 01 00 07\n");
    }

    #[test]
    fn tables_refused_5_to_10() {
        let row = "01 00 07 00 01 00 ff 00 ff 00 ";
        both(&row.repeat(17), "refused 5 01 00 07\n");
        let alone = |row: &str, number: u8| {
            both(&format!("{row} 0f 00 00"), &format!("refused {number} {row}\n"));
        };
        alone("01 00 07 00 00 00 00 00 00 00", 6);
        alone("01 00 07 00 02 00 01 00 00 00", 7);
        alone("01 00 07 00 01 00 02 00 01 00", 8);
        alone("01 00 07 00 01 00 01 00 01 01", 9);
        let above = "01 00 07 00 02 00 04 00 04 00";
        let below = "01 00 07 00 03 00 04 00 04 01";
        both(&format!("{above} {below} 0f 00 00"), &format!("refused 10 {below}\n"));
    }

    #[test]
    fn tables_with_margins() {
        let first = "02 00 09 00 02 00 06 00 08 00 00 01";
        let table = format!("{first} 02 00 09 00 05 00 0c 00 0c 01 00 05 0f 00 00");
        assert_eq!(plan(&hex(&table)), "1 2 6 8 2 3 1\n2 5 12 12 7 0 2\n");
        let zero = "02 00 09 00 05 00 0c 00 0c 01 00 00";
        both(&format!("{first} {zero} 0f 00 00"), &format!("refused 21 {zero}\n"));
        let above = "02 00 09 00 05 00 0c 00 0c 01 00 06";
        both(&format!("{first} {above} 0f 00 00"), &format!("refused 22 {above}\n"));
        both(&format!("{first} 02 00 09 00 05 00 0c"), "refused 1 02 00 09 00 05 00 0c\n");
        both("02 00 07 00 02 00 06 00 08 00", "refused 3 02 00 07\n");
    }

    #[test]
    fn events_refused_and_stopped_at() {
        let stops = |field: &str, want: &str| {
            let events = [tick_field(0, 0), hex(field)].concat();
            assert_eq!(run(&empty(), &events), format!("0 I -\n{want}\n"));
        };
        stops("21 00", "refused 1 21 00");
        stops("21 00 03 00 00", "refused 1 21 00 03 00 00");
        stops("20 00 03 00 00 00 21 00 03 00 00 00", "refused 2 20 00 03");
        stops("22 00 03 00 00 00 21 00 03 00 00 00", "refused 3 22 00 03");
        stops("21 00 03 00 00 04 21 00 03 00 00 00", "refused 20 21 00 03 00 00 04");
    }

    #[test]
    fn events_refused_and_passed_over() {
        let goes_on = |table: &[u8], field: Vec<u8>, number: u8| {
            let events = [field.clone(), tick_field(0, 2)].concat();
            let want = format!("{}0 S -\n", refusal_line(number, &field));
            assert_eq!(run(table, &events), want);
        };
        goes_on(&table_a(), offer_field(0, 1), 15);
        goes_on(&table_a(), offer_field(2, 1), 16);
        goes_on(&table_a(), offer_field(5, 5), 18);
        let events = offer_field(1, 9).repeat(9);
        let text = run(&empty(), &events);
        assert!(text.ends_with("offer F7\nrefused 17 22 00 04 00 01 00 09\n"));
    }

    #[test]
    fn notes_after_the_line_of_their_tick() {
        let prints = |events: &[Vec<u8>], want: &str| {
            assert_eq!(run(&table_a(), &events.concat()), want);
        };
        prints(&[tick_field(0x8004, 2), tick_field(0, 2)], "0 S -\nnote 12 8004\n1 S -\n");
        prints(&[tick_field(0, 3), tick_field(0, 2)], "0 S -\nnote 13\n1 S -\n");
        prints(&[tick_field(1, 2), tick_field(1, 2)], "0 S -\n1 S -\nnote 14 0001\n");
        prints(
            &[tick_field(1, 2), tick_field(0xffff, 1), tick_field(0, 2)],
            "0 S -\n1 L1 -\nnote 12 fffc\nnote 13\nnote 14 0001\n2 S -\n",
        );
    }

    #[test]
    fn too_long() {
        let full = vec![0; TABLE_LIMIT];
        assert_eq!(plan(&full), "refused 2 00 00 00\n");
        assert_eq!(plan(&vec![0; TABLE_LIMIT + 1]), TOO_LONG);
        assert_eq!(run(&vec![0; TABLE_LIMIT + 1], &[]), TOO_LONG);
        assert_eq!(run(&full, &vec![0; EVENTS_LIMIT]), "refused 2 00 00 00\n");
        assert_eq!(run(&full, &vec![0; EVENTS_LIMIT + 1]), TOO_LONG);
    }

    #[test]
    fn empty_files() {
        assert_eq!(plan(&empty()), "");
        assert_eq!(run(&empty(), &[]), "");
        assert_eq!(run(&[], &tick_field(0, 0)), "refused 1\n");
    }
}
