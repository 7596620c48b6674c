#!/usr/bin/env bash
# A comparison that cannot fail shows nothing. This puts one slip at a time into a copy of the reference and asks that the
# comparison with the library notices it. Run tests/compare.sh before it.
set -euo pipefail
root=$(cd "$(dirname "$0")/.." && pwd)
. "$root/tests/machine.sh"
tree=$root/target/slips/tree
export CARGO_TARGET_DIR=$root/target/slips/cargo
count=0
missed=0

# slip NAME SUITE FILE OLD NEW: with NEW for OLD in the file the suite must fail.
slip() {
    local name=$1 suite=$2 file=$tree/tests/$3 old=$4 new=$5 content
    count=$((count + 1))
    rm -rf "$tree/tests"
    mkdir -p "$tree/tests"
    cp -r "$root/tests/reference" "$root/tests/compare" "$tree/tests"
    content=$(<"$file")
    if [[ $content != *"$old"* ]]; then
        echo "slip $name: the text it replaces is not there"
        missed=$((missed + 1))
        return
    fi
    printf '%s\n' "${content/"$old"/"$new"}" > "$file"
    if ! cargo build --offline --quiet --manifest-path "$tree/tests/compare/Cargo.toml" 2> "$tree/out"; then
        echo "slip $name: it does not compile"
        head -n 20 "$tree/out"
        missed=$((missed + 1))
    elif "$CARGO_TARGET_DIR/debug/compare" "$suite" > "$tree/out" 2>&1 || ! grep -q 'seed .* failed' "$tree/out"; then
        echo "slip $name: not noticed by $suite"
        missed=$((missed + 1))
    else
        echo "slip $name: noticed by $suite, $(grep -om 1 'seed [0-9]* failed' "$tree/out")"
    fi
}

rm -rf "$tree"
mkdir -p "$tree/target"
ln -s "$root/target/c" "$tree/target/c"
ln -s "$root/target/bin" "$tree/target/bin"

# Document 01's "Slips seen in such schedulers".
slip any_solution calls reference/src/table.rs \
    '    if response + margin > deadline {' \
    '    let response = (response..=deadline).rev().find(|&w| f(rows, index, w) == w).unwrap();
    if response + margin > deadline {'
slip spent_is_done calls reference/src/station.rs 'Closing::Spent(job)
        }' 'Closing::Done(job)
        }'
slip too_early_after_long_sleep rollover reference/src/station.rs \
    'now - release >= u128::from(self.row.t)' '(now - release) % ROLL_OVER >= u128::from(self.row.t)'
slip promoted_late calls reference/src/station.rs 'now >= job.release + self.promotion' 'now > job.release + self.promotion'
slip unpromoted_before_soft calls reference/src/station.rs \
    'if soft {' 'if soft && self.rows.iter().all(|hard| hard.open.is_none()) {'

# The tick and the offer.
slip lower_band_by_row calls reference/src/station.rs 'min_by_key(|&row| self.rows[row - 1].row.rank)' 'min()'
slip clock_after_the_tick calls reference/src/station.rs 'let clock = self.clock();' 'let clock = self.clock() + 1;'
slip unrun_left_out calls reference/src/station.rs '+ self.unrun_budgets() {' '{'
slip future_from_now calls reference/src/station.rs 'let l = self.until_rested(now) as i128;' 'let l = 0;'
slip ticket_not_rolled_over rollover reference/src/station.rs 'Ok(number % ROLL_OVER)' 'Ok(number)'

# Notes.
slip noted_bit_released calls reference/src/station.rs ' && !releases_row(notes.not_ready, row) {' ' {'
slip one_wrong_bit_clears_all calls reference/src/station.rs \
    '!releases_row(notes.not_ready, row) {' 'notes.unknown + notes.not_ready == 0 {'
slip noted_tick_stands_still calls reference/src/station.rs \
    '        self.run(runner);' \
    '        self.run(runner);
        self.time -= u128::from(notes != Notes::default());'
slip ready_before_closing calls reference/src/station.rs \
    '        let closing = self.close(done && !none_ran);
        let not_ready = self.unready_rows(releases);' \
    '        let not_ready = self.unready_rows(releases);
        let closing = self.close(done && !none_ran);'
slip above_n_under_14_too calls reference/src/station.rs \
    'let not_ready = self.unready_rows(releases);' 'let not_ready = unknown + self.unready_rows(releases);'
slip open_job_is_ready blocks reference/src/station.rs ' || hard.open.is_some()' ''
slip noted_release_is_owed calls compare/src/library.rs 'released & !self.unknown & !self.not_ready' 'released'
slip notes_before_their_tick programs reference/src/programs.rs \
    'answer_line(answer) + &note_lines(answer.notes)' 'note_lines(answer.notes) + &answer_line(answer)'

# Planning and the programs.
slip floor_for_ceil calls reference/src/table.rs 'w.div_ceil(u128::from(above.t))' '(w / u128::from(above.t))'
slip just_fits_refused calls reference/src/table.rs 'if output.len() < bytes.len() {' 'if output.len() <= bytes.len() {'
slip rounds_from_0 programs reference/src/table.rs 'values.len() as u128 - 1' 'values.len() as u128 - 2'
slip shown_header_only programs reference/src/event.rs 'refuse(20, size)' 'refuse(20, HEADER)'

# Blocks.
slip promotion_up_to_d blocks reference/src/block.rs 'hard.promotion + c + m <= d' 'hard.promotion + m <= d'
slip reserved_ignored blocks reference/src/block.rs 'encode(&station) == block)' 'encode(&station)[..RESERVED_AT] == block[..RESERVED_AT])'
slip tickets_not_consecutive blocks reference/src/block.rs \
    'number: accepted' 'number: number(block, TICKET_AT + 4 * index, 4)'
slip stamp_not_rolled_over blocks reference/src/block.rs '(time - stamp) % ROLL_OVER' '(time % ROLL_OVER).saturating_sub(stamp)'
slip flags_after_block blocks compare/src/expected.rs \
    '    if flags > flag::DONE + flag::SOFT {' '    if station.is_some() && flags > flag::DONE + flag::SOFT {'

# Margins.
slip margin_forgotten_in_u calls reference/src/table.rs 'deadline - response - margin' 'deadline - response'
slip promoted_by_d calls reference/src/station.rs \
    'now >= job.release + self.promotion' 'now >= job.release + self.promotion + u128::from(self.row.m)'
slip m_zero_before_rank programs reference/src/table.rs \
    'check_rank(&rows, index)?;
        check_tag(fields, index)?;' \
    'check_tag(fields, index)?;
        check_rank(&rows, index)?;'
slip ten_bytes_shown programs reference/src/table.rs 'size: fields[fault.index].size' 'size: 10'
slip writer_without_22 blocks reference/src/table.rs \
    'all_bounds(rows).map_err(|fault| fault.number)?;' \
    'match all_bounds(rows) {
        Err(fault) if fault.number != 22 => return Err(fault.number),
        _ => {}
    }'
slip margin_written_under_tag_01 blocks reference/src/table.rs 'if row.m == 0 {' 'if true {'

echo "slips: $((count - missed)) of $count noticed"
[ "$missed" -eq 0 ]
