/* count.h - what SECOND_COUNT counts.  Included by second.c alone. */
#ifndef SECOND_COUNT_H
#define SECOND_COUNT_H

/* Single counters.  "unreachable" ones are counted to show that they stay 0. */
#define SECOND_COUNTERS(X) \
    /* the receiver rules */ \
    X(rule_1_none) X(rule_1_open_with_another) X(rule_1_opening_word) \
    X(rule_1_open_transmitter) X(rule_1_left_open) \
    X(opening_again) X(opening_again_no_err) X(opening_again_bc_ofl_alone) \
    X(opening_again_txm_err_stands) X(opening_again_another_error_stands) \
    X(opening_again_parity_mark_stands) X(opening_again_before_rule_6) \
    X(opening_again_before_rule_7) X(opening_again_truncated) \
    X(opening_again_at_128) X(opening_again_verdict_owed) \
    X(opening_again_right_behind_a_crc) \
    X(opening_again_would_have_been_stored) X(opening_again_silo_full) \
    X(opening_again_period_mark_stands) X(opening_again_to_itself) \
    X(opening_elsewhere) \
    X(rule_2_opens) X(rule_2_opens_without_rcv_dat) \
    X(rule_2_no_rcv_wd) X(rule_2_err) X(rule_2_bc_ofl_alone) X(rule_2_no_room) \
    X(rule_2_at_00) X(rule_2_at_01) X(rule_2_at_open_transmitters_word) \
    X(rule_2_at_due_crc) X(rule_2_at_last_crc) \
    X(rule_2_ready_at_open_transmitters_word) X(rule_2_ready_at_due_crc) \
    X(rule_2_ready_at_last_crc) \
    X(rule_3) X(rule_3_with_bc_ofl_too) X(rule_3_parity_mark_stands) \
    X(rule_4) X(rule_4_at_00) X(rule_4_with_bc_ofl) \
    X(rule_5) X(rule_5_with_bc_ofl) \
    X(rule_6_open_transmitter) X(rule_6_closed_transmitter) \
    X(rule_6_at_11) X(rule_6_after_truncation) \
    X(rule_7_open_transmitter) X(rule_7_closed_transmitter) \
    X(rule_7_at_01) X(rule_7_at_word) X(rule_7_at_crc) X(rule_7_again) \
    X(rule_7_not_for_a_verdict_owed) \
    X(rule_8_last_taken_good) X(rule_8_last_taken_bad) \
    X(rule_8_due_taken_good) X(rule_8_due_taken_bad) \
    X(rule_8_due_taken_is_a_word) \
    X(rule_8_last_bad) X(rule_8_due_bad) \
    X(rule_8_due_good_of_a_crc) X(rule_8_due_good_of_a_word) \
    X(rule_8_due_good_of_a_closed_transmitters_word) \
    X(rule_8_last_good_waits_for_silo) \
    X(rule_8_success) X(rule_8_success_truncated) \
    X(rule_8_success_truncated_words_in_silo) X(rule_8_success_with_bc_ofl) \
    X(rule_9_stored_by_rcv_dat) X(rule_9_stored_by_rcv_wd) \
    X(rule_9_stored_a_crc) \
    X(rule_9_no_command) X(rule_9_no_room) X(rule_9_verdict_stands) \
    X(rule_10) \
    X(parity_good) X(parity_bad) X(parity_bad_at_opening) \
    /* what A was sent */ \
    X(idle_no_transmitter) X(idle_no_snd_wd) X(idle_no_word) \
    X(idle_no_destination) X(idle_err) \
    X(a_not_open) X(a_err) X(a_ending) X(a_crc_unanswered) \
    X(a_crc_unanswered_without_command) X(a_last) X(a_last_at_128) \
    X(a_due) X(a_due_by_snd_wd) X(a_128_without_command) \
    X(a_word_by_st_txm) X(a_word_by_snd_wd) X(a_null) \
    /* the transmitter on B */ \
    X(closed_00_rib_clear) X(closed_00_rib_set) X(closed_01) X(closed_10) \
    X(closed_11_opens) X(closed_11_opens_tbs_bsy_stood) \
    X(serial_goes_round) X(serial_copied_over_another) \
    X(word_taken_st_txm) X(word_taken_suc_txf) X(crc_taken) \
    X(transmitter_bits_frozen) X(receiver_bits_frozen) \
    /* the master section */ \
    X(counter_steps) X(counter_wraps) X(silo_steps) X(takeover) \
    X(takeover_in_silo_mode) X(master_down) X(master_down_err_stood) \
    X(master_down_no_destination) X(no_master_nothing) \
    X(master_set) X(master_refused) X(master_written_by_holder) \
    X(master_cleared) X(aut_adr_restarts_counter) X(aut_adr_cleared) \
    X(start_too_few) X(start_neighbours) X(start_first_and_last) \
    X(clr_adr_sets_aut_adr) X(tmmr_5_and_6) X(address_loaded) \
    X(address_dropped_aut_adr) X(address_dropped_rd_silo) \
    X(address_dropped_full) X(address_removed) \
    /* registers */ \
    X(tsdb_taken) X(tsdb_full) X(tsdb_tx_npr) X(tsdb_rd_silo) X(tsdb_ending) \
    X(tsdb_read_stays) X(tsdb_read_removes) X(rddb_read_stays) X(rddb_read_removes) \
    X(tx_init) X(tx_init_open) X(tx_init_master) X(rc_init) X(rc_init_open) \
    X(tx_init_keeps_serial) X(rc_init_keeps_serial) \
    X(reset_open_transmitter) X(reset_open_receiver) \
    X(write_requests_transmitter) X(write_requests_receiver) \
    X(write_sets_suc_txf) X(write_clears_nxl) X(write_second_error) \
    X(write_tbs_bsy_rib_set) \
    /* moves and periods */ \
    X(tx_move_word) X(tx_move_npr) X(tx_move_not_loaded) X(tx_move_err) \
    X(tx_move_full) X(tx_move_rd_silo) X(tx_move_ending) X(tx_move_nxl) \
    X(tx_move_nxl_first_past) X(tx_move_nxl_777776) X(tx_move_nxl_extended) X(tx_move_nxl_inhibited) \
    X(tx_move_inhibited) X(tx_move_overflow) X(tx_move_count_0) \
    X(rc_move_word) X(rc_move_npr) X(rc_move_empty) X(rc_move_err) \
    X(rc_move_nxl_first_past) X(rc_move_nxl_777776) X(rc_move_nxl_extended) X(rc_move_nxl_inhibited) \
    X(rc_move_bc_ofl) X(rc_move_nxl) X(rc_move_inhibited) \
    X(rc_move_overflow) X(rc_move_count_0) \
    X(tx_all_full) X(tx_all_count_0) X(tx_all_nxl) X(tx_all_nxl_at_once) X(tx_all_overflow) \
    X(rc_all_empty) X(rc_all_bc_ofl) X(rc_all_bc_ofl_at_once) X(rc_all_nxl) X(rc_all_nxl_at_once) X(rc_all_overflow) \
    X(tx_period_not_busy) X(tx_period_mark) X(tx_tim_out) X(tx_tim_out_mark_stays) \
    X(rc_period_not_open) X(rc_period_mark) X(rc_tim_out) \
    X(tx_level_0) X(tx_level_1) X(tx_level_by_tbs_bsy_alone) \
    X(rc_level_0) X(rc_level_1) X(rc_level_by_dtordy_alone)

#define SECOND_CALLS(X) \
    X(fit) X(write) X(write_byte) X(read) X(slice) X(move) X(period) X(reset) \
    X(interrupt_level) X(serial) X(move_all) X(wants_moves) X(wants_interrupts)

#define SECOND_CALL_NAME(name) CALL_##name,
enum second_call { SECOND_CALLS(SECOND_CALL_NAME) CALLS };
#undef SECOND_CALL_NAME

#ifdef SECOND_COUNT
#define SECOND_COUNTER_NAME(name) COUNT_##name,
enum { SECOND_COUNTERS(SECOND_COUNTER_NAME) COUNTERS };
#undef SECOND_COUNTER_NAME
extern unsigned long long second_counts[COUNTERS];      /* by name */
extern unsigned long long second_chart_counts[4][4];    /* by A and B, open T */
extern unsigned long long second_number_counts[CALLS][10];
#define COUNT(name) ((void)second_counts[COUNT_##name]++)
#define COUNT_CHART(a, b) ((void)second_chart_counts[a][b]++)
#define COUNT_NUMBER(call, number) ((void)second_number_counts[call][number]++)
#else
#define COUNT(name) ((void)0)
#define COUNT_CHART(a, b) ((void)0)
#define COUNT_NUMBER(call, number) ((void)(call))
#endif
#define COUNT_IF(condition, name) do { if (condition) COUNT(name); } while (0)

#endif
