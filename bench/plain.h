/* The rival: the product's functions in plain C, with the names of naustvri.h under another prefix. */
#ifndef PLAIN_H
#define PLAIN_H

#include "naustvri.h"

struct naustvri_precedence_reading plain_read_precedence(const uint8_t *octets, size_t octets_len);
uint8_t plain_write_precedence(uint8_t *buffer, size_t buffer_len, struct naustvri_precedence value);
struct naustvri_reference_reading plain_read_reference(const uint8_t *octets, size_t octets_len);
uint8_t plain_write_reference(uint8_t *buffer, size_t buffer_len, struct naustvri_reference value);
struct naustvri_parameter plain_next_parameter(const uint8_t *part, size_t part_len, size_t place);
struct naustvri_found_precedence plain_find_precedence(const uint8_t *part, size_t part_len);
struct naustvri_written_part plain_write_optional(uint8_t *buffer, size_t buffer_len, const uint8_t *list, size_t list_len);
struct naustvri_check_reading plain_check(const uint8_t *table, size_t table_len);
uint8_t plain_event(uint8_t *table, size_t table_len, const uint8_t *event, size_t event_len, uint8_t *answer, size_t answer_len);
uint8_t plain_list(uint8_t *table, size_t table_len, const uint8_t *events, size_t events_len, uint8_t *answers, size_t answers_len);
uint8_t plain_figures(uint8_t *table, size_t table_len, const uint8_t *events, size_t events_len, uint8_t *answers, size_t answers_len,
                      uint64_t *figures, size_t figures_len);
struct naustvri_lamps_reading plain_lamps(const uint8_t *table, size_t table_len);

#endif
