/* The same jobs in plain C, to measure beside: the documents as a C programmer would write them, with the tests of
 * lengths, reset, addresses, rows, columns, places, viewers and the latch that the library makes. */
#ifndef PLAIN_H
#define PLAIN_H

#include "rainbow.h"

rainbow_drawn plain_draw(rainbow_machine machine, const uint8_t *screen, size_t screen_length,
                         const uint8_t *attribute, size_t attribute_length, uint8_t *picture,
                         size_t picture_length);

rainbow_stored plain_store_with_picture(rainbow_machine machine, uint8_t *shared, size_t shared_length,
                                        uint8_t *screen, size_t screen_length, uint8_t *attribute,
                                        size_t attribute_length, uint8_t *picture, size_t picture_length,
                                        uint32_t address, uint8_t byte);

uint8_t plain_scan_line(rainbow_machine machine, const uint8_t *picture, size_t picture_length,
                        const uint8_t *table, size_t table_length, size_t row, size_t scan, uint8_t *line,
                        size_t line_length);

uint8_t plain_list_lines(rainbow_machine machine, const uint8_t *picture, size_t picture_length, uint8_t *list,
                         size_t list_length);

rainbow_explained plain_explain(rainbow_machine machine, const uint8_t *screen, size_t screen_length,
                                const uint8_t *attribute, size_t attribute_length, size_t row, size_t column);

rainbow_asked plain_ask(rainbow_viewers viewers, size_t viewer);

rainbow_drawn_for_viewers plain_draw_for_viewers(rainbow_machine machine, rainbow_viewers viewers,
                                                 const uint8_t *screen, size_t screen_length, const uint8_t *attribute,
                                                 size_t attribute_length, uint8_t *picture, size_t picture_length);

rainbow_stored_for_viewers plain_store_for_viewers(rainbow_machine machine, rainbow_viewers viewers, uint8_t *shared,
                                                   size_t shared_length, uint8_t *screen, size_t screen_length,
                                                   uint8_t *attribute, size_t attribute_length, uint8_t *picture,
                                                   size_t picture_length, uint32_t address, uint8_t byte);

uint8_t plain_index_readers(rainbow_machine machine, const uint8_t *screen, size_t screen_length,
                            const uint8_t *attribute, size_t attribute_length, uint8_t *index, size_t index_length);

rainbow_stored plain_store_with_index(rainbow_machine machine, uint8_t *shared, size_t shared_length, uint8_t *screen,
                                      size_t screen_length, uint8_t *attribute, size_t attribute_length,
                                      uint8_t *picture, size_t picture_length, uint8_t *index, size_t index_length,
                                      uint32_t address, uint8_t byte);

rainbow_stored_for_viewers plain_store_with_index_for_viewers(
    rainbow_machine machine, rainbow_viewers viewers, uint8_t *shared, size_t shared_length, uint8_t *screen,
    size_t screen_length, uint8_t *attribute, size_t attribute_length, uint8_t *picture, size_t picture_length,
    uint8_t *index, size_t index_length, uint32_t address, uint8_t byte);

uint8_t plain_store_8088(rainbow_machine machine, uint8_t *shared, size_t shared_length, uint8_t *screen,
                         size_t screen_length, uint8_t *attribute, size_t attribute_length, uint32_t address,
                         uint8_t byte);

#endif
