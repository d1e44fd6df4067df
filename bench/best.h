/* The same jobs in the best portable C that we can write: the C library's searches, copies and fills, tables, and loops
 * that gcc and clang do together. No intrinsics. The tests are those of plain.c. Of what the two compilers make of it
 * the quicker counts, job by job. */
#ifndef BEST_H
#define BEST_H

#include "rainbow.h"

rainbow_drawn best_draw(rainbow_machine machine, const uint8_t *screen, size_t screen_length, const uint8_t *attribute,
                        size_t attribute_length, uint8_t *picture, size_t picture_length);

rainbow_stored best_store_with_picture(rainbow_machine machine, uint8_t *shared, size_t shared_length, uint8_t *screen,
                                       size_t screen_length, uint8_t *attribute, size_t attribute_length,
                                       uint8_t *picture, size_t picture_length, uint32_t address, uint8_t byte);

uint8_t best_scan_line(rainbow_machine machine, const uint8_t *picture, size_t picture_length, const uint8_t *table,
                       size_t table_length, size_t row, size_t scan, uint8_t *line, size_t line_length);

uint8_t best_list_lines(rainbow_machine machine, const uint8_t *picture, size_t picture_length, uint8_t *list,
                        size_t list_length);

rainbow_explained best_explain(rainbow_machine machine, const uint8_t *screen, size_t screen_length,
                               const uint8_t *attribute, size_t attribute_length, size_t row, size_t column);

rainbow_asked best_ask(rainbow_viewers viewers, size_t viewer);

rainbow_drawn_for_viewers best_draw_for_viewers(rainbow_machine machine, rainbow_viewers viewers, const uint8_t *screen,
                                                size_t screen_length, const uint8_t *attribute, size_t attribute_length,
                                                uint8_t *picture, size_t picture_length);

rainbow_stored_for_viewers best_store_for_viewers(rainbow_machine machine, rainbow_viewers viewers, uint8_t *shared,
                                                  size_t shared_length, uint8_t *screen, size_t screen_length,
                                                  uint8_t *attribute, size_t attribute_length, uint8_t *picture,
                                                  size_t picture_length, uint32_t address, uint8_t byte);

uint8_t best_index_readers(rainbow_machine machine, const uint8_t *screen, size_t screen_length,
                           const uint8_t *attribute, size_t attribute_length, uint8_t *index, size_t index_length);

rainbow_stored best_store_with_index(rainbow_machine machine, uint8_t *shared, size_t shared_length, uint8_t *screen,
                                     size_t screen_length, uint8_t *attribute, size_t attribute_length,
                                     uint8_t *picture, size_t picture_length, uint8_t *index, size_t index_length,
                                     uint32_t address, uint8_t byte);

rainbow_stored_for_viewers best_store_with_index_for_viewers(
    rainbow_machine machine, rainbow_viewers viewers, uint8_t *shared, size_t shared_length, uint8_t *screen,
    size_t screen_length, uint8_t *attribute, size_t attribute_length, uint8_t *picture, size_t picture_length,
    uint8_t *index, size_t index_length, uint32_t address, uint8_t byte);

#endif
