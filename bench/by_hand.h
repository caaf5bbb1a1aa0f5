/* The calls written by hand in plain C from the rules alone: what the library is compared with, in its answers and in
 * its cost. Arguments and answers are those of mastarik.h.
 */
#ifndef BY_HAND_H
#define BY_HAND_H

#include "mastarik.h"

mastarik_answer by_hand_check(const uint8_t *list, size_t list_length);

mastarik_answer by_hand_rights(const uint8_t *list, size_t list_length, const uint32_t *groups, size_t group_count,
                               mastarik_caller caller, mastarik_file file);

mastarik_answer by_hand_needs(uint16_t types, uint8_t dir);

mastarik_answer by_hand_new_list(const uint8_t *realm, uint8_t user_obj, uint8_t group_obj, uint8_t other_obj,
                                 uint8_t *out, size_t out_length);

mastarik_answer by_hand_put_entry(const uint8_t *list, size_t list_length, mastarik_entry entry, uint8_t *out,
                                  size_t out_length);

mastarik_answer by_hand_drop_entry(const uint8_t *list, size_t list_length, mastarik_entry entry, uint8_t *out,
                                   size_t out_length);

mastarik_answer by_hand_fill(uint8_t *table, size_t table_length);

mastarik_answer by_hand_ask(const uint8_t *table, size_t table_length, mastarik_claim claim, const uint8_t *list,
                            size_t list_length, const uint32_t *groups, size_t group_count, mastarik_caller caller,
                            mastarik_file file, uint8_t *out, size_t out_length);

mastarik_answer by_hand_grant(uint8_t *table, size_t table_length, mastarik_claim claim, const uint8_t *list,
                              size_t list_length, const uint32_t *groups, size_t group_count, mastarik_caller caller,
                              mastarik_file file);

mastarik_answer by_hand_grant_widest(uint8_t *table, size_t table_length, mastarik_claim claim, const uint8_t *list,
                                     size_t list_length, const uint32_t *groups, size_t group_count,
                                     mastarik_caller caller, mastarik_file file);

mastarik_answer by_hand_return(uint8_t *table, size_t table_length, uint16_t host, uint64_t number, uint16_t types);

mastarik_answer by_hand_drop_host(uint8_t *table, size_t table_length, uint16_t host);

mastarik_answer by_hand_audit(const uint8_t *table, size_t table_length);

#endif
