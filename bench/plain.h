/* The functions of plain.c: those of valvepigeon.h, each with the same signature, under another name. */
#ifndef PLAIN_H
#define PLAIN_H
#include "valvepigeon.h"

vp_counted plain_count(const uint8_t *sheet, size_t length);
vp_found plain_formula(const uint8_t *sheet, size_t length, uint16_t number);
vp_worked plain_evaluate(const uint8_t *sheet, size_t length, uint16_t number, int32_t argument);
vp_shown plain_evaluate_double(const uint8_t *sheet, size_t length, uint16_t number, double argument);
vp_worked plain_sine(const uint8_t *sheet, size_t length, uint16_t number, uint32_t angle);
vp_worked plain_cosine(const uint8_t *sheet, size_t length, uint16_t number, uint32_t angle);
vp_ends plain_interval(const uint8_t *sheet, size_t length, uint16_t number);
vp_written plain_write_record(vp_fields fields, uint8_t *out, size_t room);
vp_written plain_write_sheet(const uint8_t *run, size_t run_length, uint8_t *out, size_t room);

#endif
