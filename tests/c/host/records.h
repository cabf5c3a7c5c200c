/* Writes files of records in memory. */
#ifndef RECORDS_H
#define RECORDS_H

#include <stddef.h>
#include <stdint.h>

/* Its bytes are to be freed. */
struct file {
    uint8_t *bytes;
    size_t length, capacity;
};

void add_bytes(struct file *file, const uint8_t *bytes, size_t length);
void add_record(struct file *file, uint8_t tag, const uint8_t *body, size_t length);

/* Simple trades, by tag 1 and by tag 10. */
void add_trade(struct file *file, uint8_t buyer, uint8_t seller, uint32_t quantity, uint32_t price);
void add_two_byte_trade(struct file *file, uint16_t buyer, uint16_t seller, uint32_t quantity, uint32_t price);

void add_quote(struct file *file, uint32_t bid, uint32_t offer);
/* The time is in milliseconds into the minute. */
void add_timed_quote(struct file *file, uint16_t time, uint32_t bid, uint32_t offer);
void add_minute_ends(struct file *file, int count, uint32_t index);
void add_fix(struct file *file, uint32_t set_price);
void add_length(struct file *file, uint16_t minutes);
void add_final_date(struct file *file, uint16_t year, uint8_t month);
void add_final_fix(struct file *file, uint32_t hourly);
void add_close(struct file *file);

#endif
