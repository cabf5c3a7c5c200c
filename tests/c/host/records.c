#include "records.h"
#include <stdio.h>
#include <stdlib.h>
#include <string.h>

void add_bytes(struct file *file, const uint8_t *bytes, size_t length)
{
    if (file->capacity - file->length < length) {
        file->capacity = 2 * file->capacity + length;
        file->bytes = realloc(file->bytes, file->capacity);
        if (file->bytes == NULL) {
            fprintf(stderr, "out of memory\n");
            exit(2);
        }
    }
    if (length > 0)
        memcpy(file->bytes + file->length, bytes, length);
    file->length += length;
}

void add_record(struct file *file, uint8_t tag, const uint8_t *body, size_t length)
{
    const uint8_t head[3] = {tag, (uint8_t)(length >> 8), (uint8_t)length};
    add_bytes(file, head, sizeof head);
    add_bytes(file, body, length);
}

static void put_number(uint8_t *bytes, uint32_t number)
{
    for (int place = 0; place < 4; place++)
        bytes[place] = (uint8_t)(number >> (24 - 8 * place));
}

void add_trade(struct file *file, uint8_t buyer, uint8_t seller, uint32_t quantity, uint32_t price)
{
    uint8_t body[11] = {buyer, seller, 0};
    put_number(body + 3, quantity);
    put_number(body + 7, price);
    add_record(file, 1, body, sizeof body);
}

void add_two_byte_trade(struct file *file, uint16_t buyer, uint16_t seller, uint32_t quantity, uint32_t price)
{
    uint8_t body[13] = {(uint8_t)(buyer >> 8), (uint8_t)buyer, (uint8_t)(seller >> 8), (uint8_t)seller, 0};
    put_number(body + 5, quantity);
    put_number(body + 9, price);
    add_record(file, 10, body, sizeof body);
}

void add_quote(struct file *file, uint32_t bid, uint32_t offer)
{
    uint8_t body[8];
    put_number(body, bid);
    put_number(body + 4, offer);
    add_record(file, 2, body, sizeof body);
}

void add_timed_quote(struct file *file, uint16_t time, uint32_t bid, uint32_t offer)
{
    uint8_t body[10] = {(uint8_t)(time >> 8), (uint8_t)time};
    put_number(body + 2, bid);
    put_number(body + 6, offer);
    add_record(file, 9, body, sizeof body);
}

void add_minute_ends(struct file *file, int count, uint32_t index)
{
    uint8_t body[4];
    put_number(body, index);
    for (int minute = 0; minute < count; minute++)
        add_record(file, 3, body, sizeof body);
}

void add_fix(struct file *file, uint32_t set_price)
{
    uint8_t body[4];
    put_number(body, set_price);
    add_record(file, 6, body, sizeof body);
}

void add_length(struct file *file, uint16_t minutes)
{
    const uint8_t body[2] = {(uint8_t)(minutes >> 8), (uint8_t)minutes};
    add_record(file, 8, body, sizeof body);
}

void add_final_date(struct file *file, uint16_t year, uint8_t month)
{
    const uint8_t body[3] = {(uint8_t)(year >> 8), (uint8_t)year, month};
    add_record(file, 11, body, sizeof body);
}

void add_final_fix(struct file *file, uint32_t hourly)
{
    uint8_t body[4];
    put_number(body, hourly);
    add_record(file, 12, body, sizeof body);
}

void add_close(struct file *file)
{
    add_record(file, 7, NULL, 0);
}
