// The silence book: fields of 13 and of 15 bytes, read in place.
#ifndef BOOK_H
#define BOOK_H

#include <stdbool.h>
#include <stddef.h>
#include <stdint.h>

enum {
    MOST_BOOK = 15000,   // "5 at 15,000 bytes"
    HEAD_LENGTH = 3,     // "one-byte tag, two-byte length"
    OLD_TAG = 0x21,
    SILENCE_TAG = 0x22,
    ADDRESS_LENGTH = 10, // "the old ten bytes and a two-byte distance"
    CEILING_LENGTH = 2,
};

struct book {
    const uint8_t *bytes;
    size_t length;
};

struct address {
    uint32_t cell;
    uint16_t ring_number;
    uint32_t start;
};

// A field and the byte offset just past it. `there` is false where no whole field of a silence stands. The old tag has the
// ceiling 0.
struct field {
    bool there;
    struct address address;
    size_t ceiling;
    size_t next;
};

// "Numbers high byte first."
static uint32_t number_at(const uint8_t *bytes, size_t count)
{
    uint32_t number = 0;
    for (size_t done = 0; done < count; done++)
        number = number << 8 | bytes[done];
    return number;
}

// The bytes of the value that a tag goes with, or 0 for any other tag.
static size_t value_length(uint8_t tag)
{
    if (tag == SILENCE_TAG)
        return ADDRESS_LENGTH + CEILING_LENGTH;
    return tag == OLD_TAG ? ADDRESS_LENGTH : 0;
}

static struct field field_at(struct book book, size_t at)
{
    struct field none = {false, {0, 0, 0}, 0, 0};
    if (book.length <= at || book.length - at < HEAD_LENGTH + ADDRESS_LENGTH)
        return none;
    const uint8_t *bytes = book.bytes + at;
    size_t length = value_length(bytes[0]);
    if (length == 0 || number_at(bytes + 1, 2) != length || book.length - at < HEAD_LENGTH + length)
        return none;
    const uint8_t *value = bytes + HEAD_LENGTH;
    struct address address = {number_at(value, 4), (uint16_t)number_at(value + 4, 2), number_at(value + 6, 4)};
    size_t ceiling = number_at(value + ADDRESS_LENGTH, length - ADDRESS_LENGTH);
    return (struct field){true, address, ceiling, at + HEAD_LENGTH + length};
}

// "By cell, then ring number, then start."
static bool is_below(struct address a, struct address b)
{
    if (a.cell != b.cell)
        return a.cell < b.cell;
    if (a.ring_number != b.ring_number)
        return a.ring_number < b.ring_number;
    return a.start < b.start;
}

static bool is_same(struct address a, struct address b)
{
    return a.cell == b.cell && a.ring_number == b.ring_number && a.start == b.start;
}

// Refusal 5, 6 or 7 of a book and its place, or 0.
static size_t read_book(struct book book, size_t *place)
{
    *place = 0;
    if (book.length > MOST_BOOK)
        return 5;
    struct field last = {false, {0, 0, 0}, 0, 0};
    for (size_t at = 0; at < book.length; at = last.next) {
        struct field field = field_at(book, at);
        *place = at;
        if (!field.there)
            return 6;
        if (last.there && !is_below(last.address, field.address))
            return 7;
        last = field;
    }
    *place = 0;
    return 0;
}

// Holds the first field from byte offset `at` on that is not below the address.
static void seek(struct book book, struct field *held, size_t at, struct address address)
{
    *held = field_at(book, at);
    while (held->there && is_below(held->address, address))
        *held = field_at(book, held->next);
}

// Whether the book hides a finding at the address: "only up to that distance". The caller asks for rising addresses and keeps the
// field held, so no field is read twice.
static bool ask(struct book book, struct field *held, struct address address, size_t distance)
{
    if (held->there && is_below(held->address, address))
        seek(book, held, held->next, address);
    return held->there && is_same(held->address, address) && distance <= held->ceiling;
}

#endif
