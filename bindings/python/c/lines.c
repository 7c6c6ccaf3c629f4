/* SPDX-License-Identifier: Apache-2.0 OR MIT */
/* Keeps the line of a call: the library makes it and packs it. Only lines that are added up, and the two lines of a gauge below 0,
 * are texts of the packer first. */
#include "core.h"

enum { SPARE = 64 };

static bool has_room(packer *self, size_t room) {
    if (room <= self->line_room) return true;
    uint8_t *line = PyMem_Realloc(self->line, room + SPARE);
    if (line == NULL) return false;
    self->line = line;
    self->line_room = room + SPARE;
    return true;
}

/* Lends the room of the library's heap to a call that frees all memory that it requests, until 0 is written to the place that
 * it returns. It is a function of that heap. */
size_t *cadence_c_lend(void);

/* Writes the line of a call into `out`. */
static uint32_t write_line(const cadence_settings *settings, const call *c, uint8_t *out, size_t room, size_t *len) {
    const values_of_call *const values = &c->values;
    if (c->text != NULL)
        return cadence_format_member(settings, c->key, c->key_len, c->text, c->text_len, &c->options, out, room, len);
    switch (values->type) {
    case WHOLE:
        return cadence_format_signed(settings, c->kind, c->key, c->key_len, &values->at->mantissa, 1, &c->options, out, room, len);
    case LARGE:
        return cadence_format_unsigned(settings, c->kind, c->key, c->key_len, &values->large, 1, &c->options, out, room, len);
    case FLOAT:
        return cadence_format_floating(settings, c->kind, c->key, c->key_len, &values->number, 1, &c->options, out, room, len);
    default:
        return cadence_format_decimal(settings, c->kind, c->key, c->key_len, values->at, values->len, &c->options, out, room, len);
    }
}

/* Keeps the line of a call, which the library makes in its own room. */
static uint32_t keep_line(cadence_handle *handle, const cadence_settings *settings, const call *c) {
    const values_of_call *const values = &c->values;
    if (c->text != NULL) return cadence_member(handle, settings, c->key, c->key_len, c->text, c->text_len, &c->options);
    switch (values->type) {
    case WHOLE: return cadence_signed(handle, settings, c->kind, c->key, c->key_len, &values->at->mantissa, 1, &c->options);
    case LARGE: return cadence_unsigned(handle, settings, c->kind, c->key, c->key_len, &values->large, 1, &c->options);
    case FLOAT: return cadence_floating(handle, settings, c->kind, c->key, c->key_len, &values->number, 1, &c->options);
    default: return cadence_decimal(handle, settings, c->kind, c->key, c->key_len, values->at, values->len, &c->options);
    }
}

/* Appends the line of a call to the text in self->line. */
static uint32_t put_line(packer *self, const call *c) {
    for (;;) {
        size_t len = 0;
        size_t *const lent = cadence_c_lend();
        const uint32_t status = write_line(&self->settings, c, self->line + self->line_len, self->line_room - self->line_len, &len);
        *lent = 0;
        if (status == CADENCE_OK) self->line_len += len;
        if (status != CADENCE_TOO_SMALL) return status;
        if (!has_room(self, self->line_len + len)) return CADENCE_NO_MEMORY;
    }
}

/* Puts the line that sets a gauge to 0, before one that sets it to a value below 0. A server reads a value with a sign as a
 * change of the gauge. Neither line has a rate. Both are kept as one text, with a newline between them, so they are in one
 * packet, unless they are added up. */
static uint32_t put_zero(packer *self, call *c) {
    const int64_t mantissa = c->values.at->mantissa;
    const int type = c->values.type;
    c->options.rated = false;
    c->values.type = WHOLE;
    c->values.at->mantissa = 0;
    uint32_t status = put_line(self, c);
    c->values.type = type;
    c->values.at->mantissa = mantissa;
    if (status != CADENCE_OK) return status;
    if (!self->sums.used) {
        if (!has_room(self, self->line_len + 1)) return CADENCE_NO_MEMORY;
        self->line[self->line_len++] = '\n';
        return CADENCE_OK;
    }
    status = sums_line(&self->sums, &self->handle, self->line, self->line_len);
    self->line_len = 0;
    return status;
}

/* Returns whether the value of a call is below 0. A float that is printed as 0 is a decimal here. */
static bool is_below(const values_of_call *values) {
    if (values->len != 1 || values->type == LARGE) return false;
    return values->type == FLOAT ? values->number < 0 : values->at->mantissa < 0;
}

uint32_t keep(packer *self, call *c) {
    const bool below = c->form == LEVEL && is_below(&c->values);
    if (!below && !self->sums.used) return keep_line(&self->handle, &self->settings, c);
    self->line_len = 0;
    uint32_t status = below ? put_zero(self, c) : CADENCE_OK;
    if (status == CADENCE_OK) status = put_line(self, c);
    return status != CADENCE_OK ? status : sums_line(&self->sums, &self->handle, self->line, self->line_len);
}
