/* Readers of the same values in plain C, about which nothing is proved: the limit that the library is compared with.
   They tell no fault and check no buffer. A reader returns 1 and writes the value, or 0 if it refuses the text. */
#ifndef LIMIT_H
#define LIMIT_H

#include "gix_config_value.h"

/* room for each text that is written, some of which is written past its end */
#define LIMIT_ROOM 160

/* Makes the table of the words. It must be called once, before the others. */
void limit_prepare(void);

int limit_integer(const char *text, size_t length, gcv_integer *value);
int limit_amount(const char *text, size_t length, int64_t *value);
int limit_boolean(const char *text, size_t length, uint32_t *value);
int limit_name(const char *text, size_t length, gcv_name *value);
int limit_attribute(const char *text, size_t length, uint32_t *bits);
int limit_color(const char *text, size_t length, gcv_color *value);

/* Writes the text of a color, and returns its length. */
size_t limit_show_color(const gcv_color *value, char *text);

#endif
