/* What settings.c asks of calls.c besides the calls of the header. */
#ifndef GCV_PLAIN_H
#define GCV_PLAIN_H

#include "gix_config_value.h"

/* How many entries are taken at once at most. */
enum { MOST_PLAIN = 64 };

/* Does what gcv_next does for the entries that come next in the file that the walk is in, as long as they include no file
 * and the buffer has room, and puts the number of them into `count`. It does not look for URLs that are forbidden. */
gcv_status next_plain(gcv_walk *walk, const gcv_known *known, char *buffer, size_t capacity, gcv_step *steps,
                      size_t *count);

#endif
