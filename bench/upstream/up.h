/* The calls of the Rust crate gix-config-value 0.21.1 as C functions, to measure them with others in one process.
   A text is passed as a pointer and its length; the pointer is valid even if the length is 0, and is not kept.
   A reader writes the value and returns 1, or writes nothing and returns 0 if it refuses the text. */
#ifndef UP_H
#define UP_H

#include <stddef.h>
#include <stdint.h>

#ifdef __cplusplus
extern "C" {
#endif

/* room for each text that is written */
#define UP_ROOM 128

/* suffix: 0 no suffix, 1 k, 2 m, 3 g */
typedef struct {
    int64_t number;
    uint8_t suffix;
} up_integer;

/* form: 0 normal, 1 default, then from 2 on black, brightblack, red, brightred, green, brightgreen, yellow,
   brightyellow, blue, brightblue, magenta, brightmagenta, cyan, brightcyan, white, 17 brightwhite; 18 a palette number,
   which is numbers[0]; 19 red, green and blue; 255 no name */
typedef struct {
    uint8_t form;
    uint8_t numbers[3];
} up_name;

/* bits: those of the crate's `Attribute` */
typedef struct {
    up_name foreground;
    up_name background;
    uint32_t bits;
} up_color;

uint32_t up_integer_read(const uint8_t *text, size_t length, up_integer *value);
/* the number that an integer text means: `Integer::from_bytes` at 64 bits */
uint32_t up_amount_read(const uint8_t *text, size_t length, int64_t *value);
/* 0 or 1 */
uint32_t up_boolean_read(const uint8_t *text, size_t length, uint8_t *value);
uint32_t up_name_read(const uint8_t *text, size_t length, up_name *value);
uint32_t up_attribute_read(const uint8_t *text, size_t length, uint32_t *value);
uint32_t up_color_read(const uint8_t *text, size_t length, up_color *value);

/* Writes what `Display` shows of a color, and returns its length. */
size_t up_color_show(const up_color *value, uint8_t *text);

/* kind: 1 suffix, 2 integer, 3 amount, 4 boolean, 5 name, 6 attribute, 7 color. Reads the text and writes what
 * `Display` shows of the value, and returns its length, or SIZE_MAX if the text is refused. The crate has no single
 * call for this. */
size_t up_normalize(uint32_t kind, const uint8_t *text, size_t length, uint8_t *shown);

/* Makes a `Path` of the value and interpolates it. The install directory is /usr/lib/git, the home is /home/bob, and
   the lookup knows alice, whose home is /home/alice. Writes the path and returns its length, or SIZE_MAX if the value
   is refused or its path needs more room. */
size_t up_interpolate(const uint8_t *value, size_t length, uint8_t *path);

#ifdef __cplusplus
}
#endif

#endif
