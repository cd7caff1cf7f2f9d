/* Compares gcv_reduce_color with a plain computation: every red, green and blue, and every palette number, at each
 * depth. The computation has the palette as numbers, and goes over all numbers that may replace a color. It prints the
 * first differences, and the last line is 'N passed, M failed', counted in colors. */
#include <gix_config_value.h>
#include <stdio.h>
#include <string.h>

enum { SHOWN = 10, LEVELS = 6, GRAYS = 24, CUBE = 16, FIRST_GRAY = 232, NUMBERS = 256 };

static const unsigned xterm[CUBE] = {
    0x000000, 0xcd0000, 0x00cd00, 0xcdcd00, 0x0000ee, 0xcd00cd, 0x00cdcd, 0xe5e5e5,
    0x7f7f7f, 0xff0000, 0x00ff00, 0xffff00, 0x5c5cff, 0xff00ff, 0x00ffff, 0xffffff,
};
static const int levels[LEVELS] = {0, 95, 135, 175, 215, 255};
static int palette[NUMBERS][3];
static unsigned long passed, failed;

static void set(int number, int red, int green, int blue) {
    palette[number][0] = red;
    palette[number][1] = green;
    palette[number][2] = blue;
}

static void fill_palette(void) {
    for (int number = 0; number < CUBE; number++)
        set(number, (int)(xterm[number] >> 16), (int)(xterm[number] >> 8 & 255), (int)(xterm[number] & 255));
    int number = CUBE;
    for (int red = 0; red < LEVELS; red++)
        for (int green = 0; green < LEVELS; green++)
            for (int blue = 0; blue < LEVELS; blue++)
                set(number++, levels[red], levels[green], levels[blue]);
    for (int gray = 0; gray < GRAYS; gray++)
        set(FIRST_GRAY + gray, 8 + 10 * gray, 8 + 10 * gray, 8 + 10 * gray);
}

static int nearest(int red, int green, int blue, int first, int last) {
    int found = first, least = 1 << 30;
    for (int number = first; number <= last; number++) {
        const int *is = palette[number];
        int a = is[0] - red, b = is[1] - green, c = is[2] - blue;
        int apart = a * a + b * b + c * c;
        if (apart < least) {
            least = apart;
            found = number;
        }
    }
    return found;
}

/* the color of this foreground, with a background and an attribute that stay */
static gcv_color color_of(gcv_tag tag, int number, int red, int green, int blue) {
    gcv_color color;
    memset(&color, 0, sizeof color);
    color.foreground.tag = tag;
    color.foreground.palette = (uint8_t)number;
    color.foreground.red = (uint8_t)red;
    color.foreground.green = (uint8_t)green;
    color.foreground.blue = (uint8_t)blue;
    color.background.tag = GCV_BRIGHT_RED;
    color.attributes = GCV_BOLD;
    return color;
}

static void expect(gcv_color given, gcv_depth depth, gcv_color wanted) {
    gcv_color out;
    memset(&out, 0xff, sizeof out);
    if (gcv_reduce_color(&given, depth, &out) == GCV_OK && memcmp(&out, &wanted, sizeof out) == 0) {
        passed++;
        return;
    }
    if (failed++ < SHOWN)
        printf("depth %d, tag %d, number %d, #%02x%02x%02x: %d in place of %d\n", (int)depth, (int)given.foreground.tag,
               given.foreground.palette, given.foreground.red, given.foreground.green, given.foreground.blue,
               out.foreground.palette, wanted.foreground.palette);
}

int main(void) {
    fill_palette();
    for (int red = 0; red < NUMBERS; red++)
        for (int green = 0; green < NUMBERS; green++)
            for (int blue = 0; blue < NUMBERS; blue++) {
                gcv_color color = color_of(GCV_RGB, 0, red, green, blue);
                int few = nearest(red, green, blue, 0, CUBE - 1), more = nearest(red, green, blue, CUBE, NUMBERS - 1);
                expect(color, GCV_ANSI16, color_of(GCV_ANSI, few, 0, 0, 0));
                expect(color, GCV_ANSI256, color_of(GCV_ANSI, more, 0, 0, 0));
                expect(color, GCV_TRUE_COLOR, color);
            }
    for (int number = 0; number < NUMBERS; number++) {
        const int *is = palette[number];
        gcv_color color = color_of(GCV_ANSI, number, 0, 0, 0);
        int few = number < CUBE ? number : nearest(is[0], is[1], is[2], 0, CUBE - 1);
        expect(color, GCV_ANSI16, color_of(GCV_ANSI, few, 0, 0, 0));
        expect(color, GCV_ANSI256, color);
        expect(color, GCV_TRUE_COLOR, color);
    }
    printf("%lu passed, %lu failed\n", passed, failed);
    return failed != 0;
}
