/* Previews a theme's color: theme STYLE [OVERRIDE]
 *
 * Prints the canonical text of the style, and on a terminal a sample of it. With an override, a name of it replaces that
 * of the style, and an attribute its opposite, as a user's color does over the default of a theme. */
#include <gix_config_value.h>
#include <stdio.h>
#include <stdlib.h>
#include <string.h>
#include <unistd.h>

static int read_style(const char *text, gcv_color *style)
{
    if (gcv_read_color(text, strlen(text), style, NULL) != GCV_OK) {
        fprintf(stderr, "no style: %s\n", text);
        return 0;
    }
    return 1;
}

/* Prints a sample in the colors that the terminal has. */
static int print_sample(const gcv_color *style, gcv_depth depth)
{
    gcv_color reduced;
    char sequence[GCV_LONGEST_TEXT];
    size_t size = 0;
    if (gcv_reduce_color(style, depth, &reduced) != GCV_OK ||
        gcv_escape_color(&reduced, sequence, sizeof sequence, &size) != GCV_OK) {
        return 1;
    }
    printf("  %.*ssample\033[m", (int)size, sequence);
    return 0;
}

int main(int argc, char **argv)
{
    gcv_color style;
    gcv_color override;
    gcv_color both;
    char text[GCV_LONGEST_TEXT];
    size_t size = 0;
    gcv_depth depth = gcv_terminal_depth(isatty(1), getenv("NO_COLOR"), getenv("TERM"), getenv("COLORTERM"));
    if (argc != 2 && argc != 3) {
        fprintf(stderr, "usage: %s STYLE [OVERRIDE]\n", argv[0]);
        return 2;
    }
    if (!read_style(argv[1], &style)) {
        return 1;
    }
    if (argc == 3) {
        if (!read_style(argv[2], &override) || gcv_over(&style, &override, &both) != GCV_OK) {
            return 1;
        }
        style = both;
    }
    if (gcv_show_color(&style, text, sizeof text, &size) != GCV_OK) {
        return 1;
    }
    printf("%.*s", (int)size, text);
    if (depth != GCV_NO_COLORS && print_sample(&style, depth) != 0) {
        return 1;
    }
    printf("\n");
    return 0;
}
