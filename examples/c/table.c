/* Prints a small table in the user's colors, color.table.header and color.table.row, over those of this tool, with as
 * many colors as the terminal has: table FOLDER [always] */
#define _DEFAULT_SOURCE
#include <gix_config_value.h>
#include <stdio.h>
#include <stdlib.h>
#include <unistd.h>

/* Prints a line in the color of a key over another color, whose text is right. */
static void print_line(const gcv_here *here, const char *key, const char *usual, gcv_depth depth, const char *line)
{
    gcv_color base, own, both, shown;
    char escape[GCV_LONGEST_TEXT];
    size_t size = 0;
    const gcv_setting *found = gcv_find_setting(&here->settings, key);
    int is_own = found && gcv_parse_color(found->value, &own, NULL) == GCV_OK;
    if (found && !is_own) {
        fprintf(stderr, "%s:%zu: %s is no color\n", found->file, found->line, key);
    }
    if (depth == GCV_NO_COLORS || gcv_parse_color(usual, &base, NULL) != GCV_OK ||
        gcv_over(&base, is_own ? &own : &base, &both) != GCV_OK || gcv_reduce_color(&both, depth, &shown) != GCV_OK ||
        gcv_escape_color(&shown, escape, sizeof escape, &size) != GCV_OK) {
        puts(line);
        return;
    }
    printf("%.*s%s\033[m\n", (int)size, escape, line);
}

int main(int count, char **arguments)
{
    gcv_here here;
    gcv_when when = count > 2 ? GCV_ALWAYS : GCV_AUTO;
    gcv_status status = gcv_read_here(count > 1 ? arguments[1] : NULL, &here);
    if (status == GCV_OK && count < 3 && gcv_uses_color(&here.settings, "color.table", &when) != GCV_OK) {
        fprintf(stderr, "color.table or color.ui says not when there are colors\n");
    }
    gcv_depth depth = gcv_depth_when(when, isatty(1), getenv("NO_COLOR"), getenv("TERM"), getenv("COLORTERM"));
    if (status != GCV_OK) {
        fprintf(stderr, "%s: %s\n", here.settings.file ? here.settings.file : "", here.why);
    } else {
        print_line(&here, "color.table.header", "bold blue", depth, "branch  commit");
        print_line(&here, "color.table.row", "", depth, here.found.branch ? here.found.branch : "no branch");
    }
    gcv_free_here(&here);
    return status == GCV_OK ? 0 : 1;
}
