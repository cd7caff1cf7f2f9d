/* Says whether output has colors, as `git config --get-colorbool` does, for colored.py: colored FILE KEY IS_TERMINAL */
#include <gix_config_value.h>
#include <stdio.h>
#include <stdlib.h>
#include <string.h>

int main(int count, char **arguments)
{
    const char *names[] = {arguments[count - 3]};
    gcv_settings settings = GCV_NO_SETTINGS;
    gcv_when when = GCV_NEVER;
    gcv_status status = gcv_read_files(&settings, names, 1, NULL, gcv_open_file, NULL);
    if (status == GCV_OK) {
        status = gcv_uses_color(&settings, arguments[count - 2], &when);
    }
    if (status == GCV_OK) {
        int is_terminal = strcmp(arguments[count - 1], "true") == 0;
        puts(gcv_depth_when(when, is_terminal, NULL, getenv("TERM"), NULL) == GCV_NO_COLORS ? "false" : "true");
    }
    gcv_free_settings(&settings);
    return status == GCV_OK ? 0 : 128;
}
