/* Prints six of the settings that Git reads in a folder, each with its scope, its file and its line. With a name it sets
 * user.name of the repository: six_settings FOLDER [NAME] */
#include <gix_config_value.h>
#include <stdio.h>

int main(int count, char **arguments)
{
    static const char *const keys[] = {"core.bare",    "core.editor", "user.name",
                                       "push.default", "pull.rebase", "remote.origin.url"};
    gcv_here here;
    gcv_status status = gcv_read_here(count > 1 ? arguments[1] : NULL, &here);
    for (size_t at = 0; status == GCV_OK && at < sizeof keys / sizeof keys[0]; at++) {
        const gcv_setting *found = gcv_find_setting(&here.settings, keys[at]);
        if (found) {
            printf("%s\t%s:%zu\t", gcv_scope_text(here.scopes[found->source]), found->file, found->line);
        }
        printf("%s %s%s\n", keys[at], found ? "= " : "is not set", !found ? "" : found->value ? found->value : "true");
    }
    if (status != GCV_OK) {
        fprintf(stderr, "%s:%zu: %s\n", here.settings.file ? here.settings.file : "", here.settings.line, here.why);
    } else if (count > 2) {
        const char *own = gcv_file_of_scope(&here, GCV_LOCAL);
        status = own ? gcv_set_in_file(own, "user.name", arguments[2]) : GCV_ABSENT;
    }
    gcv_free_here(&here);
    return status == GCV_OK ? 0 : 1;
}
