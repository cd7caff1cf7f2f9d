/* Lists what Git reads in the current folder, for compare/here.py: the folder in which Git works, and then the scope,
 * the origin, and the key with its value, each with a NUL. For compare/scopes.py it changes the file of a scope instead:
 * here --SCOPE KEY VALUE */
#include <gix_config_value.h>
#include <stdio.h>
#include <string.h>

/* Changes the file of a scope. */
static int change(const gcv_here *here, const char *option, const char *key, const char *value)
{
    const char *file = NULL;
    for (gcv_scope scope = GCV_SYSTEM; scope < GCV_COMMAND; scope++) {
        if (strcmp(option + 2, gcv_scope_text(scope)) == 0) {
            file = gcv_file_of_scope(here, scope);
        }
    }
    gcv_status status = file ? gcv_set_in_file(file, key, value) : GCV_ABSENT;
    fprintf(stderr, "%s: %s\n", file ? file : "no file", gcv_status_text(status));
    return status == GCV_OK ? 0 : 128;
}

int main(int count, char **words)
{
    gcv_here here;
    gcv_status status = gcv_read_here(NULL, &here);
    if (status == GCV_OK && count == 4) {
        int end = change(&here, words[1], words[2], words[3]);
        gcv_free_here(&here);
        return end;
    }
    if (status == GCV_OK) {
        printf("%s%c", here.found.folder, 0);
    } else {
        fprintf(stderr, "%s:%zu: %s\n", here.settings.file ? here.settings.file : "", here.settings.line, here.why);
    }
    for (size_t at = 0; status == GCV_OK && at < here.settings.count; at++) {
        const gcv_setting *setting = &here.settings.list[at];
        int is_command = strcmp(setting->file, "command line") == 0 && here.scopes[setting->source] == GCV_COMMAND;
        printf("%s%c%s%s%c%s%s%s%c", gcv_scope_text(here.scopes[setting->source]), 0, is_command ? "" : "file:",
               is_command ? "command line:" : setting->file, 0, setting->key, setting->value ? "\n" : "",
               setting->value ? setting->value : "", 0);
    }
    fprintf(stderr, "%s\n", status == GCV_OK && here.found.outcome == GCV_REFUSES ? here.found.reason : "");
    gcv_free_here(&here);
    return status == GCV_OK ? 0 : 128;
}
