/* Lists a file and what it includes as Git does, for compare/config_file.py: listed FILE. Conditions are about this
 * repository. */
#define _DEFAULT_SOURCE
#include <gix_config_value.h>
#include <stdio.h>
#include <stdlib.h>
#include <string.h>
#include <unistd.h>

int main(int count, char **arguments)
{
    static const char ref[] = "ref: refs/heads/";
    static char git_dir[4096];
    const char *home = getenv("HOME"), *names[] = {arguments[count - 1]};
    char *real_home = home ? realpath(home, NULL) : NULL;
    gcv_known known = {NULL, 0, home, home ? strlen(home) : 0, real_home, real_home ? strlen(real_home) : 0,
                       NULL, 0, NULL, 0, NULL, 0, NULL, 0, 0};
    gcv_file head = {NULL, 0, NULL};
    gcv_settings settings = GCV_NO_SETTINGS;
    if (gcv_open_file(NULL, ".git/HEAD", &head) == GCV_OK && getcwd(git_dir, sizeof git_dir - 5)) {
        known.git_dir = strcat(git_dir, "/.git");
        known.git_dir_length = strlen(git_dir);
        known.real_git_dir = head.real_dir;
        known.real_git_dir_length = strlen(head.real_dir);
        known.branch_length = head.length > sizeof ref ? head.length - sizeof ref : 0;
        if (known.branch_length > 0 && memcmp(head.text, ref, sizeof ref - 1) == 0) {
            int is_none = known.branch_length == 8 && memcmp(head.text + sizeof ref - 1, ".invalid", 8) == 0;
            known.branch = is_none ? NULL : head.text + sizeof ref - 1;
        }
    }
    gcv_status status = gcv_read_files(&settings, names, 1, &known, gcv_open_file, NULL);
    for (size_t at = 0; at < settings.count; at++) {
        const gcv_setting *setting = &settings.list[at];
        printf("file:%s%c%s%s%s%c", setting->file, 0, setting->key, setting->value ? "\n" : "",
               setting->value ? setting->value : "", 0);
    }
    if (status != GCV_OK) {
        fprintf(stderr, "fatal: bad config line %zu in file %s: %s\n", settings.line, settings.file,
                status == GCV_TOO_DEEP ? "too deep" : gcv_status_text(status));
    }
    gcv_free_settings(&settings);
    free(head.text);
    free(head.real_dir);
    free(real_home);
    return status == GCV_OK ? 0 : 128;
}
