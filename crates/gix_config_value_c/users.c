/* The users of this system. It has an object of its own, since a C library may need a name service for it. */
#define _DEFAULT_SOURCE
#include "gix_config_value.h"

#include <pwd.h>
#include <string.h>

const char *gcv_find_user(void *state, const char *name, size_t length)
{
    gcv_user *user = state;
    struct passwd entry, *found = NULL;
    if (length >= sizeof user->name || memchr(name, '\0', length)) {
        return NULL;
    }
    memcpy(user->name, name, length);
    user->name[length] = '\0';
    if (getpwnam_r(user->name, &entry, user->texts, sizeof user->texts, &found) != 0 || !found) {
        return NULL;
    }
    return entry.pw_dir;
}
