/* Tests the calls for paths, over stored calls with known answers: paths FILE.
 *
 * Each line has, between tabs, the value, the install directory, the home directory, what a lookup knows, the flag, the
 * value after the mark, how often the lookup was called, and the text or the error. Every text is written as
 * hexadecimal digits. A lookup becomes a passwd text with a line for each user, and also a call that finds them. */
#include "guarded.h"

enum { LONGEST = 1 << 16 };

static area value_area, install_area, home_area, passwd_area, buffer_area;

typedef struct text {
    char bytes[LONGEST];
    size_t length;
} text;

typedef struct path_call {
    const char *value;
    size_t length;
    gcv_context context;
    uint32_t *fault;
    const char *users;
    size_t users_length;
} path_call;

static unsigned long found;

static gcv_status interpolate(const void *state, char *buffer, size_t capacity, size_t *size)
{
    const path_call *call = (const path_call *)state;
    return gcv_interpolate(call->value, call->length, &call->context, buffer, capacity, size, call->fault);
}

static int digit(char c)
{
    return c <= '9' ? c - '0' : c - 'a' + 10;
}

/* Appends the bytes of these digits to the text. */
static void add_digits(text *to, const char *digits, size_t length)
{
    for (size_t at = 0; at + 1 < length; at += 2) {
        to->bytes[to->length++] = (char)(digit(digits[at]) * 16 + digit(digits[at + 1]));
    }
}

static void add(text *to, const char *more)
{
    memcpy(to->bytes + to->length, more, strlen(more));
    to->length += strlen(more);
}

/* Returns the next field of a line, which may be empty. */
static const char *field(const char **rest, const char *end, char stop, size_t *length)
{
    const char *start = *rest;
    const char *at = start == end ? NULL : (const char *)memchr(start, stop, (size_t)(end - start));
    *length = (size_t)((at ? at : end) - start);
    *rest = at ? at + 1 : end;
    return start;
}

/* Appends the passwd text of a lookup and returns 1, or returns 0 if no passwd text can have these users. */
static int add_users(text *to, const char *users, size_t length)
{
    const char *end = users + length;
    while (users < end) {
        size_t user_length;
        const char *user = field(&users, end, ',', &user_length);
        const char *equals = (const char *)memchr(user, '=', user_length);
        size_t before = to->length;
        add_digits(to, user, (size_t)(equals - user));
        if (memchr(to->bytes + before, ':', to->length - before) || memchr(to->bytes + before, '\n', to->length - before) ||
            memchr(to->bytes + before, '\0', to->length - before)) {
            return 0;
        }
        add(to, ":x:1:1:a user:");
        before = to->length;
        add_digits(to, equals + 1, (size_t)(user + user_length - equals - 1));
        if (memchr(to->bytes + before, ':', to->length - before) || memchr(to->bytes + before, '\n', to->length - before)) {
            return 0;
        }
        add(to, ":/bin/sh\n");
    }
    return 1;
}

/* Returns the home of a user among the users of a call, or null. */
static const char *find(void *state, const char *name, size_t length)
{
    static text user, home;
    const path_call *call = (const path_call *)state;
    const char *rest = call->users;
    const char *end = rest + call->users_length;
    found++;
    while (rest < end) {
        size_t entry_length;
        const char *entry = field(&rest, end, ',', &entry_length);
        const char *equals = (const char *)memchr(entry, '=', entry_length);
        user.length = home.length = 0;
        add_digits(&user, entry, (size_t)(equals - entry));
        if (user.length == length && memcmp(user.bytes, name, length) == 0) {
            add_digits(&home, equals + 1, (size_t)(entry + entry_length - equals - 1));
            home.bytes[home.length] = '\0';
            return home.bytes;
        }
    }
    return NULL;
}

static gcv_status interpolate_with(const void *state, char *buffer, size_t capacity, size_t *size)
{
    path_call call = *(const path_call *)state;
    return gcv_interpolate_with(call.value, call.length, &call.context, call.users[0] == '-' ? NULL : find, &call, buffer,
                                capacity, size, call.fault);
}

/* Makes the call once more, with a function that finds users, and that is called as often as in the stored call. */
static int is_found(path_call *call, const text *wanted, uint32_t fault, unsigned long count)
{
    size_t size = UNTOUCHED;
    uint32_t why = UNTOUCHED;
    call->fault = &why;
    found = 0;
    gcv_status status = call_at(buffer_area, interpolate_with, call, LONGEST, &size);
    HOLDS(found == count);
    HOLDS(status == (wanted ? GCV_OK : GCV_REFUSED) && why == fault);
    HOLDS(wanted ? writes(buffer_area, interpolate_with, call, wanted->bytes, wanted->length)
                 : writes_nothing(buffer_area, interpolate_with, call, GCV_REFUSED));
    return 1;
}

/* Returns the text at the end of a page, even if it is empty, or null if it is not there. */
static const char *given(area place, const text *of, int is_there)
{
    return !is_there ? NULL : of->length == 0 ? (const char *)place.end : lent(place, of->bytes, of->length);
}

static uint32_t fault_of(const char *error, size_t length, const char *place, size_t place_length)
{
    static const char *const errors[] = {"PathMissing", "InstallDirMissing", "HomeMissing", "LookupMissing", "UserNotFound"};
    static const char *const places[] = {"PastPrefix", "PastHome", "Username", "PastUser", "Whole"};
    for (uint32_t at = 0; at < 5; at++) {
        if (strlen(errors[at]) == length && memcmp(errors[at], error, length) == 0) {
            return GCV_FAULT_PATH_MISSING + at;
        }
        if (strlen(places[at]) == place_length && memcmp(places[at], place, place_length) == 0) {
            return GCV_FAULT_ILL_FORMED_PAST_PREFIX + at;
        }
    }
    return UNTOUCHED;
}

static int has_mark(const text *value, const char *lent_value, int is_optional, const text *kept)
{
    uint32_t optional = UNTOUCHED;
    size_t start = UNTOUCHED;
    gcv_cut_mark(lent_value, value->length, &optional, &start);
    HOLDS(optional == (uint32_t)is_optional && start <= value->length);
    HOLDS(value->length - start == kept->length && memcmp(value->bytes + start, kept->bytes, kept->length) == 0);
    return 1;
}

/* Returns whether a call is right, 1 or 0, or 2 if no passwd text can have the users of its lookup. */
static int answers(line asked)
{
    static text value, install_dir, home, passwd, kept, wanted;
    const char *rest = asked.text;
    const char *end = asked.text + asked.length;
    size_t lengths[9];
    const char *fields[9];
    for (int at = 0; at < 9; at++) {
        fields[at] = field(&rest, end, '\t', &lengths[at]);
    }
    int has_install_dir = fields[1][0] != '-';
    int has_home = fields[2][0] != '-';
    int has_passwd = fields[3][0] != '-';
    value.length = install_dir.length = home.length = passwd.length = kept.length = wanted.length = 0;
    add_digits(&value, fields[0], lengths[0]);
    add_digits(&install_dir, fields[1], has_install_dir ? lengths[1] : 0);
    add_digits(&home, fields[2], has_home ? lengths[2] : 0);
    int is_said = !has_passwd || add_users(&passwd, fields[3], lengths[3]);
    add_digits(&kept, fields[5], lengths[5]);
    uint32_t fault = UNTOUCHED;
    path_call call = {lent(value_area, value.bytes, value.length), value.length, {0}, &fault, fields[3], lengths[3]};
    call.context.install_dir = given(install_area, &install_dir, has_install_dir);
    call.context.install_dir_length = install_dir.length;
    call.context.home = given(home_area, &home, has_home);
    call.context.home_length = home.length;
    call.context.passwd = given(passwd_area, &passwd, has_passwd);
    call.context.passwd_length = passwd.length;
    HOLDS(has_mark(&value, call.value, fields[4][0] == '1', &kept));
    int is_ok = lengths[7] == 2 && memcmp(fields[7], "ok", 2) == 0;
    uint32_t why = is_ok ? UNTOUCHED : fault_of(fields[7], lengths[7], fields[8], lengths[8]);
    if (is_ok) {
        add_digits(&wanted, fields[8], lengths[8]);
    } else {
        HOLDS(why != UNTOUCHED);
    }
    HOLDS(is_found(&call, is_ok ? &wanted : NULL, why, (unsigned long)(fields[6][0] - '0')));
    if (!is_said) {
        return 2;
    }
    call.fault = &fault;
    if (is_ok) {
        HOLDS(writes(buffer_area, interpolate, &call, wanted.bytes, wanted.length));
        HOLDS(fault == UNTOUCHED);
    } else {
        HOLDS(writes_nothing(buffer_area, interpolate, &call, GCV_REFUSED));
        HOLDS(fault == why);
        call.fault = NULL;
        HOLDS(writes_nothing(buffer_area, interpolate, &call, GCV_REFUSED));
    }
    return 1;
}

int main(int argc, char **argv)
{
    if (argc != 2) {
        puts("usage: paths FILE");
        return 2;
    }
    size_t length;
    unsigned long left_out = 0;
    char *lines = read_file(argv[1], &length);
    value_area = new_area(LONGEST);
    install_area = new_area(LONGEST);
    home_area = new_area(LONGEST);
    passwd_area = new_area(LONGEST);
    buffer_area = new_area(LONGEST);
    const char *rest = lines;
    line asked;
    while (next_line(&rest, lines + length, &asked)) {
        int holds = answers(asked);
        char row[120];
        snprintf(row, sizeof row, "%.*s", (int)(asked.length > 119 ? 119 : asked.length), asked.text);
        if (holds == 2) {
            left_out++;
        } else {
            count(holds, row);
        }
    }
    if (left_out > 0) {
        printf("left out: %lu calls with a user or a home that no passwd text can name\n", left_out);
    }
    free(lines);
    return finish();
}
