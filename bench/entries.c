/* entries FILE: counts the entries of a configuration file without making them, and assumes that it is valid. This is
   about as fast as reading a file can be. */
#include <stdio.h>
#include <stdlib.h>

/* Returns the place after a value, which ends with its line, unless a backslash precedes the end of the line. */
static const char *past_value(const char *at)
{
    for (int quoted = 0; *at != '\n'; at++) {
        if (*at == '"')
            quoted = !quoted;
        else if (*at == '\\')
            at++;
        else if (!quoted && (*at == '#' || *at == ';'))
            while (at[1] != '\n')
                at++;
    }
    return at + 1;
}

static const char *past_header(const char *at)
{
    for (int quoted = 0; *at != ']' || quoted; at++) {
        if (*at == '"')
            quoted = !quoted;
        else if (*at == '\\')
            at++;
    }
    return at + 1;
}

int main(int count, char **arguments)
{
    FILE *file = count == 2 ? fopen(arguments[1], "rb") : NULL;
    if (!file || fseek(file, 0, SEEK_END) < 0)
        return 2;
    size_t length = (size_t)ftell(file), entries = 0;
    char *text = malloc(length + 2);
    rewind(file);
    if (!text || fread(text, 1, length, file) != length)
        return 2;
    text[length] = '\n';
    for (const char *at = text, *end = text + length; at < end;) {
        if (*at == ' ' || *at == '\t' || *at == '\r' || *at == '\n') {
            at++;
        } else if (*at == '[') {
            at = past_header(at);
        } else {
            entries += *at != '#' && *at != ';';
            at = past_value(at);
        }
    }
    printf("%zu\n", entries);
    return 0;
}
