/* Checks a value: check KIND TEXT
 *
 * Prints the canonical text of a value of this kind, or why the text has no value. */
#include <gix_config_value.h>
#include <stdio.h>
#include <string.h>

/* Returns why the reader of the kind refuses a text. */
static gcv_fault fault_of(gcv_kind kind, const char *text)
{
    gcv_fault fault = GCV_FAULT_NONE;
    gcv_status status = GCV_OK;
    uint32_t number;
    int64_t amount;
    gcv_integer integer;
    gcv_color color;
    switch (kind) {
    case GCV_INTEGER:
        status = gcv_read_integer(text, strlen(text), &integer, &fault);
        break;
    case GCV_AMOUNT:
        status = gcv_read_amount(text, strlen(text), &amount, &fault);
        break;
    case GCV_BOOLEAN:
        status = gcv_read_boolean(text, strlen(text), &number, &fault);
        break;
    default:
        status = gcv_read_color(text, strlen(text), &color, &fault);
        break;
    }
    if (status != GCV_REFUSED) {
        fprintf(stderr, "%s\n", gcv_status_text(status));
    }
    return fault;
}

int main(int argc, char **argv)
{
    static const char *const names[] = {"integer", "amount", "boolean", "color"};
    static const gcv_kind kinds[] = {GCV_INTEGER, GCV_AMOUNT, GCV_BOOLEAN, GCV_COLOR};
    char text[GCV_LONGEST_TEXT];
    size_t size = 0;
    size_t at = 0;
    while (argc == 3 && at < 4 && strcmp(argv[1], names[at]) != 0) {
        at++;
    }
    if (argc != 3 || at == 4) {
        fprintf(stderr, "usage: %s integer|amount|boolean|color TEXT\n", argv[0]);
        return 2;
    }
    if (gcv_normalize(kinds[at], argv[2], strlen(argv[2]), text, sizeof text, &size) == GCV_OK) {
        printf("%.*s\n", (int)size, text);
        return 0;
    }
    if (gcv_fault_text(fault_of(kinds[at], argv[2]), text, sizeof text, &size) == GCV_OK) {
        printf("refused: %.*s\n", (int)size, text);
    }
    return 1;
}
