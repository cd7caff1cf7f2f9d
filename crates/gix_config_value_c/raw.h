/* The calls that are proved, which calls.c makes of the calls of the header. No pointer may be null, even if the length
 * is 0. A search that a call is given is one that has begun and has not ended, but gcv_raw_begin_search takes any.
 * tests/header.py compares this file with the sources. */
#ifndef GCV_RAW_H
#define GCV_RAW_H

#include "gix_config_value.h"

/* The edits of gcv_raw_edit, of which those that take one text leave the second alone. */
typedef GCV_ENUM(gcv_edit) {
    GCV_EDIT_SET = 0, GCV_EDIT_REPLACE_ALL = 1, GCV_EDIT_ADD = 2, GCV_EDIT_UNSET = 3, GCV_EDIT_UNSET_ALL = 4,
    GCV_EDIT_RENAME_SECTION = 5, GCV_EDIT_REMOVE_SECTION = 6
} gcv_edit;

/* What a walk takes for a gcv_known. */
typedef struct gcv_raw_known {
    const char *install_dir;
    size_t install_dir_length;
    const char *home;
    size_t home_length;
    const char *real_home;
    size_t real_home_length;
    const char *git_dir;
    size_t git_dir_length;
    const char *real_git_dir;
    size_t real_git_dir_length;
    const char *branch;
    size_t branch_length;
    const gcv_text *urls;
    size_t urls_length;
    uint32_t has_install_dir;
    uint32_t has_home;
    uint32_t has_real_home;
    uint32_t has_repository;
    uint32_t has_branch;
    uint32_t follows;
    uint32_t seeks_urls;
} gcv_raw_known;

/* What a walk writes of a step. */
typedef struct gcv_raw_step {
    const char *name;
    size_t name_length;
    size_t line;
    size_t value;
    size_t included;
    size_t size;
    uint32_t has_value;
    gcv_status include;
    gcv_role role;
} gcv_raw_step;

/* What gcv_raw_continue_search writes. A text is the place in the buffer at which it begins. */
typedef struct gcv_raw_found {
    size_t folder;
    size_t git_dir;
    size_t real_git_dir;
    size_t branch;
    size_t file;
    size_t reason;
    size_t files;
    size_t count;
    size_t of_scopes;
    size_t scope_count;
    size_t line;
    size_t size;
    gcv_subject subject;
    gcv_outcome outcome;
    uint32_t kind;
    uint32_t has_branch;
} gcv_raw_found;

/* The library expects this layout. */
#define GCV_ASSERT(fact) extern const char gcv_asserted[(fact) ? 1 : -1]
GCV_ASSERT(sizeof(gcv_status) == 4 && sizeof(gcv_kind) == 4 && sizeof(gcv_fault) == 4 && sizeof(gcv_role) == 4);
GCV_ASSERT(offsetof(gcv_integer, value) == 0);
GCV_ASSERT(offsetof(gcv_integer, suffix) == 8);
GCV_ASSERT(sizeof(gcv_integer) == 16);
GCV_ASSERT(offsetof(gcv_name, tag) == 0);
GCV_ASSERT(offsetof(gcv_name, palette) == 4);
GCV_ASSERT(offsetof(gcv_name, red) == 5);
GCV_ASSERT(offsetof(gcv_name, green) == 6);
GCV_ASSERT(offsetof(gcv_name, blue) == 7);
GCV_ASSERT(sizeof(gcv_name) == 8);
GCV_ASSERT(offsetof(gcv_color, foreground) == 0);
GCV_ASSERT(offsetof(gcv_color, background) == 8);
GCV_ASSERT(offsetof(gcv_color, attributes) == 16);
GCV_ASSERT(sizeof(gcv_color) == 20);
GCV_ASSERT(offsetof(gcv_frame, name) == 0);
GCV_ASSERT(offsetof(gcv_frame, name_length) == 8);
GCV_ASSERT(offsetof(gcv_frame, real_dir) == 16);
GCV_ASSERT(offsetof(gcv_frame, real_dir_length) == 24);
GCV_ASSERT(offsetof(gcv_frame, section) == 32);
GCV_ASSERT(offsetof(gcv_frame, section_length) == 40);
GCV_ASSERT(offsetof(gcv_frame, subsection) == 48);
GCV_ASSERT(offsetof(gcv_frame, subsection_length) == 56);
GCV_ASSERT(offsetof(gcv_frame, rest) == 64);
GCV_ASSERT(offsetof(gcv_frame, rest_length) == 72);
GCV_ASSERT(offsetof(gcv_frame, line) == 80);
GCV_ASSERT(offsetof(gcv_frame, parts) == 88);
GCV_ASSERT(offsetof(gcv_frame, forbids_urls) == 92);
GCV_ASSERT(sizeof(gcv_frame) == 96);
GCV_ASSERT(offsetof(gcv_text, bytes) == 0);
GCV_ASSERT(offsetof(gcv_text, length) == 8);
GCV_ASSERT(sizeof(gcv_text) == 16);
GCV_ASSERT(offsetof(gcv_raw_known, install_dir) == 0);
GCV_ASSERT(offsetof(gcv_raw_known, install_dir_length) == 8);
GCV_ASSERT(offsetof(gcv_raw_known, home) == 16);
GCV_ASSERT(offsetof(gcv_raw_known, home_length) == 24);
GCV_ASSERT(offsetof(gcv_raw_known, real_home) == 32);
GCV_ASSERT(offsetof(gcv_raw_known, real_home_length) == 40);
GCV_ASSERT(offsetof(gcv_raw_known, git_dir) == 48);
GCV_ASSERT(offsetof(gcv_raw_known, git_dir_length) == 56);
GCV_ASSERT(offsetof(gcv_raw_known, real_git_dir) == 64);
GCV_ASSERT(offsetof(gcv_raw_known, real_git_dir_length) == 72);
GCV_ASSERT(offsetof(gcv_raw_known, branch) == 80);
GCV_ASSERT(offsetof(gcv_raw_known, branch_length) == 88);
GCV_ASSERT(offsetof(gcv_raw_known, urls) == 96);
GCV_ASSERT(offsetof(gcv_raw_known, urls_length) == 104);
GCV_ASSERT(offsetof(gcv_raw_known, has_install_dir) == 112);
GCV_ASSERT(offsetof(gcv_raw_known, has_home) == 116);
GCV_ASSERT(offsetof(gcv_raw_known, has_real_home) == 120);
GCV_ASSERT(offsetof(gcv_raw_known, has_repository) == 124);
GCV_ASSERT(offsetof(gcv_raw_known, has_branch) == 128);
GCV_ASSERT(offsetof(gcv_raw_known, follows) == 132);
GCV_ASSERT(offsetof(gcv_raw_known, seeks_urls) == 136);
GCV_ASSERT(sizeof(gcv_raw_known) == 144);
GCV_ASSERT(offsetof(gcv_raw_step, name) == 0);
GCV_ASSERT(offsetof(gcv_raw_step, name_length) == 8);
GCV_ASSERT(offsetof(gcv_raw_step, line) == 16);
GCV_ASSERT(offsetof(gcv_raw_step, value) == 24);
GCV_ASSERT(offsetof(gcv_raw_step, included) == 32);
GCV_ASSERT(offsetof(gcv_raw_step, size) == 40);
GCV_ASSERT(offsetof(gcv_raw_step, has_value) == 48);
GCV_ASSERT(offsetof(gcv_raw_step, include) == 52);
GCV_ASSERT(offsetof(gcv_raw_step, role) == 56);
GCV_ASSERT(sizeof(gcv_raw_step) == 64);
GCV_ASSERT(offsetof(gcv_fact, name) == 0);
GCV_ASSERT(offsetof(gcv_fact, name_length) == 8);
GCV_ASSERT(offsetof(gcv_fact, text) == 16);
GCV_ASSERT(offsetof(gcv_fact, text_length) == 24);
GCV_ASSERT(offsetof(gcv_fact, subject) == 32);
GCV_ASSERT(offsetof(gcv_fact, has) == 36);
GCV_ASSERT(sizeof(gcv_fact) == 40);
GCV_ASSERT(offsetof(gcv_search, memory) == 0);
GCV_ASSERT(sizeof(gcv_search) == 8);
GCV_ASSERT(offsetof(gcv_raw_found, folder) == 0);
GCV_ASSERT(offsetof(gcv_raw_found, git_dir) == 8);
GCV_ASSERT(offsetof(gcv_raw_found, real_git_dir) == 16);
GCV_ASSERT(offsetof(gcv_raw_found, branch) == 24);
GCV_ASSERT(offsetof(gcv_raw_found, file) == 32);
GCV_ASSERT(offsetof(gcv_raw_found, reason) == 40);
GCV_ASSERT(offsetof(gcv_raw_found, files) == 48);
GCV_ASSERT(offsetof(gcv_raw_found, count) == 56);
GCV_ASSERT(offsetof(gcv_raw_found, of_scopes) == 64);
GCV_ASSERT(offsetof(gcv_raw_found, scope_count) == 72);
GCV_ASSERT(offsetof(gcv_raw_found, line) == 80);
GCV_ASSERT(offsetof(gcv_raw_found, size) == 88);
GCV_ASSERT(offsetof(gcv_raw_found, subject) == 96);
GCV_ASSERT(offsetof(gcv_raw_found, outcome) == 100);
GCV_ASSERT(offsetof(gcv_raw_found, kind) == 104);
GCV_ASSERT(offsetof(gcv_raw_found, has_branch) == 108);
GCV_ASSERT(sizeof(gcv_raw_found) == 112);
#undef GCV_ASSERT

gcv_status gcv_raw_read_suffix(const char *text, size_t length, gcv_suffix *out, gcv_fault *fault);
gcv_status gcv_raw_read_integer(const char *text, size_t length, gcv_integer *out, gcv_fault *fault);
gcv_status gcv_raw_read_amount(const char *text, size_t length, int64_t *out, gcv_fault *fault);
gcv_status gcv_raw_read_boolean(const char *text, size_t length, uint32_t *out, gcv_fault *fault);
gcv_status gcv_raw_read_name(const char *text, size_t length, gcv_name *out, gcv_fault *fault);
gcv_status gcv_raw_read_attribute(const char *text, size_t length, uint32_t *out, gcv_fault *fault);
gcv_status gcv_raw_read_color(const char *text, size_t length, gcv_color *out, gcv_fault *fault);
gcv_status gcv_raw_product(const gcv_integer *value, int64_t *out);
gcv_status gcv_raw_show_suffix(gcv_suffix suffix, char *buffer, size_t capacity, size_t *size);
gcv_status gcv_raw_show_integer(const gcv_integer *value, char *buffer, size_t capacity, size_t *size);
gcv_status gcv_raw_show_amount(int64_t value, char *buffer, size_t capacity, size_t *size);
gcv_status gcv_raw_show_boolean(uint32_t value, char *buffer, size_t capacity, size_t *size);
gcv_status gcv_raw_show_name(const gcv_name *value, char *buffer, size_t capacity, size_t *size);
gcv_status gcv_raw_show_attribute(uint32_t bits, char *buffer, size_t capacity, size_t *size);
gcv_status gcv_raw_show_color(const gcv_color *value, char *buffer, size_t capacity, size_t *size);
gcv_status gcv_raw_escape_color(const gcv_color *value, char *buffer, size_t capacity, size_t *size);
gcv_status gcv_raw_normalize(gcv_kind kind, const char *text, size_t length, char *buffer, size_t capacity,
                             size_t *size);
gcv_status gcv_raw_same(gcv_kind kind, const char *first, size_t first_length, const char *second, size_t second_length,
                        uint32_t *out);
gcv_status gcv_raw_compose(const gcv_color *first, const gcv_color *second, gcv_color *out);
gcv_status gcv_raw_over(const gcv_color *base, const gcv_color *top, gcv_color *out);
gcv_status gcv_raw_reduce_color(const gcv_color *value, gcv_depth depth, gcv_color *out);
gcv_status gcv_raw_terminal_depth(uint32_t is_terminal, uint32_t has_no_color, const char *no_color,
                                   size_t no_color_length, uint32_t has_term, const char *term, size_t term_length,
                                   uint32_t has_colorterm, const char *colorterm, size_t colorterm_length,
                                   gcv_depth *out);
gcv_status gcv_raw_enter(size_t *count, gcv_frame *frame, const char *name, size_t name_length, const char *real_dir,
                         size_t real_dir_length, const char *text, size_t length);
gcv_status gcv_raw_next(gcv_frame *frames, size_t frames_count, size_t *count, const gcv_raw_known *known, char *buffer,
                        size_t capacity, gcv_raw_step *out);
gcv_status gcv_raw_next_plain(gcv_frame *frame, const gcv_raw_known *known, char *buffer, size_t capacity,
                              gcv_raw_step *steps, size_t steps_count, size_t *count);
gcv_status gcv_raw_begin_search(const char *folder, size_t folder_length, gcv_search *out);
gcv_status gcv_raw_tell_fact(gcv_search *search, const gcv_fact *fact);
gcv_status gcv_raw_continue_search(gcv_search *search, char *buffer, size_t capacity, gcv_raw_found *out);
void gcv_raw_end_search(gcv_search *search);
gcv_status gcv_raw_list_key(const char *key, size_t length, char *buffer, size_t capacity, size_t *size);
gcv_status gcv_raw_command_setting(const char *key, size_t key_length, const char *value, size_t value_length,
                                   char *buffer, size_t capacity, size_t *size);
gcv_status gcv_raw_command_parameters(const char *parameters, size_t parameters_length, char *buffer, size_t capacity,
                                      size_t *size);
gcv_status gcv_raw_command_count(const char *text, size_t length, size_t *count);
gcv_status gcv_raw_edit(gcv_edit edit, const char *text, size_t length, const char *first, size_t first_length,
                        const char *second, size_t second_length, char *buffer, size_t capacity, size_t *size,
                        size_t *line);
void gcv_raw_cut_mark(const char *text, size_t length, uint32_t *optional, size_t *start);
gcv_status gcv_raw_interpolate(const char *text, size_t length, uint32_t has_install_dir, const char *install_dir,
                               size_t install_dir_length, uint32_t has_home, const char *home, size_t home_length,
                               uint32_t has_passwd, const char *passwd, size_t passwd_length, char *buffer,
                               size_t capacity, size_t *size, gcv_fault *fault);
gcv_status gcv_raw_fault_text(gcv_fault fault, char *buffer, size_t capacity, size_t *size);

#endif
