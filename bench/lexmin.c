/* isl's parametric lexmin of the set in the first line; then for each further line, of values of its parameters in order, the point there.
   With a word: isl's version. bench/peers uses it. */
#include <isl/ctx.h>
#include <isl/options.h>
#include <isl/point.h>
#include <isl/set.h>
#include <isl/aff.h>
#include <isl/val.h>
#include <isl/version.h>
#include <stdio.h>
#include <stdlib.h>
#include <string.h>

/* The coordinates of a point of a set, or `none` where it has no point. */
static void print_point(isl_set *set, int outputs) {
    if (isl_set_is_empty(set)) {
        puts("none");
        isl_set_free(set);
        return;
    }
    isl_point *point = isl_set_sample_point(set);
    for (int i = 0; i < outputs; i++) {
        isl_val *value = isl_point_get_coordinate_val(point, isl_dim_set, i);
        char *text = isl_val_to_str(value);
        printf("%s%s", i ? " " : "", text);
        free(text);
        isl_val_free(value);
    }
    puts("");
    isl_point_free(point);
}

int main(int words, char **word_list) {
    (void)word_list;
    if (words > 1) {
        printf("%s", isl_version());
        return 0;
    }
    char *line = NULL;
    size_t size = 0;
    isl_ctx *ctx = isl_ctx_alloc();
    isl_options_set_on_error(ctx, ISL_ON_ERROR_CONTINUE);
    if (getline(&line, &size, stdin) < 0) return 2;
    isl_set *set = isl_set_read_from_str(ctx, line);
    if (!set) return 2;
    int outputs = isl_set_dim(set, isl_dim_set);
    int parameters = isl_set_dim(set, isl_dim_param);
    isl_pw_multi_aff *least = isl_set_lexmin_pw_multi_aff(set);
    if (!least) {
        puts("no lexmin");
        return 1;
    }
    char *text = isl_pw_multi_aff_to_str(least);
    puts(text);
    free(text);
    isl_set *points = isl_set_from_pw_multi_aff(least);
    while (getline(&line, &size, stdin) >= 0) {
        isl_set *here = isl_set_copy(points);
        char *word = strtok(line, " \n");
        for (int i = 0; i < parameters && word; i++, word = strtok(NULL, " \n"))
            here = isl_set_fix_val(here, isl_dim_param, i, isl_val_read_from_str(ctx, word));
        print_point(here, outputs);
    }
    isl_set_free(points);
    isl_ctx_free(ctx);
    free(line);
    return 0;
}
