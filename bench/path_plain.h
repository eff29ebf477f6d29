// The two builds in plain C, for the benchmark: on the same byte strings as those of the library, with the same answers.
#ifndef PATH_PLAIN_H
#define PATH_PLAIN_H

#include <foldwig.h>

struct foldwig_path_result plain_build(const uint8_t *sizes, size_t sizes_len, const uint8_t *losses, size_t losses_len,
                                       const uint8_t *weights, size_t weights_len, uint8_t *path_sizes, size_t path_sizes_len,
                                       uint8_t *path_losses, size_t path_losses_len, uint8_t *path_weights,
                                       size_t path_weights_len);

struct foldwig_path_result plain_build_quadratic(const uint8_t *sizes, size_t sizes_len, const uint8_t *losses, size_t losses_len,
                                                 const uint8_t *weights, size_t weights_len, uint8_t *path_sizes,
                                                 size_t path_sizes_len, uint8_t *path_losses, size_t path_losses_len,
                                                 uint8_t *path_weights, size_t path_weights_len);

#endif
