// libm4ri's reduced echelon form of rows that come as 64-bit words, so that it can be measured beside the library.
#include <m4ri/m4ri.h>
#include <stdint.h>
#include <stdlib.h>

// The rows as they came, and the matrix that is worked on.
struct echelon {
    mzd_t *rows;
    mzd_t *work;
};

// How many bits of a row its word at a place has.
static int bits_at(size_t features, size_t place) {
    size_t left = features - 64 * place;
    return left < 64 ? (int)left : 64;
}

// Copies so many rows of so many features; each begins with a word of its own.
struct echelon *echelon_new(const uint64_t *words, size_t count, size_t features) {
    struct echelon *echelon = malloc(sizeof *echelon);
    size_t width = (features + 63) / 64;
    echelon->rows = mzd_init((rci_t)count, (rci_t)features);
    echelon->work = mzd_init((rci_t)count, (rci_t)features);
    for (size_t row = 0; row < count; row++)
        for (size_t place = 0; place < width; place++)
            mzd_xor_bits(echelon->rows, (rci_t)row, (rci_t)(64 * place), bits_at(features, place),
                         words[row * width + place]);
    return echelon;
}

void echelon_free(struct echelon *echelon) {
    mzd_free(echelon->rows);
    mzd_free(echelon->work);
    free(echelon);
}

// Makes the worked matrix the rows as they came.
void echelon_refill(struct echelon *echelon) {
    mzd_copy(echelon->work, echelon->rows);
}

// Brings the worked matrix to its reduced echelon form by one of libm4ri's ways, and answers its rank.
size_t echelon_reduce(struct echelon *echelon, int way) {
    switch (way) {
    case 0:
        return (size_t)mzd_echelonize(echelon->work, 1);
    case 1:
        return (size_t)mzd_echelonize_m4ri(echelon->work, 1, 0);
    default:
        return (size_t)mzd_echelonize_pluq(echelon->work, 1);
    }
}

// A word of the worked matrix.
uint64_t echelon_word(const struct echelon *echelon, size_t row, size_t place) {
    int bits = bits_at((size_t)echelon->work->ncols, place);
    return mzd_read_bits(echelon->work, (rci_t)row, (rci_t)(64 * place), bits);
}
