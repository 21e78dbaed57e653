/* nakwemol: universal kriging with an audit, the interpolator, the semivariogram and the survey file, for C.
 *
 * Link target/staticlib/libnakwemol.a, which `tools/build nakwemol` writes (x86-64 Linux). It needs no other library but C's.
 * Each function is proved to give what the call behind it is defined to give; docs/REFERENCE.md has the formulas, by section.
 *
 * How every call is made
 *   - A list is a pointer and a count, in elements. A list that is read is const; one that is written is an area, which the caller lends.
 *   - Every pointer is valid, aligned and not NULL; where a count is 0 it may point to anything. No area overlaps another one, a place or a list.
 *   - Nothing is allocated, nothing is kept after the call, and there is no state: calls may run side by side.
 *   - The number that comes back is 0 where the areas hold the answer, else what turned the call away. Where several apply, the first in the order
 *     that stands with the call.
 *   - An area may be longer than it has to be. What is past the lengths named here is never touched, and a refused call writes nothing at all, no
 *     place either; but with NAKWEMOL_SINGULAR the work area is as the elimination stopped.
 *   - All NaNs are one: the bits of a NaN that comes back say nothing more.
 */
#ifndef NAKWEMOL_H
#define NAKWEMOL_H

#include <stddef.h>
#include <stdint.h>

#ifdef __cplusplus
extern "C" {
#endif

/* What turns a call away, by its number (docs/REFERENCE.md, section 8, has what to do about each). */
enum nakwemol_number {
    NAKWEMOL_OK = 0,
    NAKWEMOL_COORDINATES_LENGTH = 1,   /* coordinates not 2n (n times d in the older calls) */
    NAKWEMOL_NODES_LENGTH = 2,         /* node list odd (not a multiple of d) */
    NAKWEMOL_NO_BASIS = 3,             /* no basis */
    NAKWEMOL_BASIS_CODE = 4,           /* a basis code outside 1 to 4 */
    NAKWEMOL_REGULARIZATION = 5,       /* r negative or not finite */
    NAKWEMOL_EXTERNAL_LENGTH = 6,      /* externals not k times n */
    NAKWEMOL_TOO_FEW_WELLS = 7,        /* n < p */
    NAKWEMOL_NODE_EXTERNAL_LENGTH = 8, /* k > 0 and node externals not k times m */
    NAKWEMOL_TOO_MANY = 9,             /* n > 96, p > 12 or m > 100, as far as the call has them */
    NAKWEMOL_TOLERANCE = 10,           /* t negative or not finite */
    NAKWEMOL_NOT_FINITE = 11,          /* another number that is not finite */
    NAKWEMOL_MODEL = 12,               /* Exponential with a range that is not above zero */
    NAKWEMOL_DIMENSION = 13,           /* d not 1, 2 or 3, or d = 1 with Universal */
    NAKWEMOL_TOO_FEW_SAMPLES = 14,     /* fewer than 2 samples */
    NAKWEMOL_BINS = 15,                /* bins not 1 to 64 */
    NAKWEMOL_SURVEY_FILE = 16,         /* survey file malformed, or it would be too long or have over 96 wells */
    NAKWEMOL_WORK_AREA = 17,           /* work area under 2 s s numbers */
    NAKWEMOL_ANSWER_AREA = 18,         /* an answer area too short */
    NAKWEMOL_SINGULAR = 19,            /* a pivot below 2^-52 */
    NAKWEMOL_SAME_SPOT_DISTANCE = 22,  /* same-spot distance not finite or below 2^-52; in nakwemol_write anything but 2^-52. Straight after 11 */
    NAKWEMOL_UNKNOWN_CODE = 100        /* a model or a kriging type by a code that is none; before all others */
};

/* Codes. */
enum nakwemol_model {
    NAKWEMOL_SPHERICAL = 1,
    NAKWEMOL_EXPONENTIAL = 2,
    NAKWEMOL_GAUSSIAN = 3,
    NAKWEMOL_LINEAR = 4
};

enum nakwemol_kriging_type {
    NAKWEMOL_ORDINARY = 1,
    NAKWEMOL_UNIVERSAL = 2
};

enum nakwemol_basis {            /* columns at (x, y)                  */
    NAKWEMOL_BASIS_CONSTANT = 1, /* 1                                  */
    NAKWEMOL_BASIS_LINEAR = 2,   /* 1, x, y                            */
    NAKWEMOL_BASIS_QUADRATIC = 3,/* 1, x, y, x x, x y, y y             */
    NAKWEMOL_BASIS_EXTERNAL = 4  /* the number that is given for it    */
};

/* A verdict: 0 where the node passed its audit, 1 to p + 1 the first row missed, this where something is not finite. */
#define NAKWEMOL_VERDICT_NOT_FINITE 255

/* The same-spot distance of the original, 2^-52: the plain choice for `same_spot`, and the least that a call takes. Below it the variogram is 0; a distance
 * equal to it is not the same spot. A larger one does more harm than good where two wells lie nearer than it and are told apart all the same: section 3. */
#define NAKWEMOL_SAME_SPOT 2.220446049250313e-16

/* What a call takes at most, as far as it has them: wells (points, samples), columns of the trend, nodes (targets). Past these it is refused by 9. */
#define NAKWEMOL_MOST_WELLS 96
#define NAKWEMOL_MOST_COLUMNS 12
#define NAKWEMOL_MOST_NODES 100

/* Numbers of a work area that serve every fit, 23,328, and every interpolation, 20,000. */
#define NAKWEMOL_WORK_OF_A_FIT (2 * (NAKWEMOL_MOST_WELLS + NAKWEMOL_MOST_COLUMNS) * (NAKWEMOL_MOST_WELLS + NAKWEMOL_MOST_COLUMNS))
#define NAKWEMOL_WORK_OF_AN_INTERPOLATION (2 * (NAKWEMOL_MOST_WELLS + 4) * (NAKWEMOL_MOST_WELLS + 4))

/* Universal kriging with external drift: sections 1 to 9.
 *
 * n is the number of values, m that of nodes, k counts the bases that are external, p is the number of columns, s = n + p.
 *
 *   values         n         the level at each well
 *   coords         2n        x, y of well 1, x, y of well 2, ..
 *   bases          any       a code each, at least one
 *   external       k n       column after column: every well of the first external basis, then of the second
 *   nodes          2m        x, y of node 1, ..
 *   node_external  k m       node after node: every column of node 1, then of node 2; not looked at where k = 0
 *   same_spot                below this distance the variogram is 0; NAKWEMOL_SAME_SPOT is the original's
 *   tolerance                t of the audit, 0 or above; 0 asks that every row be met exactly
 * Areas:
 *   work           2 s s     scratch; holds the finished elimination
 *   predicted      m         figures
 *   variance       m         variances, 0 or above
 *   verdicts       m         a byte each
 *   weights        n m       every well of node 1, then of node 2
 *   multipliers    p         the Lagrange multipliers of the last node; zeros where m = 0. They are not the trend
 *   trend          p         the estimate of the trend's coefficients, column by column: those of x and y are slopes, in units of value over coordinate.
 *                            It does not depend on the nodes, and is filled where m = 0 too
 *
 * Numbers, in this order: 100, then 1 to 11, 22, 12, 17, 18, 19.
 */
uint8_t nakwemol_fit(
    const double *values, size_t values_count,
    const double *coords, size_t coords_count,
    const uint8_t *bases, size_t bases_count,
    const double *external, size_t external_count,
    uint8_t model, double nugget, double sill, double range, double same_spot, double regularization,
    const double *nodes, size_t nodes_count,
    const double *node_external, size_t node_external_count,
    double tolerance,
    double *work, size_t work_count,
    double *predicted, size_t predicted_count,
    double *variance, size_t variance_count,
    uint8_t *verdicts, size_t verdicts_count,
    double *weights, size_t weights_count,
    double *multipliers, size_t multipliers_count,
    double *trend, size_t trend_count);

/* Kriging interpolation over d = 1, 2 or 3 axes: section 10.
 *
 *   values     n      the value at each point
 *   points     n d    point after point
 *   targets    m d    target after target
 * Areas:
 *   work       2 s s  s = n + 1 for Ordinary, n + 4 for Universal; holds the finished elimination
 *   figures    m
 *   variances  m      0 or above
 *
 * Numbers, in this order: 100, 13, 1, 2, 9, 11, 22, 12, 17, 18, 19.
 */
uint8_t nakwemol_interpolate(
    const double *values, size_t values_count,
    const double *points, size_t points_count,
    const double *targets, size_t targets_count,
    size_t d, uint8_t kriging_type,
    uint8_t model, double nugget, double sill, double range, double same_spot,
    double *work, size_t work_count,
    double *figures, size_t figures_count,
    double *variances, size_t variances_count);

/* The experimental semivariogram over d = 1, 2 or 3 axes: section 11.
 *
 *   points         n d     point after point
 *   values         n       the value at each point
 *   n_bins                 1 to 64
 * Areas, of which only the places of the bins that are kept are written:
 *   distances      n_bins  the middle of each kept bin
 *   semivariances  n_bins  its average
 *   counts         n_bins  how many pairs it has
 *   kept                   how many bins are kept
 *
 * Numbers, in this order: 13, 1, 14, 15, 9, 11, 18.
 */
uint8_t nakwemol_semivariogram(
    const double *points, size_t points_count,
    const double *values, size_t values_count,
    size_t d, size_t n_bins,
    double *distances, size_t distances_count,
    double *semivariances, size_t semivariances_count,
    size_t *counts, size_t counts_count,
    size_t *kept);

/* Reads a survey file: section 12. What the lists hold is not judged; the fit does that. Version 1 is read with any number of wells, version 2 with 49 to 96.
 *
 *   bytes          the file, at most 65,536 bytes
 * Areas, with n, m and c as the file has them (8,192 numbers and 65,536 codes serve every file):
 *   values         n
 *   coords         2n
 *   bases          c
 *   external       k n
 *   nodes          2m
 *   node_external  k m
 *   counts         n, m, c
 *   numbers        nugget, sill, range, r, t
 *   model          its code
 *
 * Numbers, in this order: 16, 18.
 */
uint8_t nakwemol_read(
    const uint8_t *bytes, size_t bytes_count,
    double *values, size_t values_count,
    double *coords, size_t coords_count,
    uint8_t *bases, size_t bases_count,
    double *external, size_t external_count,
    double *nodes, size_t nodes_count,
    double *node_external, size_t node_external_count,
    size_t counts[3], double numbers[5], uint8_t *model);

/* Writes a survey file: section 12. The lists are those of a fit; what was written reads back bit for bit. A file has no place for the same-spot distance:
 * any but NAKWEMOL_SAME_SPOT is refused by 22, and what nakwemol_read hands out has that. From 49 to 96 wells it is written with version 2, which a reader of
 * before refuses by 16, else with version 1; the version is the third byte from the end.
 *
 * Areas:
 *   file    the file's length: 54 + 8 (3n + k n + 2m + k m) + the number of codes
 *   length  how many bytes were written
 *
 * Numbers, in this order: 100, 1, 2, 6, 8, 11 (r and t included), 22, 16 (over 96 wells or 65,536 bytes), 18.
 */
uint8_t nakwemol_write(
    const double *values, size_t values_count,
    const double *coords, size_t coords_count,
    const uint8_t *bases, size_t bases_count,
    const double *external, size_t external_count,
    uint8_t model, double nugget, double sill, double range, double same_spot, double regularization,
    const double *nodes, size_t nodes_count,
    const double *node_external, size_t node_external_count,
    double tolerance,
    uint8_t *file, size_t file_count, size_t *length);

/* e^-u as the Exponential and the Gaussian model take it (section 3): within 2^-50 of the exact value for a finite u at or above zero, 0 where u is infinite,
 * a NaN where it is a NaN or below zero. */
double nakwemol_exp_neg(double u);

/* The same of each number of a list, as far as the area goes: quicker for many, since a table is laid out once for all of them. */
void nakwemol_exp_neg_each(const double *us, size_t us_count, double *out, size_t out_count);

#ifdef __cplusplus
}
#endif

#endif
