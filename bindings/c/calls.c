/* Calls every function of nakwemol.h on small cases whose answers are known, and says how many numbers were compared and how many differ. */
#include <nakwemol.h>
#include <stdio.h>
#include <string.h>

static int compared = 0, differ = 0;

static void same(const char *what, double is, double should) {
    compared++;
    if (is != should) {
        differ++;
        printf("differs: %s is %g and should be %g\n", what, is, should);
    }
}

/* The same but for so much, which depends on the order of the sums. */
static void within(const char *what, double much, double is, double should) {
    double off = is - should;
    same(what, off < much && off > -much ? should : is, should);
}

/* The same but for the last digits. */
static void near(const char *what, double is, double should) {
    within(what, 1e-14, is, should);
}

/* Two wells, (0, 0) with 2 and (2, 0) with 6, and the node (1, 0). */
static const double values[] = {2, 6}, coords[] = {0, 0, 2, 0}, nodes[] = {1, 0}, none[1];
static const uint8_t bases[] = {NAKWEMOL_BASIS_CONSTANT};

/* Each area has one place more than it needs. */
static double work[19], predicted[2], variance[2], weights[3], multipliers[2], trend[2];
static uint8_t verdicts[2];

static void clear(void) {
    for (int i = 0; i < 19; i++) work[i] = -1;
    for (int i = 0; i < 2; i++) predicted[i] = variance[i] = multipliers[i] = trend[i] = -1;
    for (int i = 0; i < 3; i++) weights[i] = -1;
    verdicts[0] = verdicts[1] = 99;
}

static uint8_t fit_spot(uint8_t model, double range, double spot, size_t lent) {
    clear();
    return nakwemol_fit(values, 2, coords, 4, bases, 1, none, 0, model, 0, 1, range, spot, 0, nodes, 2, none, 0, 0,
                        work, 19, predicted, lent, variance, 2, verdicts, 2, weights, 3, multipliers, 2, trend, 2);
}

static uint8_t fit_range(uint8_t model, double range, size_t lent) {
    return fit_spot(model, range, NAKWEMOL_SAME_SPOT, lent);
}

static uint8_t fit(uint8_t model, size_t lent) {
    return fit_range(model, 1, lent);
}

/* The weights are halves by symmetry, so the variance is 2 g(1) - g(2) / 2, with g the variogram: 1 - e^-h, or 1 - e^-(h h). */
static void models(void) {
    const double e1 = 0.36787944117144233, e2 = 0.1353352832366127, e4 = 0.018315638888734179;
    same("exponential", fit(NAKWEMOL_EXPONENTIAL, 2), NAKWEMOL_OK);
    near("its figure", predicted[0], 4);
    near("its variance", variance[0], 2 * (1 - e1) - (1 - e2) / 2);
    same("gaussian", fit(NAKWEMOL_GAUSSIAN, 2), NAKWEMOL_OK);
    near("its figure", predicted[0], 4);
    near("its variance", variance[0], 2 * (1 - e1) - (1 - e4) / 2);
    same("exponential of range 0", fit_range(NAKWEMOL_EXPONENTIAL, 0, 2), NAKWEMOL_MODEL);
    same("exponential of range -0", fit_range(NAKWEMOL_EXPONENTIAL, -0.0, 2), NAKWEMOL_MODEL);
    same("exponential of a range below 0", fit_range(NAKWEMOL_EXPONENTIAL, -1, 2), NAKWEMOL_MODEL);
    same("what it leaves", predicted[0], -1);
    same("gaussian of range 0", fit_range(NAKWEMOL_GAUSSIAN, 0, 2), NAKWEMOL_OK);
    near("its variance, with a variogram of 1 everywhere", variance[0], 1.5);
    near("e^-1", nakwemol_exp_neg(1), e1);
    same("e^-0", nakwemol_exp_neg(0), 1);
    same("e to minus infinity", nakwemol_exp_neg(1e308 * 10), 0);
    const double us[] = {0, 1, 2};
    double out[] = {-1, -1, -1};
    nakwemol_exp_neg_each(us, 3, out, 2);
    same("e^-0 of a list", out[0], 1);
    same("e^-1 of a list", out[1], nakwemol_exp_neg(1));
    same("past the area", out[2], -1);
}

static void fits(void) {
    same("fit", fit(NAKWEMOL_SPHERICAL, 2), NAKWEMOL_OK);
    same("figure", predicted[0], 4);
    same("variance", variance[0], 1.5);
    same("verdict", verdicts[0], 0);
    same("weight 1", weights[0], 0.5);
    same("weight 2", weights[1], 0.5);
    same("multiplier", multipliers[0], 0.5);
    same("past the figure", predicted[1], -1);
    same("past the variance", variance[1], -1);
    same("past the verdict", verdicts[1], 99);
    same("past the weights", weights[2], -1);
    same("past the multiplier", multipliers[1], -1);
    same("past the work", work[18], -1);
    same("an area too short", fit(NAKWEMOL_SPHERICAL, 0), NAKWEMOL_ANSWER_AREA);
    same("a code that is none", fit(5, 0), NAKWEMOL_UNKNOWN_CODE);
    same("what a refusal leaves", predicted[0], -1);
}

/* The first n of these levels at the first wells and the first m nodes, with so many places for the trend. */
static uint8_t fit_levels(const double *levels, size_t n, size_t m, size_t lent) {
    clear();
    return nakwemol_fit(levels, n, coords, 2 * n, bases, 1, none, 0, NAKWEMOL_SPHERICAL, 0, 1, 1, NAKWEMOL_SAME_SPOT, 0, nodes, 2 * m, none, 0, 0,
                        work, 19, predicted, 2, variance, 2, verdicts, 2, weights, 3, multipliers, 2, trend, lent);
}

static void trends(void) {
    const double level[] = {5};
    same("one well", fit_levels(level, 1, 1, 2), NAKWEMOL_OK);
    same("its multiplier", multipliers[0], 1);
    same("its trend", trend[0], 5);
    same("two wells", fit_levels(values, 2, 1, 1), NAKWEMOL_OK);
    same("their multiplier", multipliers[0], 0.5);
    same("their trend", trend[0], 4);
    same("past the trend", trend[1], -1);
    same("no node", fit_levels(values, 2, 0, 2), NAKWEMOL_OK);
    same("the multiplier of no node", multipliers[0], 0);
    same("the trend without a node", trend[0], 4);
    same("past the trend without a node", trend[1], -1);
    same("no place for the trend", fit_levels(values, 2, 1, 0), NAKWEMOL_ANSWER_AREA);
    same("what it leaves of the figure", predicted[0], -1);
    same("what it leaves of the multiplier", multipliers[0], -1);
    same("what it leaves of the trend", trend[0], -1);
    same("no place for the figure", fit(NAKWEMOL_SPHERICAL, 0), NAKWEMOL_ANSWER_AREA);
    same("the trend that it leaves", trend[0], -1);
    same("a code that is none", fit(5, 2), NAKWEMOL_UNKNOWN_CODE);
    same("the trend that it leaves", trend[0], -1);
}

/* Three wells on the plain 2 + 3 x - y, and the node at the first of them: the multipliers are zeros there, and the trend is the plain. */
static uint8_t fit_plain(double multiplier[3], double slope[3], size_t lent) {
    const double levels[] = {2, 5, 1}, wells[] = {0, 0, 1, 0, 0, 1};
    const uint8_t linear[] = {NAKWEMOL_BASIS_LINEAR};
    double area[72], figure, estimate, shares[3];
    uint8_t verdict;
    for (int j = 0; j < 3; j++) multiplier[j] = slope[j] = -9;
    return nakwemol_fit(levels, 3, wells, 6, linear, 1, none, 0, NAKWEMOL_SPHERICAL, 0, 1, 1, NAKWEMOL_SAME_SPOT, 0, wells, 2, none, 0, 0,
                        area, 72, &figure, 1, &estimate, 1, &verdict, 1, shares, 3, multiplier, 3, slope, lent);
}

static void slopes(void) {
    const double plain[] = {2, 3, -1};
    double multiplier[3], slope[3];
    same("a plain", fit_plain(multiplier, slope, 3), NAKWEMOL_OK);
    for (int j = 0; j < 3; j++) near("a multiplier of the plain", multiplier[j], 0);
    for (int j = 0; j < 3; j++) near("a slope of the plain", slope[j], plain[j]);
    same("a plain, with a place too few", fit_plain(multiplier, slope, 2), NAKWEMOL_ANSWER_AREA);
    for (int j = 0; j < 3; j++) same("what it leaves of the slopes", slope[j], -9);
}

static void interpolations(void) {
    double figure = -1, estimate = -1;
    same("interpolate", nakwemol_interpolate(values, 2, coords, 4, nodes, 2, 2, NAKWEMOL_ORDINARY, NAKWEMOL_SPHERICAL, 0, 1, 1, NAKWEMOL_SAME_SPOT,
                                             work, 19, &figure, 1, &estimate, 1), NAKWEMOL_OK);
    same("interpolated", figure, 4);
    same("its variance", estimate, 1.5);
    same("a kriging type that is none", nakwemol_interpolate(values, 2, coords, 4, nodes, 2, 2, 3, NAKWEMOL_SPHERICAL, 0, 1, 1, NAKWEMOL_SAME_SPOT,
                                                             work, 19, &figure, 1, &estimate, 1), NAKWEMOL_UNKNOWN_CODE);
}

/* Two wells 2 m apart and a node between them, 1 m from each: with a same-spot distance of 1 it is at neither, and with the next number above 1 at both. */
static void spots(void) {
    const double nothing = 0, minus = -0.0, infinite = 1 / nothing;
    double figure = -1, estimate = -1;
    same("a distance equal to the spot's", fit_spot(NAKWEMOL_LINEAR, 2, 1, 2), NAKWEMOL_OK);
    same("its variance", variance[0], 0.5);
    same("a distance below the spot's", fit_spot(NAKWEMOL_LINEAR, 2, 1.0000000000000002, 2), NAKWEMOL_OK);
    same("its variance", variance[0], 0);
    same("the least spot", fit_spot(NAKWEMOL_LINEAR, 2, NAKWEMOL_SAME_SPOT, 2), NAKWEMOL_OK);
    same("a smaller one", fit_spot(NAKWEMOL_LINEAR, 2, 2.2204460492503128e-16, 2), NAKWEMOL_SAME_SPOT_DISTANCE);
    same("what it leaves", predicted[0], -1);
    same("none", fit_spot(NAKWEMOL_LINEAR, 2, 0, 2), NAKWEMOL_SAME_SPOT_DISTANCE);
    same("minus zero", fit_spot(NAKWEMOL_LINEAR, 2, minus, 2), NAKWEMOL_SAME_SPOT_DISTANCE);
    same("an infinite one", fit_spot(NAKWEMOL_LINEAR, 2, infinite, 2), NAKWEMOL_SAME_SPOT_DISTANCE);
    same("no number", fit_spot(NAKWEMOL_LINEAR, 2, infinite - infinite, 2), NAKWEMOL_SAME_SPOT_DISTANCE);
    same("22 after 11", fit_spot(NAKWEMOL_LINEAR, infinite, 0, 2), NAKWEMOL_NOT_FINITE);
    same("22 before 12", fit_spot(NAKWEMOL_EXPONENTIAL, 0, 0, 2), NAKWEMOL_SAME_SPOT_DISTANCE);
    same("22 of an interpolation", nakwemol_interpolate(values, 2, coords, 4, nodes, 2, 2, NAKWEMOL_ORDINARY, NAKWEMOL_LINEAR, 0, 1, 2, 0,
                                                        work, 19, &figure, 1, &estimate, 1), NAKWEMOL_SAME_SPOT_DISTANCE);
    same("what it leaves", figure, -1);
}

static void semivariograms(void) {
    const double points[] = {0, 1, 2}, levels[] = {0, 2, 4};
    double distances[2] = {-1, -1}, semivariances[2] = {-1, -1};
    size_t counts[2] = {99, 99}, kept = 99;
    same("one sample", nakwemol_semivariogram(points, 1, levels, 1, 1, 2, distances, 2, semivariances, 2, counts, 2, &kept), NAKWEMOL_TOO_FEW_SAMPLES);
    same("kept of none", (double)kept, 99);
    same("semivariogram", nakwemol_semivariogram(points, 3, levels, 3, 1, 2, distances, 2, semivariances, 2, counts, 2, &kept), NAKWEMOL_OK);
    same("kept", (double)kept, 1);
    same("distance", distances[0], 1.5);
    same("semivariance", semivariances[0], 4);
    same("count", (double)counts[0], 3);
    same("past the count", (double)counts[1], 99);
}

static void files(void) {
    uint8_t file[200], codes[1], model = 0;
    double read_values[2], read_coords[4], read_nodes[2], numbers[5], unread[1];
    size_t length = 0, sizes[3];
    same("write", nakwemol_write(values, 2, coords, 4, bases, 1, none, 0, NAKWEMOL_LINEAR, 1, 2, 3, NAKWEMOL_SAME_SPOT, 4, nodes, 2, none, 0, 5, file, 200,
                                 &length), NAKWEMOL_OK);
    same("length", (double)length, 119);
    same("read", nakwemol_read(file, length, read_values, 2, read_coords, 4, codes, 1, unread, 0, read_nodes, 2, unread, 0, sizes, numbers, &model),
         NAKWEMOL_OK);
    same("wells", (double)sizes[0], 2);
    same("nodes", (double)sizes[1], 1);
    same("codes", (double)sizes[2], 1);
    for (int i = 0; i < 5; i++) same("a number of the header", numbers[i], i + 1);
    same("model", model, NAKWEMOL_LINEAR);
    same("values read", memcmp(read_values, values, sizeof values), 0);
    same("coordinates read", memcmp(read_coords, coords, sizeof coords), 0);
    same("nodes read", memcmp(read_nodes, nodes, sizeof nodes), 0);
    same("code read", codes[0], NAKWEMOL_BASIS_CONSTANT);
    same("another spot", nakwemol_write(values, 2, coords, 4, bases, 1, none, 0, NAKWEMOL_LINEAR, 1, 2, 3, 1, 4, nodes, 2, none, 0, 5, file, 200, &length),
         NAKWEMOL_SAME_SPOT_DISTANCE);
    same("no file", nakwemol_read(file, 3, read_values, 2, read_coords, 4, codes, 1, unread, 0, read_nodes, 2, unread, 0, sizes, numbers, &model),
         NAKWEMOL_SURVEY_FILE);
}

/* Wells a metre apart in a row, well i with the level i, one more than a call takes; and areas that serve every call. */
enum { MANY = NAKWEMOL_MOST_WELLS + 1 };
static double row_levels[MANY], row_places[2 * MANY], row_work[NAKWEMOL_WORK_OF_A_FIT], row_weights[MANY];

static uint8_t fit_row(size_t n, size_t lent) {
    const double away[] = {-9, 0};
    clear();
    return nakwemol_fit(row_levels, n, row_places, 2 * n, bases, 1, none, 0, NAKWEMOL_SPHERICAL, 0, 1, 0.5, NAKWEMOL_SAME_SPOT, 0, away, 2, none, 0, 1e-9,
                        row_work, lent, predicted, 1, variance, 1, verdicts, 1, row_weights, MANY, multipliers, 1, trend, 1);
}

static uint8_t interpolate_row(size_t n, size_t lent) {
    const double away[] = {-9, 0};
    predicted[0] = variance[0] = -1;
    return nakwemol_interpolate(row_levels, n, row_places, 2 * n, away, 2, 2, NAKWEMOL_ORDINARY, NAKWEMOL_SPHERICAL, 0, 1, 0.5, NAKWEMOL_SAME_SPOT,
                                row_work, lent, predicted, 1, variance, 1);
}

static uint8_t bin_row(size_t n, double *semivariance, size_t *pairs) {
    double middle;
    size_t kept;
    return nakwemol_semivariogram(row_places, 2 * n, row_levels, n, 2, 1, &middle, 1, semivariance, 1, pairs, 1, &kept);
}

/* The model reaches half a metre, so that all wells say as much: the weights are 1 / n, the figure is the average of 0 to n - 1 and the variance 1 + 1 / n.
 * Half the average square of all differences is n (n + 1) / 12. */
static void rows(void) {
    const size_t counts[] = {48, 49, 60, NAKWEMOL_MOST_WELLS};
    double half;
    size_t pairs;
    for (size_t i = 0; i < MANY; i++) row_levels[i] = row_places[2 * i] = (double)i;
    for (int c = 0; c < 4; c++) {
        const size_t n = counts[c];
        const double wells = (double)n, average = (wells - 1) / 2;
        same("a row", fit_row(n, NAKWEMOL_WORK_OF_A_FIT), NAKWEMOL_OK);
        within("its figure", 1e-12, predicted[0] / average, 1);
        within("its variance", 1e-12, variance[0], 1 + 1 / wells);
        same("its verdict", verdicts[0], 0);
        within("its trend", 1e-12, trend[0] / average, 1);
        for (size_t i = 0; i < n; i++) near("its weight", row_weights[i], 1 / wells);
        same("an interpolated row", interpolate_row(n, NAKWEMOL_WORK_OF_AN_INTERPOLATION), NAKWEMOL_OK);
        within("its figure", 1e-12, predicted[0] / average, 1);
        within("its variance", 1e-12, variance[0], 1 + 1 / wells);
        same("a binned row", bin_row(n, &half, &pairs), NAKWEMOL_OK);
        same("its pairs", (double)pairs, wells * (wells - 1) / 2);
        same("its semivariance", half, wells * (wells + 1) / 12);
    }
    same("a row too long", fit_row(MANY, NAKWEMOL_WORK_OF_A_FIT), NAKWEMOL_TOO_MANY);
    same("9 before 17", fit_row(MANY, 0), NAKWEMOL_TOO_MANY);
    same("what it leaves", predicted[0], -1);
    same("a row too long to interpolate", interpolate_row(MANY, 0), NAKWEMOL_TOO_MANY);
    same("a row too long to bin", bin_row(MANY, &half, &pairs), NAKWEMOL_TOO_MANY);
    same("the work of 96 wells", fit_row(NAKWEMOL_MOST_WELLS, 2 * 97 * 97), NAKWEMOL_OK);
    same("one number less", fit_row(NAKWEMOL_MOST_WELLS, 2 * 97 * 97 - 1), NAKWEMOL_WORK_AREA);
    same("the work of every fit", NAKWEMOL_WORK_OF_A_FIT, 23328);
    same("the work of every interpolation", NAKWEMOL_WORK_OF_AN_INTERPOLATION, 20000);
}

/* A row's file; its version, which is the third byte from the end; and what the reader says of it. */
static uint8_t write_row(size_t n, double spot, uint8_t *file, size_t lent, size_t *length) {
    return nakwemol_write(row_levels, n, row_places, 2 * n, bases, 1, none, 0, NAKWEMOL_LINEAR, 1, 2, 3, spot, 4, nodes, 2, none, 0, 5, file, lent, length);
}

static uint8_t read_row(const uint8_t *file, size_t length) {
    static double read_levels[MANY], read_places[2 * MANY];
    double read_nodes[2], unread[1], numbers[5];
    uint8_t codes[1], model;
    size_t sizes[3];
    uint8_t number = nakwemol_read(file, length, read_levels, MANY, read_places, 2 * MANY, codes, 1, unread, 0, read_nodes, 2, unread, 0, sizes, numbers,
                                   &model);
    if (number == NAKWEMOL_OK) {
        same("levels read", memcmp(read_levels, row_levels, 8 * sizes[0]), 0);
        same("places read", memcmp(read_places, row_places, 16 * sizes[0]), 0);
    }
    return number;
}

static void versions(void) {
    static uint8_t file[54 + 24 * MANY + 17];
    const size_t counts[] = {48, 49, 60, NAKWEMOL_MOST_WELLS};
    size_t length = 99;
    for (int c = 0; c < 4; c++) {
        const int second = counts[c] > 48;
        same("a row's file", write_row(counts[c], NAKWEMOL_SAME_SPOT, file, sizeof file, &length), NAKWEMOL_OK);
        same("its length", (double)length, 54 + 24 * (double)counts[c] + 17);
        same("its version", file[length - 3], 1 + second);
        same("read", read_row(file, length), NAKWEMOL_OK);
        file[length - 3] = 1;
        same("read as version 1, at any n", read_row(file, length), NAKWEMOL_OK);
        file[length - 3] = 2;
        same("read as version 2, from 49 wells on", read_row(file, length), second ? NAKWEMOL_OK : NAKWEMOL_SURVEY_FILE);
        file[length - 3] = 3;
        same("read as version 3", read_row(file, length), NAKWEMOL_SURVEY_FILE);
    }
    length = 99;
    same("over 96 wells", write_row(MANY, NAKWEMOL_SAME_SPOT, file, sizeof file, &length), NAKWEMOL_SURVEY_FILE);
    same("16 after 22", write_row(MANY, 1, file, sizeof file, &length), NAKWEMOL_SAME_SPOT_DISTANCE);
    same("16 before 18", write_row(MANY, NAKWEMOL_SAME_SPOT, file, 0, &length), NAKWEMOL_SURVEY_FILE);
    same("the length that they leave", (double)length, 99);
}

int main(void) {
    fits();
    trends();
    slopes();
    models();
    interpolations();
    spots();
    semivariograms();
    files();
    rows();
    versions();
    printf("%d compared, %d differ\n", compared, differ);
    return differ != 0;
}
