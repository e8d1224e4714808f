/*
 * Lenthuc: map projections for school planning, each with a proof. For C89 and later, and C++.
 *
 * Link with the archive libcapi.a, which tools/bundle calls liblenthuc.a. It needs no library but C's own:
 *
 *     cc program.c -I FOLDER FOLDER/libcapi.a
 *
 * The archive is for x86-64 Linux. It exports the functions that are declared below and no other name.
 *
 * A projection is built once and kept by the caller:
 *
 *     struct lenthuc_settings settings = {6378137.0, 1 / 298.257223563, 0, 0, 0, 0, 0, 0};
 *     struct lenthuc_projection world;
 *     double easting, northing;
 *     uint8_t number = lenthuc_build(LENTHUC_EQUAL_EARTH, &settings, &world);
 *     if (number == LENTHUC_ANSWERED) {
 *         number = lenthuc_forward(&world, 0.2, 0.9, &easting, &northing);
 *     }
 *     if (number != LENTHUC_ANSWERED) {
 *         fprintf(stderr, "%s\n", lenthuc_words(number));
 *     }
 *
 * What holds of every call:
 *
 * - Angles are radians. Lengths have the unit of the semi-major axis a, and a ring's area has its square. The coordinates of
 *   lenthuc_nearest may have any unit, the same for all. The dx and dy of lenthuc_travel_charge are metres.
 * - The number that a call returns is 0 where it answers. Otherwise it says why not: enum lenthuc_number, lenthuc_words.
 *   lenthuc_inverse_on_map and its column put it into *number, and return whether they have one.
 *   A projection's refusal comes before its points'. Else, where several apply, the first in the order of that list is
 *   given, but for four: lat0 is checked by 7 and 8, then lat1, then lat2; 26 comes before 18 and 19; 30 comes after 20, or
 *   after 22 where it is of Equal Earth's longitude; and a ring is checked by 27, then point by point, then by 28.
 * - Where a point is refused its results are +0. Where it is answered they are finite.
 * - A double may have any of its 2^64 patterns. All NaN count as one, signalling ones too.
 * - A call ends whatever it is given, allocates nothing, and keeps nothing: the same arguments have the same answer, bit for
 *   bit. It may raise floating-point exception flags. Several threads may call at once, as long as none writes what
 *   another's call uses.
 *
 * What a caller owes:
 *
 * - A pointer is valid for as many elements as the length after it says (1 where there is none, and LENTHUC_CHARGE_CHILDREN of
 *   shares), and aligned for its type. Of length 0 it is not used, and may be NULL. A length counts elements, not bytes.
 * - What is written overlaps nothing else that the same call is lent: neither an input nor another result. So a column is not
 *   projected in place.
 * - The floating-point environment is the default one: round to nearest, subnormal numbers kept, no traps. A program that gcc
 *   or clang links with -Ofast or -ffast-math does not keep subnormal numbers, and some answers are then others.
 *
 * 'Proved' below is by Rattle, for every input: the definitions are those of crates/NAME/specs, where NAME is capi, charge,
 * ellipsoid, kinds, nearest, packing, projection, ring or sheet.
 */
#ifndef LENTHUC_H
#define LENTHUC_H

#include <stddef.h>
#include <stdint.h>

/* Words that C89 or C++ does not have. */
#if defined(__cplusplus)
#define LENTHUC_RESTRICT
#define LENTHUC_INLINE static inline
#elif defined(__STDC_VERSION__) && __STDC_VERSION__ >= 199901L
#define LENTHUC_RESTRICT restrict
#define LENTHUC_INLINE static inline
#elif defined(__GNUC__)
#define LENTHUC_RESTRICT __restrict__
#define LENTHUC_INLINE static __inline__
#else
#define LENTHUC_RESTRICT
#define LENTHUC_INLINE static
#endif

#ifdef __cplusplus
extern "C" {
#endif

/* The version of this header, 0.9.0. The archive tells its own by lenthuc_version: where they differ, do not use it. */
#define LENTHUC_VERSION 900

/* The version of the archive, as LENTHUC_VERSION. */
uint32_t lenthuc_version(void);

/* The kind of a projection, by its letter. */
enum lenthuc_kind {
    LENTHUC_LAMBERT = 'L',           /* Lambert azimuthal equal-area */
    LENTHUC_LAMBERT_SPHERICAL = 'S', /* its spherical form */
    LENTHUC_ALBERS = 'A',            /* Albers equal-area conic */
    LENTHUC_EQUAL_EARTH = 'E',       /* Equal Earth */
    LENTHUC_CASSINI = 'C',           /* Cassini-Soldner */
    LENTHUC_POLYCONIC = 'P',         /* American polyconic */
    LENTHUC_GUAM = 'G'               /* Guam projection */
};

/* 0, or why there is no answer: lenthuc_words says it. */
enum lenthuc_number {
    LENTHUC_ANSWERED = 0,
    LENTHUC_LINE_FORM = 2,
    LENTHUC_INVERSE_FLATTENING = 3,
    LENTHUC_SEMI_MAJOR_AXIS = 4,
    LENTHUC_FLATTENING = 5,
    LENTHUC_LON0 = 6,
    LENTHUC_LATITUDE_SETTING = 7,
    LENTHUC_LATITUDE_SETTING_BEYOND = 8,
    LENTHUC_FALSE_EASTING = 9,
    LENTHUC_FALSE_NORTHING = 10,
    LENTHUC_SPHERE = 11,
    LENTHUC_POLAR_Q = 12,
    LENTHUC_ORIGIN_NEAR_POLE = 13,
    LENTHUC_ORIGIN_SCALE = 14,
    LENTHUC_CONE_CONSTANT = 15,
    LENTHUC_FORWARD_INPUT = 16,
    LENTHUC_FORWARD_BEYOND = 17,
    LENTHUC_ANTIPODE = 18,
    LENTHUC_FORWARD_RESULT = 19,
    LENTHUC_INVERSE_INPUT = 20,
    LENTHUC_STEP_AT_POLE = 21,
    LENTHUC_STEPS_USED_UP = 22,
    LENTHUC_INVERSE_RESULT = 23,
    LENTHUC_INVERSE_BEYOND = 24,
    LENTHUC_AREA_EDGES = 25,
    LENTHUC_OUTSIDE_AREA = 26,
    LENTHUC_RING_FORM = 27,
    LENTHUC_RING_RESULT = 28,
    LENTHUC_NEAREST_INPUT = 29,
    LENTHUC_OFF_THE_MAP = 30,
    LENTHUC_CHARGE_INPUT = 31,
    LENTHUC_UNEQUAL_LENGTHS = 255
};

/* A number in words. Of a number that is none of the above: NULL. */
LENTHUC_INLINE const char *lenthuc_words(uint8_t number)
{
    switch (number) {
    case LENTHUC_ANSWERED:
        return "answered";
    case LENTHUC_LINE_FORM:
        return "a line does not have the sheet's form, or a letter names no way or no kind";
    case LENTHUC_INVERSE_FLATTENING:
        return "the inverse flattening (1/f) is not a finite number above 1";
    case LENTHUC_SEMI_MAJOR_AXIS:
        return "the semi-major axis (a) is not a finite number above 0";
    case LENTHUC_FLATTENING:
        return "the flattening (f) is not a number from 0 up to, but not including, 1";
    case LENTHUC_LON0:
        return "the origin's longitude (lon0) is not a finite number";
    case LENTHUC_LATITUDE_SETTING:
        return "the latitude of the origin (lat0) or of a parallel (lat1, lat2) is not a finite number";
    case LENTHUC_LATITUDE_SETTING_BEYOND:
        return "the latitude of the origin (lat0) or of a parallel (lat1, lat2) is beyond 90 degrees (pi/2 + 1e-12)";
    case LENTHUC_FALSE_EASTING:
        return "the false easting (fe) is not a finite number";
    case LENTHUC_FALSE_NORTHING:
        return "the false northing (fn) is not a finite number";
    case LENTHUC_SPHERE:
        return "Guam: the ellipsoid is a sphere (e2 is 0)";
    case LENTHUC_POLAR_Q:
        return "Lambert: q at the pole is not a finite number above 0";
    case LENTHUC_ORIGIN_NEAR_POLE:
        return "Lambert: the origin is near a pole but not at it (its authalic cosine is below 1e-12 in size)";
    case LENTHUC_ORIGIN_SCALE:
        return "Lambert: the origin's scale (d) is not a finite number above 0";
    case LENTHUC_CONE_CONSTANT:
        return "Albers: the parallels make no cone (its constant n is below 1e-12 in size)";
    case LENTHUC_FORWARD_INPUT:
        return "the longitude or latitude given is not a finite number";
    case LENTHUC_FORWARD_BEYOND:
        return "the latitude given is beyond 90 degrees (pi/2 + 1e-12)";
    case LENTHUC_ANTIPODE:
        return "Lambert: the point is opposite the origin (the denominator is 0 or below)";
    case LENTHUC_FORWARD_RESULT:
        return "the easting or northing worked out is not a finite number";
    case LENTHUC_INVERSE_INPUT:
        return "the easting or northing given is not a finite number";
    case LENTHUC_STEP_AT_POLE:
        return "polyconic: a step of the inverse meets a pole (the cosine is below 1e-12 in size)";
    case LENTHUC_STEPS_USED_UP:
        return "the steps of the inverse are used up before it settles (15 steps; polyconic 20)";
    case LENTHUC_INVERSE_RESULT:
        return "the longitude or latitude worked out is not a finite number";
    case LENTHUC_INVERSE_BEYOND:
        return "the latitude worked out is beyond 90 degrees (pi/2 + 1e-12)";
    case LENTHUC_AREA_EDGES:
        return "the area of use has an edge that is not a finite number, a west or east beyond 180 degrees (pi), a south or north beyond 90 degrees (pi/2 + 1e-12), or a south above its north";
    case LENTHUC_OUTSIDE_AREA:
        return "the place lies outside the area of use";
    case LENTHUC_RING_FORM:
        return "the ring's lists have unequal lengths, it has fewer than 3 or more than 4,096 corners, or its projection is of another kind than L, S, A and E";
    case LENTHUC_RING_RESULT:
        return "a buffer is shorter than the ring's points, or the area worked out is not a finite number";
    case LENTHUC_NEAREST_INPUT:
        return "there are no schools or more than 256, the coordinate lists have unequal lengths, the rolls or the places for the order are fewer than the schools, or a coordinate is not a finite number or above 1e8 in size";
    case LENTHUC_OFF_THE_MAP:
        return "the easting and northing lie off the map, beyond its edge";
    case LENTHUC_CHARGE_INPUT:
        return "the rate is above 1,000,000, there are no children or more than 60, or the distance is not a finite number or above 1,000,000 m";
    case LENTHUC_UNEQUAL_LENGTHS:
        return "the columns have unequal lengths: nothing is read or written";
    default:
        return NULL;
    }
}

/*
 * Whether there is an ellipsoid of semi-major axis a and flattening f = (a - b) / a: 0, 4 or 5. A sphere has f = 0.
 * Proved: the number is that of the definition from_a_f.
 */
uint8_t lenthuc_from_a_f(double a, double f);

/*
 * The same by the inverse flattening rf = 1 / f: 0, 3 or 4. Puts the flattening into *f, +0 of a refusal.
 * Proved: the number and *f are those of the definition from_a_rf.
 */
uint8_t lenthuc_from_a_rf(double a, double rf, double *f);

/*
 * What a projection is built of. lon0, lat0 are the origin, lat1, lat2 the parallels, fe, fn the false easting and northing.
 * Albers alone uses lat1 and lat2, and Equal Earth does not use lat0. The value of a setting that a kind does not use never
 * affects an answer. f = 0 is a sphere, which Guam refuses (11). On a sphere Albers has no rounds: a point off the map gets 23
 * there, and 22 on an ellipsoid.
 */
struct lenthuc_settings {
    double a, f, lon0, lat0, lat1, lat2, fe, fn;
};

/*
 * An area of use, by its edges in radians. A projection that has one answers the places inside it, and no other. It lies
 * between south and north, and from west eastwards to east. Its edges belong to it.
 *
 * - Where east is below west it crosses the 180 degree line: it holds the longitudes from west to pi, and from -pi to east.
 *   Where west and east are equal it is one meridian.
 * - -pi and pi are two numbers: an edge at -pi does not hold pi. From -pi to pi are all longitudes.
 * - A latitude between pi/2 and pi/2 + 1e-12, which a projection takes as well, lies outside an area that ends at pi/2.
 * - The longitude of a place is normalised before it is compared, and an edge is not. Normalising rounds: of 0.1 it makes
 *   the number whose bits are 3fb99999999999a0, which is above 0.1. So the area from -1 to 0.1 does not hold the longitude
 *   0.1, and one from -1 to lenthuc_normalize_longitude(0.1) does. Normalise west and east first; once is enough. Do so only
 *   with what lies in [-pi, pi]: 0 and 2 pi, normalised, are one meridian.
 */
struct lenthuc_area {
    double west, east, south, north;
};

/*
 * A longitude brought into [-pi, pi] by whole turns, as a place's is before an area is asked. Of a NaN and of an infinity: NaN.
 * Proved: the result is that of the definition normalize_longitude.
 */
double lenthuc_normalize_longitude(double lon);

/*
 * A built projection. Its numbers are for the functions below alone, and may change with the version. It may be copied, and
 * moved to other memory. No function writes it but lenthuc_build and lenthuc_build_in_area.
 */
struct lenthuc_projection {
    double numbers[36];
};

/*
 * Builds a projection that has no area of use. Returns 0, or 2 to 15 but 3. A projection that was refused is filled too: it
 * answers every point and every ring by the number of its refusal, so a caller may leave the test to the first of them.
 * Proved: the number is that of the projection's construction by the definition build, and what *projection then holds, by the
 * definition unpacked, is that construction.
 */
uint8_t lenthuc_build(uint8_t kind, const struct lenthuc_settings *settings,
                      struct lenthuc_projection *LENTHUC_RESTRICT projection);

/*
 * Builds a projection that has an area of use. Returns 0, or 2 to 15 but 3, or 25. What is refused is filled as lenthuc_build
 * fills it. A place inside the area has the same results, bit for bit, as without one.
 * Proved: the number is that of the construction with the area by the definition build_in_area, and what *projection then
 * holds, by the definition unpacked, is that construction.
 */
uint8_t lenthuc_build_in_area(uint8_t kind, const struct lenthuc_settings *settings, const struct lenthuc_area *area,
                              struct lenthuc_projection *LENTHUC_RESTRICT projection);

/*
 * The easting and northing of a longitude and latitude. Returns 0, or 16 to 19, or the number of the projection's refusal;
 * with an area also 26, after 17 and before 18.
 * Proved: the number and the results are those of the definition forward, bit for bit, for the projection that the numbers
 * hold by the definition unpacked. This is so of any numbers, whoever wrote them: those that hold no projection, as 36 zeros
 * do, give 2. An area among them is not checked again, only compared: one that has a NaN edge holds no place.
 */
uint8_t lenthuc_forward(const struct lenthuc_projection *projection, double lon, double lat,
                        double *LENTHUC_RESTRICT easting, double *LENTHUC_RESTRICT northing);

/*
 * The longitude and latitude of an easting and northing. Returns 0, or 20 to 24, or the number of the projection's refusal;
 * with an area also 26, after 24. Neither way is exact, so a place on an edge, taken forward and back, may come out beside it
 * and get 26.
 * Proved: as for lenthuc_forward, by the definition inverse. And whatever is answered lies on the map, of any numbers: the
 * longitude is in [-pi, pi], normalising leaves it as it is, and it is within 2^-42 of the formula's own, up to whole turns;
 * the latitude is in [-pi/2 - 1e-12, pi/2 + 1e-12]; and, with an area, the place lies inside it.
 */
uint8_t lenthuc_inverse(const struct lenthuc_projection *projection, double easting, double northing,
                        double *LENTHUC_RESTRICT lon, double *LENTHUC_RESTRICT lat);

/*
 * A column of points by one projection. The five columns have as many elements as the lengths after them say. Where these are
 * equal, returns 0, and puts the results of point i into easting[i] and northing[i] and its number into numbers[i]. A refused
 * point does not stop the others. A projection's refusal is the number of every point, and 0 is still returned. Columns of
 * length 0 have no points: 0 is returned, and that is all. Where the lengths are not all equal, returns
 * LENTHUC_UNEQUAL_LENGTHS.
 * Proved: 0, and at each place what lenthuc_forward gives for it; or 255, and easting, northing and numbers as they were.
 */
uint8_t lenthuc_forward_column(const struct lenthuc_projection *projection, const double *lon, size_t lons,
                               const double *lat, size_t lats, double *LENTHUC_RESTRICT easting, size_t eastings,
                               double *LENTHUC_RESTRICT northing, size_t northings,
                               uint8_t *LENTHUC_RESTRICT numbers, size_t ns);

/*
 * The same back: at each place what lenthuc_inverse gives for it.
 * Proved: as for lenthuc_forward_column; and each place that is answered lies on the map, as for lenthuc_inverse.
 */
uint8_t lenthuc_inverse_column(const struct lenthuc_projection *projection, const double *easting, size_t eastings,
                               const double *northing, size_t northings, double *LENTHUC_RESTRICT lon, size_t lons,
                               double *LENTHUC_RESTRICT lat, size_t lats, uint8_t *LENTHUC_RESTRICT numbers, size_t ns);

/*
 * The second inverse: as lenthuc_inverse, but an easting and northing off the map, as a click in the frame around it has, are
 * refused by 30. lenthuc_inverse gives most of them a place, on the map's edge or, of E's easting, on the map's other side.
 *
 * Kinds L, S and E have a second inverse: for them 1 is returned, *number takes 0, or 20, 22 (E alone), 23, 24 or 30, with an
 * area also 26, and *lon and *lat the results. So it is with a projection that was refused, by its own number, and with numbers
 * that hold no projection, by 2. The kinds A, C, P and G have none: 0 is returned, and nothing is written.
 *
 * 30 comes where one of these is above its limit, as the inverse forms it:
 *
 * - L and S: rho / (2 * radius), above 1 + 1e-12. The radius is that of the sphere that has the ellipsoid's area. S's rho is
 *   the distance from the origin; L's is the root of (dx / d)^2 + (d * dy)^2, by the origin's scale d. About a pole L has the
 *   arcsine's quotient q / qp instead, above 1 + 1e-12 in size. Where rho is below 1e-9 it is the centre, which is answered
 *   before the test.
 * - E: the scaled northing, above 1.3173627591574 + 1e-12 in size; or the longitude from the origin, before lon0 is added,
 *   above pi + 1e-12 in size.
 *
 * A limit is one double, summed once, and what equals it passes. An infinity is above it, and a NaN is not. The numbers come
 * in this order: the projection's own; 20; 30, but not of E's longitude; 22; 30 of E's longitude; 23; 24; 26.
 * Proved: it returns what the definition has_second_inverse says of the projection that the numbers hold by the definition
 * unpacked, of any numbers; where that is 1, the number and the results are those of the definition inverse_on_map, bit for
 * bit. Where the number is not 30 they are lenthuc_inverse's. So whatever is answered lies on the map and inside the area of
 * use, as for lenthuc_inverse.
 */
uint8_t lenthuc_inverse_on_map(const struct lenthuc_projection *projection, double easting, double northing,
                               double *LENTHUC_RESTRICT lon, double *LENTHUC_RESTRICT lat,
                               uint8_t *LENTHUC_RESTRICT number);

/*
 * A column of points by the second inverse. Returns 1 or 0 as lenthuc_inverse_on_map does. Where it is 1, *number takes what
 * lenthuc_inverse_column returns, 0 or LENTHUC_UNEQUAL_LENGTHS, and the columns are filled likewise: at each place what
 * lenthuc_inverse_on_map gives for it. Where it is 0 nothing is written, whatever the lengths.
 * Proved: as for lenthuc_inverse_column and lenthuc_inverse_on_map.
 */
uint8_t lenthuc_inverse_on_map_column(const struct lenthuc_projection *projection, const double *easting, size_t eastings,
                                      const double *northing, size_t northings, double *LENTHUC_RESTRICT lon, size_t lons,
                                      double *LENTHUC_RESTRICT lat, size_t lats, uint8_t *LENTHUC_RESTRICT numbers,
                                      size_t ns, uint8_t *LENTHUC_RESTRICT number);

/* The most corners that a ring may have; and places of a buffer for each corner that are always enough for a ring's points. */
#define LENTHUC_RING_CORNERS 4096
#define LENTHUC_RING_ROOM 1024

/*
 * The area of a ring, as the edge of a catchment is, on a map of kind L, S, A or E: these keep areas. lon and lat are its
 * corners. The edge of a corner runs to the next one, and that of the last to the first. Returns 0, and puts the area into
 * *area, the number of the ring's points into *points, and the points into the first places of the buffers easting and
 * northing; later places stay as they are. Or returns another number, and puts +0 into *area and 0 into *points; both buffers
 * then stay as they are.
 *
 * - The area is positive where the ring runs counterclockwise on the map, easting to the right and northing up, and negative
 *   where it runs clockwise. A hole is a ring of its own: measure each ring alone, and subtract in size.
 * - An edge is straight in longitude and latitude. It is no great circle, and not straight on the map. So it is cut at the
 *   midpoint of its coordinates, and each half again, 10 times over at most. It is left uncut where this midpoint, on the
 *   map, is at most 0.5 from the middle between its ends. The 0.5 has the unit of a: so give a in metres.
 * - The ring's points are its corners and cut points, in ring order. The area is that of the polygon that they make on the
 *   map.
 * - Longitudes are taken as they are: from 3.1 to -3.1 an edge runs through 0. Across the 180 degree line write the eastern
 *   corners a turn higher, as 3.18 for -3.1. And take a lon0 that is near: A and E tear the map along the meridian opposite
 *   lon0, and the area of a ring across it means nothing.
 * - A ring whose last corner repeats the first is taken as it is, with an edge of no length.
 * - The area is summed of products of whole eastings and northings, so large false offsets cost it digits: prefer a
 *   projection that has none.
 * - A buffer of LENTHUC_RING_ROOM places for each corner is always long enough: an edge has at most 1,023 cut points. So no
 *   ring has more than 4,194,304 points.
 * - S keeps areas on a sphere alone: on the Earth's ellipsoid its areas are up to 0.9 % off.
 *
 * Other numbers than 0 are, in this order: that of the projection's refusal; 27; that of the first point that is refused, 16
 * to 19, with an area of use also 26; 28. The points are worked out in this order: all corners; then edge by edge the
 * midpoint, the first half, the second half. A midpoint may refuse the ring even where the edge would be left uncut. It is
 * judged by the area of use as a corner is.
 *
 * Nothing is written before the area is known: so the ring is gone round twice, and most points are projected twice or three
 * times. No memory is taken but the stack, some 15 kB as measured, and some 16 kB more for a longitude that is very far
 * off. How near the area is to the one on the ground is not proved.
 * Proved: the number, *area and *points are those of the definition ring_area, for the projection that the numbers hold by
 * the definition unpacked, of any numbers; and both buffers then hold the points of the definition ring, and after them what
 * stood there, or, of any refusal, all that stood there.
 */
uint8_t lenthuc_ring_area(const struct lenthuc_projection *projection, const double *lon, size_t lons, const double *lat,
                          size_t lats, double *LENTHUC_RESTRICT easting, size_t eastings,
                          double *LENTHUC_RESTRICT northing, size_t northings, double *LENTHUC_RESTRICT area,
                          size_t *LENTHUC_RESTRICT points);

/* The most schools that lenthuc_nearest takes. */
#define LENTHUC_NEAREST_SCHOOLS 256

/*
 * Schools by their distance from a home, the nearest first. easting and northing are the home's, eastings and northings the
 * schools', all on one map, and rolls has how many pupils each school has. Returns 0, and puts the schools' positions in their
 * lists, counted from 0, into the first places of order, each school once; later places stay as they are. Or returns 29, and
 * order stays as it is.
 *
 * - The school that has the least dx * dx + dy * dy is first, where dx and dy are its coordinates less the home's. Each
 *   operation rounds, and no root is taken. Of schools that have equal sums the one with the smaller roll is first, and only
 *   where rolls are equal too do they stand in the order in which they are given. No roll moves a farther school ahead.
 * - A caller without rolls hands in as many zeros as there are schools. Rolls past the last school are not read.
 * - 29 means that eastings_length is 0, above LENTHUC_NEAREST_SCHOOLS, other than northings_length, above rolls_length or above
 *   order_length; or that a coordinate, a school's or the home's, is not finite or is above 1e8 in size. 1e8 itself passes, and
 *   so does every roll.
 * - The distance is the straight one on the map, and not the way by road. How near it is to the one on the ground depends on
 *   the map, and is not proved.
 *
 * Proved: the number and the whole of order after the call are those of the definitions nearest_number and nearest_list, for
 * every length of the four lists. Where no two sums are equal, order is the same whatever the rolls; where all rolls are equal,
 * they decide nothing; and they never change the sum at a place of order.
 */
uint8_t lenthuc_nearest(double easting, double northing, const double *eastings, size_t eastings_length,
                        const double *northings, size_t northings_length, const uint16_t *rolls, size_t rolls_length,
                        uint16_t *LENTHUC_RESTRICT order, size_t order_length);

/* The most children that lenthuc_travel_charge takes, and how many places its shares have. */
#define LENTHUC_CHARGE_CHILDREN 60

/*
 * The charge for the way from a stop to a school, per started kilometre, and its shares among the children at the stop. dx and
 * dy are the school's easting and northing less the stop's, in metres. rate is the price of a kilometre in the smallest coin,
 * and children is how many there are; shares has LENTHUC_CHARGE_CHILDREN places whatever that is. Returns 0, and puts the
 * charge, in the smallest coin, into *charge, and the children's shares into the first places of shares; the places past the
 * last child take 0. Or returns 31, and puts 0 into *charge and into every place of shares.
 *
 * - On a map in metres, of the first school that lenthuc_nearest lists for the stop: dx = eastings[order[0]] - easting, and
 *   dy = northings[order[0]] - northing.
 * - The distance is the root of dx * dx + dy * dy. Each operation rounds, the root too, to the nearest double. It is the
 *   straight distance on the map, as for lenthuc_nearest.
 * - The charge is k * rate, where k is the least whole number with 1,000 * k not below the distance. So 0 m costs 0, 1,000 m
 *   are 1 km, and the next double above 1,000 is 2 km.
 * - Kilometres go by the root as it rounds, and not by the sum: (5000, 6e-5) is 5 km, though its sum is above 25,000,000. And
 *   (1e-200, 0) costs 0, since its square vanishes.
 * - Shares differ by at most one coin, the larger first, and add up to the charge: the first (charge % children) children pay
 *   one coin more than the others.
 * - 31 means that rate is above 1,000,000, that children is 0 or above LENTHUC_CHARGE_CHILDREN, or that the distance is not
 *   finite or is above 1,000,000 m. The limits themselves pass. dx and dy have no limit of their own. rate and children have
 *   64 bits, so that no larger number is cut to one that passes. An int of -1 is refused too.
 *
 * Proved: the number, *charge and every place of shares are those of the definition travel_charge, for every input. And the
 * shares add up to the charge and never rise; those of any two children differ by at most one; past the last child they are 0.
 * Where dx * dx + dy * dy is no greater than that of another way, which is answered, this one is too, and costs no more: so
 * along the schools that lenthuc_nearest lists charges never fall.
 */
uint8_t lenthuc_travel_charge(double dx, double dy, uint64_t rate, uint64_t children, uint64_t *LENTHUC_RESTRICT charge,
                              uint64_t *LENTHUC_RESTRICT shares);

/* The most bytes that a sheet may have; and room for the longest answer to a sheet. */
#define LENTHUC_SHEET_LIMIT 65536
#define LENTHUC_SHEET_ROOM 2357757

/*
 * Answers a sheet, text for text: the README says what a sheet is. input and output have in and room bytes. Returns the length
 * of the answer, which stands at the output's start; every other byte of the output is as it was. An output that has less
 * than LENTHUC_SHEET_ROOM bytes is left as it is, and LENTHUC_SHEET_ROOM is returned, which is then more than room. A sheet
 * over the limit is answered by a line that says so, so no more than one byte over it need be handed in. A sheet's
 * projections have no area of use.
 * Proved: the output is that of the definition sheet_text, and the length is its length; or room is too little, and the output
 * is as it was. And whatever an inverse line answers lies on the map, as for lenthuc_inverse.
 */
size_t lenthuc_answer_sheet(const uint8_t *input, size_t in, uint8_t *LENTHUC_RESTRICT output, size_t room);

#ifdef __cplusplus
}
#endif

#endif
