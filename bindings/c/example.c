/*
 * IOGP 7-2's Cassini-Soldner example, Trinidad 1903 / Trinidad Grid, in Clarke's links: a projection that is built once, a
 * point forward and back, and a small column with a refused point in it; then projections that are refused, an atlas on a
 * sphere, an area of use across the 180 degree line, clicks on a map and in its frame, the area of a catchment, the schools
 * nearest to a home, what the way to one costs, and a sheet.
 * Checks its own answers: the exit status is 0 if all are right. It is C89, and C++ too.
 */
#include "lenthuc.h"

#include <stdio.h>
#include <string.h>

#define POINTS 4
#define CLICKS 3
#define CORNERS 5
#define SCHOOLS 4
#define CHILDREN 7

static const double pi = 3.14159265358979323846;

static struct lenthuc_settings settings;
static struct lenthuc_projection trinidad, office, everywhere, district;

static int wrong = 0;

static void check(int right, const char *what)
{
    if (!right) {
        fprintf(stderr, "wrong: %s\n", what);
        wrong = 1;
    }
}

static double radians(double angle)
{
    return angle * (pi / 180.0);
}

static double degrees(double angle)
{
    return angle * (180.0 / pi);
}

/* Whether x has the pattern whose first and second half these are. */
static int is(double x, uint32_t first, uint32_t second)
{
    uint64_t pattern;
    memcpy(&pattern, &x, sizeof pattern);
    return pattern >> 32 == first && (pattern & 0xffffffff) == second;
}

static int same(double x, double y)
{
    return memcmp(&x, &y, sizeof x) == 0;
}

static void the_version(void)
{
    printf("version: %d\n", (int)lenthuc_version());
    check(lenthuc_version() == LENTHUC_VERSION, "the archive's version");
}

/* What is not set here is 0: a Cassini-Soldner has no parallels. */
static void a_projection(void)
{
    uint8_t number;
    settings.a = 31706587.88;
    check(lenthuc_from_a_rf(settings.a, 294.2606764, &settings.f) == LENTHUC_ANSWERED, "the ellipsoid");
    check(lenthuc_from_a_f(settings.a, settings.f) == LENTHUC_ANSWERED, "the ellipsoid by its flattening");
    settings.lon0 = radians(-(61.0 + 20.0 / 60.0));
    settings.lat0 = radians(10.0 + 26.0 / 60.0 + 30.0 / 3600.0);
    settings.fe = 430000.0;
    settings.fn = 325000.0;
    number = lenthuc_build(LENTHUC_CASSINI, &settings, &trinidad);
    printf("building: %s\n", lenthuc_words(number));
    check(number == LENTHUC_ANSWERED, "the projection");
}

static void a_point_forward(void)
{
    double easting, northing;
    uint8_t number = lenthuc_forward(&trinidad, radians(-62.0), radians(10.0), &easting, &northing);
    printf("62 W, 10 N: number %d, easting %.4f, northing %.4f\n", number, easting, northing);
    check(number == LENTHUC_ANSWERED, "the number forward");
    check(is(easting, 0x40f0454f, 0x0bdb9460), "the easting");
    check(is(northing, 0x40f42683, 0x7fe7fd8f), "the northing");
}

static void a_point_back(void)
{
    double lon, lat;
    uint8_t number = lenthuc_inverse(&trinidad, 66644.94, 82536.22, &lon, &lat);
    printf("66644.94, 82536.22: number %d, longitude %.8f, latitude %.8f degrees\n", number, degrees(lon), degrees(lat));
    check(number == LENTHUC_ANSWERED, "the number back");
    check(is(lon, 0xbff1504c, 0x6d40e818), "the longitude");
    check(is(lat, 0x3fc65718, 0x4afb646b), "the latitude");
}

/* The third point's latitude is beyond a pole. Its neighbours are answered as single calls answer them. */
static void a_column(void)
{
    static const double homes[POINTS][2] = {{-62.0, 10.0}, {-61.5, 10.5}, {-61.5, 105.0}, {-61.0, 11.0}};
    double lon[POINTS], lat[POINTS], easting[POINTS], northing[POINTS];
    uint8_t numbers[POINTS];
    uint8_t said;
    size_t i;
    for (i = 0; i < POINTS; i++) {
        lon[i] = radians(homes[i][0]);
        lat[i] = radians(homes[i][1]);
    }
    said = lenthuc_forward_column(&trinidad, lon, POINTS, lat, POINTS, easting, POINTS, northing, POINTS, numbers, POINTS);
    check(said == LENTHUC_ANSWERED, "the column");
    for (i = 0; i < POINTS; i++) {
        double p, q;
        uint8_t number = lenthuc_forward(&trinidad, lon[i], lat[i], &p, &q);
        if (numbers[i] == LENTHUC_ANSWERED) {
            printf("point %d: easting %.4f, northing %.4f\n", (int)i, easting[i], northing[i]);
        } else {
            printf("point %d: %s\n", (int)i, lenthuc_words(numbers[i]));
        }
        check(numbers[i] == (i == 2 ? LENTHUC_FORWARD_BEYOND : LENTHUC_ANSWERED), "a number of the column");
        check(numbers[i] == number && same(easting[i], p) && same(northing[i], q), "a single call for the column's");
    }
    check(is(easting[2], 0, 0) && is(northing[2], 0, 0), "the refused point's results");

    /* The first two back: a part of a column is a column. */
    said = lenthuc_inverse_column(&trinidad, easting, 2, northing, 2, lon, 2, lat, 2, numbers, 2);
    check(said == LENTHUC_ANSWERED && numbers[0] == LENTHUC_ANSWERED && numbers[1] == LENTHUC_ANSWERED, "the column back");
    for (i = 0; i < 2; i++) {
        double off_lon = degrees(lon[i]) - homes[i][0], off_lat = degrees(lat[i]) - homes[i][1];
        check(-1e-8 < off_lon && off_lon < 1e-8 && -1e-8 < off_lat && off_lat < 1e-8, "a point of the column back");
    }
}

/* One longitude too few: the call says so, and what is lent stays as it is. */
static void unequal_lengths(void)
{
    const double lon[1] = {0.0};
    const double lat[2] = {0.0, 0.0};
    double easting[2] = {1.0, 2.0}, northing[2] = {3.0, 4.0};
    uint8_t numbers[2] = {5, 6};
    uint8_t said = lenthuc_forward_column(&trinidad, lon, 1, lat, 2, easting, 2, northing, 2, numbers, 2);
    printf("a longitude too few: %s\n", lenthuc_words(said));
    check(said == LENTHUC_UNEQUAL_LENGTHS, "unequal lengths");
    check(easting[0] == 1.0 && easting[1] == 2.0 && northing[0] == 3.0 && northing[1] == 4.0 && numbers[0] == 5 &&
              numbers[1] == 6,
          "what was lent to unequal lengths");
    check(lenthuc_forward_column(&trinidad, NULL, 0, NULL, 0, NULL, 0, NULL, 0, NULL, 0) == LENTHUC_ANSWERED, "no points");
}

/* Whether every call by the projection gives the number, and +0 for results. */
static int all_refused(const struct lenthuc_projection *projection, uint8_t number)
{
    const double u[2] = {-1.0, 0.5}, v[2] = {0.2, 9.0};
    double p[2] = {1.0, 2.0}, q[2] = {3.0, 4.0};
    uint8_t numbers[2] = {99, 99}, on_map = 99;
    double x, y, area = 5.0;
    size_t points = 6;
    int right = lenthuc_forward(projection, u[0], v[0], &x, &y) == number && is(x, 0, 0) && is(y, 0, 0);
    right = right && lenthuc_inverse(projection, u[0], v[0], &x, &y) == number && is(x, 0, 0) && is(y, 0, 0);
    right = right && lenthuc_inverse_column(projection, u, 1, v, 1, p, 1, q, 1, numbers, 1) == LENTHUC_ANSWERED;
    right = right && numbers[0] == number && is(p[0], 0, 0) && is(q[0], 0, 0);
    x = y = 7.0;
    right = right && lenthuc_inverse_on_map(projection, u[0], v[0], &x, &y, &on_map) == 1 && on_map == number;
    right = right && is(x, 0, 0) && is(y, 0, 0);
    right = right && lenthuc_ring_area(projection, u, 2, v, 2, p + 1, 1, q + 1, 1, &area, &points) == number;
    right = right && is(area, 0, 0) && points == 0 && p[1] == 2.0 && q[1] == 4.0;
    right = right && lenthuc_forward_column(projection, u, 2, v, 2, p, 2, q, 2, numbers, 2) == LENTHUC_ANSWERED;
    return right && numbers[0] == number && numbers[1] == number && is(p[0], 0, 0) && is(p[1], 0, 0) && is(q[0], 0, 0) &&
           is(q[1], 0, 0);
}

/* A projection that was refused answers every point by its own number; so do a wrong letter, and numbers that no one built. */
static void refused_projections(void)
{
    struct lenthuc_settings sphere = settings;
    struct lenthuc_projection refused, nothing;
    uint8_t number;
    sphere.f = 0.0;
    number = lenthuc_build(LENTHUC_GUAM, &sphere, &refused);
    printf("Guam on a sphere: %s\n", lenthuc_words(number));
    check(number == LENTHUC_SPHERE && all_refused(&refused, number), "a refused projection");
    number = lenthuc_build('c', &settings, &refused);
    printf("the kind c: %s\n", lenthuc_words(number));
    check(number == LENTHUC_LINE_FORM && all_refused(&refused, number), "a letter that names no kind");
    memset(&nothing, 0, sizeof nothing);
    check(all_refused(&nothing, LENTHUC_LINE_FORM), "36 zeros");
    refused = trinidad;
    check(!all_refused(&refused, LENTHUC_LINE_FORM), "a copy of a built projection");
}

/* Snyder's example of Albers on a sphere: he prints 0.2952720 and 0.2416774. Off the map there is no place. */
static void an_atlas(void)
{
    struct lenthuc_settings sphere = {1.0, 0.0, 0.0, 0.0, 0.0, 0.0, 0.0, 0.0};
    struct lenthuc_projection atlas;
    double x, y, lon, lat;
    uint8_t number;
    sphere.lon0 = radians(-96.0);
    sphere.lat0 = radians(23.0);
    sphere.lat1 = radians(29.5);
    sphere.lat2 = radians(45.5);
    check(lenthuc_build(LENTHUC_ALBERS, &sphere, &atlas) == LENTHUC_ANSWERED, "the atlas");
    check(lenthuc_forward(&atlas, radians(-75.0), radians(35.0), &x, &y) == LENTHUC_ANSWERED, "a place of the atlas");
    printf("atlas: %.7f %.7f\n", x, y);
    check(0.29527195 < x && x < 0.29527205 && 0.24167735 < y && y < 0.24167745, "Snyder's digits");
    check(lenthuc_inverse(&atlas, x, y, &lon, &lat) == LENTHUC_ANSWERED, "the atlas back");
    lon = degrees(lon) + 75.0;
    lat = degrees(lat) - 35.0;
    check(-1e-12 < lon && lon < 1e-12 && -1e-12 < lat && lat < 1e-12, "the place back");
    number = lenthuc_inverse(&atlas, 0.0, 9.0, &lon, &lat);
    printf("off the atlas: %s\n", lenthuc_words(number));
    check(number == LENTHUC_INVERSE_RESULT && is(lon, 0, 0) && is(lat, 0, 0), "off the atlas");
}

/* A map about the 180 degree line for an office that spans it, from 176 E to 178 W: the area's west is above its east. */
static void an_area(void)
{
    struct lenthuc_settings about_180 = {6378137.0, 1 / 298.257223563, 0.0, 0.0, 0.0, 0.0, 0.0, 0.0};
    struct lenthuc_area area;
    about_180.lon0 = pi;
    about_180.lat0 = radians(-17.0);
    area.west = lenthuc_normalize_longitude(radians(176.0));
    area.east = lenthuc_normalize_longitude(radians(-178.0));
    area.south = radians(-21.0);
    area.north = radians(-12.0);
    check(lenthuc_build_in_area(LENTHUC_LAMBERT, &about_180, &area, &office) == LENTHUC_ANSWERED, "the office's map");
    check(lenthuc_build(LENTHUC_LAMBERT, &about_180, &everywhere) == LENTHUC_ANSWERED, "the same without an area");
}

/*
 * Homes west of the line, east of it, and east of it by 181 degrees are inside, and answered as without an area. The last one
 * is on the wrong coast. Back, by its easting and northing without an area, it is not handed out either.
 */
static void homes_of_the_area(void)
{
    static const double homes[POINTS][2] = {{178.5, -18.1}, {-179.9, -16.8}, {181.0, -17.2}, {-175.2, -20.5}};
    static const double back[POINTS] = {178.5, -179.9, -179.0, 0.0};
    double lon[POINTS], lat[POINTS], easting[POINTS], northing[POINTS];
    uint8_t numbers[POINTS];
    uint8_t said;
    size_t i;
    for (i = 0; i < POINTS; i++) {
        lon[i] = radians(homes[i][0]);
        lat[i] = radians(homes[i][1]);
    }
    said = lenthuc_forward_column(&office, lon, POINTS, lat, POINTS, easting, POINTS, northing, POINTS, numbers, POINTS);
    check(said == LENTHUC_ANSWERED, "the homes");
    for (i = 0; i < POINTS; i++) {
        const int inside = i < 3;
        double x, y, p, q;
        printf("home %d, longitude %.1f: %s\n", (int)i, homes[i][0], lenthuc_words(numbers[i]));
        check(numbers[i] == (inside ? LENTHUC_ANSWERED : LENTHUC_OUTSIDE_AREA), "a home's number");
        check(lenthuc_forward(&office, lon[i], lat[i], &p, &q) == numbers[i], "a single home's number");
        check(same(p, easting[i]) && same(q, northing[i]), "a single home");
        check(lenthuc_forward(&everywhere, lon[i], lat[i], &x, &y) == LENTHUC_ANSWERED, "a home without an area");
        check(inside ? same(p, x) && same(q, y) : is(p, 0, 0) && is(q, 0, 0), "a home's results");
        check(lenthuc_inverse(&office, x, y, &p, &q) == numbers[i], "a home's number back");
        check(-1e-8 < degrees(p) - back[i] && degrees(p) - back[i] < 1e-8, "a home back");
    }
}

/* Normalising makes of 0.1 a number above it. A place's longitude is normalised, so an edge is to be too. */
static void an_edge(void)
{
    struct lenthuc_area area = {-1.0, 0.1, -1.0, 1.0};
    struct lenthuc_projection world;
    double easting, northing;
    uint8_t number;
    check(is(lenthuc_normalize_longitude(0.1), 0x3fb99999, 0x999999a0), "0.1, normalised");
    check(lenthuc_build_in_area(LENTHUC_EQUAL_EARTH, &settings, &area, &world) == LENTHUC_ANSWERED, "an area to 0.1");
    number = lenthuc_forward(&world, 0.1, 0.5, &easting, &northing);
    printf("longitude 0.1, edge 0.1: %s\n", lenthuc_words(number));
    check(number == LENTHUC_OUTSIDE_AREA, "an edge as it is");
    area.east = lenthuc_normalize_longitude(area.east);
    check(same(lenthuc_normalize_longitude(area.east), area.east), "an edge, normalised twice");
    check(lenthuc_build_in_area(LENTHUC_EQUAL_EARTH, &settings, &area, &world) == LENTHUC_ANSWERED, "a normalised edge");
    number = lenthuc_forward(&world, 0.1, 0.5, &easting, &northing);
    printf("longitude 0.1, edge 0.1, normalised: %s\n", lenthuc_words(number));
    check(number == LENTHUC_ANSWERED, "a place on a normalised edge");
}

/* Refused as a projection is; the kind and the settings are looked at before the area. */
static void refused_areas(void)
{
    static const struct lenthuc_area areas[3] = {{-3.2, 1.0, -1.0, 1.0}, {-1.0, 1.0, -1.6, 1.0}, {-1.0, 1.0, 0.5, 0.4}};
    struct lenthuc_settings sphere = settings;
    struct lenthuc_projection refused;
    uint8_t number;
    size_t i;
    for (i = 0; i < 3; i++) {
        number = lenthuc_build_in_area(LENTHUC_CASSINI, &settings, &areas[i], &refused);
        check(number == LENTHUC_AREA_EDGES && all_refused(&refused, number), "a refused area");
    }
    printf("a south above its north: %s\n", lenthuc_words(number));
    sphere.f = 0.0;
    number = lenthuc_build_in_area(LENTHUC_GUAM, &sphere, &areas[0], &refused);
    check(number == LENTHUC_SPHERE && all_refused(&refused, number), "Guam on a sphere in a refused area");
    number = lenthuc_build_in_area('c', &settings, &areas[0], &refused);
    check(number == LENTHUC_LINE_FORM && all_refused(&refused, number), "the kind c in a refused area");
}

/*
 * Clicks on a drawn map of the world: on the map, in the frame beside it, and in the frame above it. The first inverse has a
 * place for each; the second refuses those in the frame, and gives the other one the same place.
 */
static void clicks(void)
{
    static const double easting[CLICKS] = {1.0e7, 1.7e7, 0.0}, northing[CLICKS] = {5.0e6, 5.0e6, 9.0e6};
    struct lenthuc_settings of_the_world = {6378137.0, 1 / 298.257223563, 0.0, 0.0, 0.0, 0.0, 0.0, 0.0};
    struct lenthuc_projection world;
    double lon[CLICKS], lat[CLICKS];
    uint8_t numbers[CLICKS];
    uint8_t said = 99;
    size_t i;
    check(lenthuc_build(LENTHUC_EQUAL_EARTH, &of_the_world, &world) == LENTHUC_ANSWERED, "the drawn map");
    check(lenthuc_inverse_on_map_column(&world, easting, CLICKS, northing, CLICKS, lon, CLICKS, lat, CLICKS, numbers, CLICKS,
                                        &said) == 1,
          "the clicks");
    check(said == LENTHUC_ANSWERED, "the clicks' lengths");
    for (i = 0; i < CLICKS; i++) {
        const int on_map = i == 0;
        double x, y, p, q;
        uint8_t number = 99;
        printf("click %d: %s\n", (int)i, lenthuc_words(numbers[i]));
        check(numbers[i] == (on_map ? LENTHUC_ANSWERED : LENTHUC_OFF_THE_MAP), "a click's number");
        check(lenthuc_inverse_on_map(&world, easting[i], northing[i], &p, &q, &number) == 1, "a single click");
        check(number == numbers[i] && same(p, lon[i]) && same(q, lat[i]), "a single click for the column's");
        check(lenthuc_inverse(&world, easting[i], northing[i], &x, &y) == LENTHUC_ANSWERED, "a click by the first inverse");
        check(on_map ? same(p, x) && same(q, y) : is(p, 0, 0) && is(q, 0, 0), "a click's results");
    }
}

/* A Cassini-Soldner has no second inverse: the calls say so, and what is lent stays as it is. */
static void no_second_inverse(void)
{
    const double easting[1] = {66644.94}, northing[1] = {82536.22};
    double lon[1] = {1.0}, lat[1] = {2.0};
    uint8_t numbers[1] = {3}, number = 4;
    int has = lenthuc_inverse_on_map(&trinidad, easting[0], northing[0], lon, lat, &number);
    printf("a second inverse of a Cassini-Soldner: %s\n", has ? "yes" : "no");
    check(has == 0, "a second inverse of a Cassini-Soldner");
    has = lenthuc_inverse_on_map_column(&trinidad, easting, 1, northing, 1, lon, 1, lat, 1, numbers, 1, &number);
    check(has == 0, "a column of it");
    check(lon[0] == 1.0 && lat[0] == 2.0 && numbers[0] == 3 && number == 4, "what was lent to no second inverse");
}

/* The corners of a catchment, counterclockwise, in degrees; and buffers that are long enough for any five corners. */
static const double corners[CORNERS][2] = {{6.05, 49.58}, {6.17, 49.57}, {6.21, 49.63}, {6.12, 49.67}, {6.04, 49.64}};
static double eastings[CORNERS * LENTHUC_RING_ROOM], northings[CORNERS * LENTHUC_RING_ROOM];

/* Measures the catchment on a map, the other way round if that is asked, with so many places of the buffers. */
static uint8_t measure(const struct lenthuc_projection *map, int clockwise, size_t places, double *area, size_t *points)
{
    double lon[CORNERS], lat[CORNERS];
    size_t i;
    for (i = 0; i < CORNERS; i++) {
        const double *corner = corners[clockwise ? CORNERS - 1 - i : i];
        lon[i] = radians(corner[0]);
        lat[i] = radians(corner[1]);
    }
    return lenthuc_ring_area(map, lon, CORNERS, lat, CORNERS, eastings, places, northings, places, area, points);
}

/* On a map about the catchment that keeps areas. Some edges are cut, so the ring has more points than corners. */
static void a_catchment(void)
{
    const size_t places = CORNERS * LENTHUC_RING_ROOM;
    struct lenthuc_settings about = {6378137.0, 1 / 298.257223563, 0.0, 0.0, 0.0, 0.0, 0.0, 0.0};
    double area, turned, x, y;
    size_t points;
    about.lon0 = radians(6.13);
    about.lat0 = radians(49.62);
    check(lenthuc_build(LENTHUC_LAMBERT, &about, &district) == LENTHUC_ANSWERED, "the district's map");
    check(measure(&district, 1, places, &turned, &points) == LENTHUC_ANSWERED, "the catchment, clockwise");
    eastings[9] = 1.0;
    northings[9] = 2.0;
    check(measure(&district, 0, places, &area, &points) == LENTHUC_ANSWERED, "the catchment");
    printf("a catchment: %.0f hectares, %d points\n", area / 10000.0, (int)points);
    check(94839000.0 < area && area < 94840000.0, "the catchment's area");
    check(-area - 0.001 < turned && turned < -area + 0.001, "its area, clockwise");
    check(points == 9, "the catchment's points");
    check(lenthuc_forward(&district, radians(6.05), radians(49.58), &x, &y) == LENTHUC_ANSWERED, "a corner");
    check(same(x, eastings[0]) && same(y, northings[0]), "the first point");
    check(eastings[9] == 1.0 && northings[9] == 2.0, "what stands after the points");
}

/* A Cassini-Soldner does not keep areas; and nine points have no room in eight places. The buffers stay as they are. */
static void refused_rings(void)
{
    double area = 1.0;
    size_t points = 1;
    uint8_t number;
    eastings[0] = 3.0;
    northings[7] = 4.0;
    number = measure(&trinidad, 0, 9, &area, &points);
    printf("a catchment on a Cassini-Soldner: %s\n", lenthuc_words(number));
    check(number == LENTHUC_RING_FORM && is(area, 0, 0) && points == 0, "a catchment on a Cassini-Soldner");
    area = 1.0;
    points = 1;
    number = measure(&district, 0, 8, &area, &points);
    printf("too short a buffer: %s\n", lenthuc_words(number));
    check(number == LENTHUC_RING_RESULT && is(area, 0, 0) && points == 0, "too short a buffer");
    check(eastings[0] == 3.0 && northings[7] == 4.0, "what the buffers of refused rings hold");
    check(measure(&district, 0, 9, &area, &points) == LENTHUC_ANSWERED && points == 9, "buffers that are just long enough");
    number = lenthuc_ring_area(&district, NULL, 0, NULL, 0, NULL, 0, NULL, 0, &area, &points);
    check(number == LENTHUC_RING_FORM, "no corners");
}

/*
 * Metres on a map: the schools are 2,500, 500, 500 and 150 from the home, with 90, 480, 260 and 700 pupils. Of equal distances
 * fewer pupils come first; without rolls, all zeros, the first given does.
 */
static void nearest_schools(void)
{
    static const double east[SCHOOLS] = {900.0, -100.0, 200.0, 350.0}, north[SCHOOLS] = {2500.0, 500.0, -400.0, 100.0};
    static const uint16_t rolls[SCHOOLS] = {90, 480, 260, 700}, zeros[SCHOOLS] = {0, 0, 0, 0};
    uint16_t order[SCHOOLS + 1] = {9, 9, 9, 9, 9};
    uint8_t number = lenthuc_nearest(200.0, 100.0, east, SCHOOLS, north, SCHOOLS, rolls, SCHOOLS, order, SCHOOLS - 1);
    printf("too short a list: %s\n", lenthuc_words(number));
    check(number == LENTHUC_NEAREST_INPUT, "too short a list");
    number = lenthuc_nearest(200.0, 100.0, east, SCHOOLS, north, SCHOOLS, rolls, SCHOOLS - 1, order, SCHOOLS);
    check(number == LENTHUC_NEAREST_INPUT, "fewer rolls than schools");
    check(order[0] == 9 && order[1] == 9 && order[2] == 9 && order[3] == 9, "what a refused list holds");
    number = lenthuc_nearest(200.0, 100.0, east, SCHOOLS, north, SCHOOLS, rolls, SCHOOLS, order, SCHOOLS + 1);
    printf("schools, the nearest first: %d %d %d %d\n", order[0], order[1], order[2], order[3]);
    check(number == LENTHUC_ANSWERED, "the nearest schools");
    check(order[0] == 3 && order[1] == 2 && order[2] == 1 && order[3] == 0, "the schools' order");
    check(order[4] == 9, "what stands after the schools");
    number = lenthuc_nearest(200.0, 100.0, east, SCHOOLS, north, SCHOOLS, zeros, SCHOOLS, order, SCHOOLS);
    check(number == LENTHUC_ANSWERED, "schools without rolls");
    check(order[0] == 3 && order[1] == 1 && order[2] == 2 && order[3] == 0, "the order of schools without rolls");
    check(lenthuc_nearest(200.0, 100.0, NULL, 0, NULL, 0, NULL, 0, NULL, 0) == LENTHUC_NEAREST_INPUT, "no schools");
}

/* An amount in the smallest coin, of which a hundred are a whole one. */
static void print_coins(uint64_t coins)
{
    printf(" %lu.%02lu", (unsigned long)(coins / 100), (unsigned long)(coins % 100));
}

/*
 * Seven children at a stop, and a school 5,200 metres from it: six kilometres are started, at 0.40 each. 2.40 is no multiple of
 * seven, so two children pay 0.35 and five 0.34. Then a school that is too far, and no children: no share stays from before.
 */
static void a_travel_charge(void)
{
    const double stop[2] = {1200.0, -300.0}, school[2] = {6000.0, 1700.0};
    uint64_t shares[LENTHUC_CHARGE_CHILDREN], charge = 9, sum = 0;
    uint8_t number;
    size_t i;
    for (i = 0; i < LENTHUC_CHARGE_CHILDREN; i++) {
        shares[i] = 9;
    }
    number = lenthuc_travel_charge(school[0] - stop[0], school[1] - stop[1], 40, CHILDREN, &charge, shares);
    printf("the charge, and each child's share:");
    print_coins(charge);
    printf(";");
    for (i = 0; i < CHILDREN; i++) {
        print_coins(shares[i]);
    }
    printf("\n");
    check(number == LENTHUC_ANSWERED && charge == 240, "the charge");
    for (i = 0; i < LENTHUC_CHARGE_CHILDREN; i++) {
        check(shares[i] == (i < 2 ? 35u : i < CHILDREN ? 34u : 0u), "a share");
        sum += shares[i];
    }
    check(sum == charge, "the shares' sum");
    check(lenthuc_travel_charge(1000.0, 0.0, 40, 1, &charge, shares) == LENTHUC_ANSWERED && charge == 40, "one kilometre");
    check(lenthuc_travel_charge(0.0, 0.0, 40, 1, &charge, shares) == LENTHUC_ANSWERED && charge == 0, "no way");

    check(lenthuc_travel_charge(1e6, 0.0, 40, CHILDREN, &charge, shares) == LENTHUC_ANSWERED && charge == 40000, "1,000 km");
    number = lenthuc_travel_charge(1e6, 1.0, 40, CHILDREN, &charge, shares);
    printf("too far a school: %s\n", lenthuc_words(number));
    check(number == LENTHUC_CHARGE_INPUT && charge == 0, "too far a school");
    for (i = 0; i < LENTHUC_CHARGE_CHILDREN; i++) {
        check(shares[i] == 0, "a share of no charge");
    }
    check(lenthuc_travel_charge(1000.0, 0.0, 40, 0, &charge, shares) == LENTHUC_CHARGE_INPUT, "no children");
}

/* Every number that a call may return has words of its own, and no other number has any. */
static void words(void)
{
    int count = 0, i, j;
    for (i = 0; i < 256; i++) {
        const char *said = lenthuc_words((uint8_t)i);
        count += said != NULL;
        check((said != NULL) == (i == 0 || (2 <= i && i <= 31) || i == 255), "a number's words");
        for (j = 0; j < i; j++) {
            const char *other = lenthuc_words((uint8_t)j);
            check(said == NULL || other == NULL || strcmp(said, other) != 0, "words that come twice");
        }
    }
    printf("numbers with words: %d\n", count);
}

/* Document 01's example; then an output that is a byte too short, which stays as it is. */
static void a_sheet(void)
{
    static const char sheet[] =
        "way,kind,a,f,lon0,lat0,lat1,lat2,fe,fn,u,v\n"
        "F,P,3ff0000000000000,0000000000000000,0000000000000000,0000000000000000,0000000000000000,0000000000000000,"
        "0000000000000000,0000000000000000,3fe0000000000000,0000000000000000\n";
    static const char answer[] = "code,p,q\n0,3fe0000000000000,0000000000000000\n";
    static uint8_t output[LENTHUC_SHEET_ROOM];
    size_t length = lenthuc_answer_sheet((const uint8_t *)sheet, strlen(sheet), output, sizeof output);
    printf("a sheet:\n%.*s", (int)length, (const char *)output);
    check(length == strlen(answer) && memcmp(output, answer, length) == 0, "the sheet's answer");
    check(output[length] == 0, "what stands after the sheet's answer");
    output[0] = 'x';
    check(lenthuc_answer_sheet((const uint8_t *)sheet, strlen(sheet), output, sizeof output - 1) == LENTHUC_SHEET_ROOM,
          "too short an output");
    check(output[0] == 'x' && memcmp(output + 1, answer + 1, length - 1) == 0, "what too short an output holds");
    check(lenthuc_answer_sheet(NULL, 0, NULL, 0) == LENTHUC_SHEET_ROOM, "no output");
}

int main(void)
{
    the_version();
    a_projection();
    a_point_forward();
    a_point_back();
    a_column();
    unequal_lengths();
    refused_projections();
    an_atlas();
    an_area();
    homes_of_the_area();
    an_edge();
    refused_areas();
    clicks();
    no_second_inverse();
    a_catchment();
    refused_rings();
    nearest_schools();
    a_travel_charge();
    words();
    a_sheet();
    if (!wrong) {
        puts("all answers are right");
    }
    return wrong;
}
