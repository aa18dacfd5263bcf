/*
 * Makes each of the calls after the picker once, and prints what it answers: its
 * name, then `0 X Y Z`, floats as their bits in hexadecimal, or a refusal's number.
 * From the repository's root:
 *
 *     (cd crates/capi && rt lib)
 *     gcc -Iinclude examples/after.c crates/capi/out/libcapi.a -o crates/capi/out/after
 *     crates/capi/out/after
 */
#include <inttypes.h>
#include <stdio.h>
#include <string.h>

#include "facepoint.h"

#define LENGTH(list) (sizeof (list) / sizeof (list)[0])

static double result[FACEPOINT_RESULT_LENGTH];

static uint64_t bits(double x)
{
    uint64_t b;
    memcpy(&b, &x, sizeof b);
    return b;
}

static void show(const char *name, uint32_t status)
{
    printf("%s: %" PRIu32, name, status);
    for (int k = 0; status == 0 && k < 3; k++) {
        printf(" %016" PRIX64, bits(result[k]));
    }
    printf("\n");
}

static void sample_parameter(void)
{
    show("sample_parameter", facepoint_sample_parameter(
        0.0, 6.28125, 4, result, FACEPOINT_RESULT_LENGTH));
}

/* A trim that runs against its edge, from (1, 0, 0) to the origin. */
static void direction(void)
{
    static const double points[FACEPOINT_POINTS_LENGTH] = {
        1, 0, 0,  0, 0, 0.00005,  0, 0, 0,  1, 0, 0,
    };
    show("direction", facepoint_direction(
        points, LENGTH(points), result, FACEPOINT_RESULT_LENGTH));
}

/* An octant of the unit sphere; its second side runs against its edge. */
static void spherical_triangle(void)
{
    static const double centre[] = { 0, 0, 0 };
    static const double sides[3 * FACEPOINT_SIDE_LENGTH] = {
        1, 0, 0,  0, 1, 0,  0,  0, 0, 0,  1,  0, 1.5,  1, 0, 0,  0, 1, 0,
        0, 0, 1,  0, 1, 0,  1,  0, 0, 0,  1,  0, 1.5,  0, 0, 1,  0, 1, 0,
        0, 0, 1,  1, 0, 0,  0,  0, 0, 0,  1,  0, 1.5,  0, 0, 1,  1, 0, 0,
    };
    show("spherical_triangle", facepoint_spherical_triangle(
        centre, LENGTH(centre), 1.0, 1, sides, LENGTH(sides),
        result, FACEPOINT_RESULT_LENGTH));
}

/* A dart: the middle of the first three corners lies outside. */
static void point_on(void)
{
    static const double u_axis[] = { 1, 0, 0 };
    static const double normal[] = { 0, 0, 1 };
    static const double corners[] = { 3, 1, 4,  6, 0, 4,  3, 8, 4,  0, 0, 4 };
    show("point_on", facepoint_point_on(
        u_axis, LENGTH(u_axis), normal, LENGTH(normal), corners, LENGTH(corners),
        result, FACEPOINT_RESULT_LENGTH));
}

/* One corner angle: the face goes all the way round. */
static void cylinder_point(void)
{
    static const double heights[] = { 2, -1, 2 };
    static const double angles[] = { 0, 0 };
    show("cylinder_point", facepoint_cylinder_point(
        heights, LENGTH(heights), angles, LENGTH(angles),
        result, FACEPOINT_RESULT_LENGTH));
}

/* A quarter turn about z and a translation. */
static void placed(void)
{
    static const double transform[FACEPOINT_TRANSFORM_LENGTH] = {
        0, -1, 0, 10,  1, 0, 0, 20,  0, 0, 1, 30,
    };
    static const double point[] = { 1, 2, 3 };
    show("placed", facepoint_placed(
        transform, LENGTH(transform), point, LENGTH(point),
        result, FACEPOINT_RESULT_LENGTH));
}

/* A list of another length than the call's is a number missing. */
static void nothing_placed(void)
{
    static const double nothing[] = { 0 };
    show("nothing placed", facepoint_placed(
        nothing, 0, nothing, 0, result, FACEPOINT_RESULT_LENGTH));
}

int main(void)
{
    sample_parameter();
    direction();
    spherical_triangle();
    point_on();
    cylinder_point();
    placed();
    nothing_placed();
    if (fflush(stdout) != 0) {
        perror("after: standard output");
        return 1;
    }
    return 0;
}
