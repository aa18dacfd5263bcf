/*
 * facepoint: a point inside a trimmed face, and what is asked beside it, over the
 * C convention.
 *
 * The archive is crates/capi/out/libcapi.a (`rt lib` in crates/capi), for x86-64
 * Linux; of the C library it calls memset and memcpy at most.
 * It takes no memory from the heap, keeps nothing between calls and may be called
 * from several threads at once. Every call ends, and answers for every input; what
 * it answers is proved (crates/capi), if the host sees to two things that no call
 * can test:
 *
 * - Stack. A call takes at most 256 KiB of it, whatever it is given. On a thread
 *   that has less left the process dies.
 * - C's default floating-point environment: rounding to nearest, and no flushing of
 *   subnormals to zero. Under fesetround(FE_UPWARD) the sample panel has a count of
 *   798 in place of 795. A program that gcc links with -ffast-math flushes from its
 *   start, in every thread: a z of 5e-324 comes back as 0.
 *
 * A list goes as a pointer to its first element and the number of its elements.
 * A pointer may not be null, even where the number is 0. Lists of one call must
 * not overlap, save two that are only read.
 *
 * A call returns its status: 0 for an answer, else the number of a refusal. The
 * other five numbers go into `result`, which has room for five: x, y, z,
 * clearance, count (a whole number); what a call after the picker answers stands
 * beside it, and the rest is 0. With a refusal all five are 0, and `points` is
 * left as it was. Where result_length is not 5 the call returns 1 at once and
 * writes nothing at all.
 *
 * Refusals, in the order in which they are tested ('any ring' where a ring is
 * meant):
 *
 *    1  under 8 bytes, or the length field is not the number of bytes after it;
 *       or result_length is not 5
 *    2  version other than 1
 *    3  kind above 6, or sense above 2
 *    4  no rings, or more than 16
 *    5  the plane or the ring blocks overrun the end, or leave bytes over
 *    6  a ring without coedges, or more than 128 coedges in total
 *    7  a number that is not finite; a chart coordinate or the origin above 2^20
 *       in magnitude; an axis component above 2; a deviation below 0 or not
 *       below 0.002
 *    8  phase other than 0 or 1; phase 1 off a torus; plane pick off kind 0
 *    9  chart: points_length below 2 x the number of points
 *   10  image pick: images_length other than 3 x (points + 1), or an image that
 *       is not finite or above 2^30 in magnitude
 *   11  a torus band with a v scale of PI or more
 *   12  u or v scale of 1e-12 or less
 *   13  a join above 1e-4
 *   14  no covered grid point with a clearance above 0.01
 *   15  picks: the clearance in space is not above the larger of 8 x the greatest
 *       deviation and 1e-7
 *
 * Of the calls after the picker; every number of a call is looked at before
 * anything else, however long its lists:
 *
 *   16  a number that is not finite; in the triangle and both fallbacks also one
 *       above 2^20 in magnitude; a list of another length than the call's, n above
 *       16, a radius not above 0, a sense above 2, a flag other than 0 and 1
 *   17  triangle: a circle's centre or radius off by more than radius x 1e-6; a
 *       sweep above PI; an evaluated end off its end, or an end off the sphere, by
 *       more than radius x 1e-5; an end at most 1e-9 from the centre
 *   18  triangle: a side's end direction more than 1e-5 from the next's start
 *   19  triangle: no middle direction, sense 0, or a side whose triple product
 *       with the middle, by the sense's sign, is 1e-6 or less
 *   20  point_on: corners_length not a multiple of 3; fewer than 3 corners, or more
 *       than 128
 *   21  point_on: no three neighbouring corners serve
 *   22  cylinder_point: no heights; more than 256 heights or angles; heights that
 *       spread by 1e-6 or less
 *   23  cylinder_point: the middle is unclear, or there are no angles
 *   24  placed: the result is not finite
 */
#ifndef FACEPOINT_H
#define FACEPOINT_H

#include <stddef.h>
#include <stdint.h>

#ifdef __cplusplus
extern "C" {
#endif

/* The number of result numbers: x, y, z, clearance, count. */
#define FACEPOINT_RESULT_LENGTH 5

/* The lengths of lists that have but one. */
#define FACEPOINT_POINTS_LENGTH 12
#define FACEPOINT_SIDE_LENGTH 19
#define FACEPOINT_TRANSFORM_LENGTH 12

/*
 * The chart of a sheet at phase 0 or 1: the chosen point as u, v, 0, with its
 * clearance and count. `points` gets the moved boundary points, u and v in turn,
 * in the sheet's order; what lies behind them is left as it was.
 */
uint32_t facepoint_chart(const uint8_t *sheet, size_t sheet_length,
                         uint32_t phase,
                         double *points, size_t points_length,
                         double *result, size_t result_length);

/*
 * The pick on a surface that the caller evaluates: `images` are the chart's
 * written points on the surface, x, y and z each, in their order, and then the
 * chosen point's, which is the point answered.
 */
uint32_t facepoint_image_pick(const uint8_t *sheet, size_t sheet_length,
                              uint32_t phase,
                              const double *images, size_t images_length,
                              double *result, size_t result_length);

/* The pick on a plane, whose numbers are on the sheet; phase 0. */
uint32_t facepoint_plane_pick(const uint8_t *sheet, size_t sheet_length,
                              double *result, size_t result_length);

/*
 * The n-th of an edge's samples, n from 0 to 16, on the range from a to b: n = 0
 * gives a itself and n = 16 b. Answers the parameter.
 */
uint32_t facepoint_sample_parameter(double a, double b, uint32_t n,
                                    double *result, size_t result_length);

/*
 * Whether a trim is to be reversed and whether it is to be kept, from the images
 * of its first and its last point and the edge's start and end: `points` are these
 * four, x, y and z each. Answers reverse and keep, 1 or 0 each: reverse where the
 * last image is nearer to the start than the first, keep where both ends then lie
 * nearer than 1e-4.
 */
uint32_t facepoint_direction(const double *points, size_t points_length,
                             double *result, size_t result_length);

/*
 * The middle of a triangle of great circles on a sphere, as x, y, z. Sense: 0
 * absent, 1 forward, 2 reversed. `sides` are three sides of 19 numbers each: the
 * edge's two ends (x, y and z each, before any reversal), 1 where the side is
 * walked against its edge and else 0, the circle's centre (x, y, z) and radius, the
 * two ends of the range, the curve evaluated at these (x, y and z each).
 */
uint32_t facepoint_spherical_triangle(const double *centre, size_t centre_length,
                                      double radius, uint32_t sense,
                                      const double *sides, size_t sides_length,
                                      double *result, size_t result_length);

/*
 * The vertex fallback: a point inside a plane face, as x, y, z, from its corners,
 * x, y and z each. It is the middle of the first corner that serves with the one
 * before and the one after it.
 */
uint32_t facepoint_point_on(const double *u_axis, size_t u_axis_length,
                            const double *normal, size_t normal_length,
                            const double *corners, size_t corners_length,
                            double *result, size_t result_length);

/*
 * The round fallback: middle angle and middle height of a face on a cylinder or a
 * cone, from the heights and angles of its corners. The angle is not reduced: it
 * may be above a turn.
 */
uint32_t facepoint_cylinder_point(const double *heights, size_t heights_length,
                                  const double *angles, size_t angles_length,
                                  double *result, size_t result_length);

/*
 * A point moved by a transform, as x, y, z: three rows of four numbers each, the
 * last of a row the translation.
 */
uint32_t facepoint_placed(const double *transform, size_t transform_length,
                          const double *point, size_t point_length,
                          double *result, size_t result_length);

/* The IEEE 754 square root, nearest, ties to even. */
double facepoint_root(double x);

/* The nearest whole number, halves away from zero; a zero keeps its sign. */
double facepoint_round(double x);

#ifdef __cplusplus
}
#endif

#endif
