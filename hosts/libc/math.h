/* What hosts/ uses of <math.h>. */
#ifndef HOST_MATH_H
#define HOST_MATH_H
double fmod(double left, double right);
#endif
