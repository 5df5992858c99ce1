// For functions that are called with literal sizes: each call becomes straight code for its size.
#ifndef STRAIGHT_H
#define STRAIGHT_H

#define STRAIGHT static inline __attribute__((always_inline))

#endif
