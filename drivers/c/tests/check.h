/* Checks of a test: the first that fails is told, and ends the program with status 1. */
#ifndef CHECK_H
#define CHECK_H

#include <stdio.h>
#include <stdlib.h>
#include <string.h>

#define CHECK(what) \
  do { \
    if (!(what)) { \
      fprintf(stderr, "%s:%d: not so: %s\n", __FILE__, __LINE__, #what); \
      exit(1); \
    } \
  } while (0)

#define SAME(got, wanted) \
  do { \
    long long got_ = (long long)(got), wanted_ = (long long)(wanted); \
    if (got_ != wanted_) { \
      fprintf(stderr, "%s:%d: %s is %lld, and not %lld\n", __FILE__, __LINE__, #got, got_, wanted_); \
      exit(1); \
    } \
  } while (0)

#endif
