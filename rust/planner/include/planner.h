/* The proved functions that the planner window calls, for C: link target/staticlib/libplanner.a, which `rt staticlib planner` writes.
 * Any numbers and any bytes get their answer, and nothing is written. */
#ifndef PLANNER_H
#define PLANNER_H

#include <stddef.h>
#include <stdint.h>

#ifdef __cplusplus
extern "C" {
#endif

/* answer 0: q holds the result; 18: r outside 1 to 20,000 or p outside 1 to 1,000; 15: q would be above 4,194,304; q is 0 beside both. */
struct planner_measured {
    uint32_t answer;
    uint32_t q;
};

/* answer 0: records holds the number of records; 19: the job file does not split, and records is 0. */
struct planner_counted {
    uint32_t records;
    uint32_t answer;
};

/* The q of a cutter of radius r where pixels are p apart, both in micrometres: the largest whole number not above r * r / (p * p). */
struct planner_measured planner_radius(uint32_t r, uint32_t p);

/* The number of records of the job file of `length` bytes at `job`. All of them must be readable, and `job` not null, also where `length`
 * is 0. */
struct planner_counted planner_split(const uint8_t *job, size_t length);

#ifdef __cplusplus
}
#endif

#endif
