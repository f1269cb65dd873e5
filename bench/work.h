/* The workloads of the bench. */
#include <stdbool.h>
#include "host.h"

struct workload {
    const char *name, *unit;
    /* units that are timed; units of the two counted runs, whose difference gives the instructions of one */
    size_t timed, few, many;
    void (*prepare)(void);
    void (*work)(const struct version *by, size_t units);
};

extern const struct workload workloads[];
extern const size_t workload_count;

/* a host by one version, with the image and the voice file that the workload has prepared */
struct host new_host(const struct version *by);

/* While it is on, a workload folds its answers and samples into one digest, and the chip's numbers after them into another. */
extern bool digesting;
extern struct digest {
    uint64_t answers, numbers;
} digest;
