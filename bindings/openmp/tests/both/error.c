/* The directive `error`, the affinity format on standard error, pause. */
#include <omp.h>
#include <stdio.h>

int main(void) {
    omp_display_affinity("level %L of %{nesting_level}, %n of %N");
#pragma omp parallel num_threads(2)
    {
#pragma omp single
        omp_display_affinity("size %N");
    }
#pragma omp error at(execution) severity(warning) message("first")
#pragma omp error at(execution) severity(warning)
    fprintf(stderr, "paused %d\n", omp_pause_resource_all(omp_pause_soft));
#pragma omp error at(execution) severity(fatal) message("last")
    fprintf(stderr, "not reached\n");
    return 0;
}
