/* What the omp_ functions return, for the settings that the check gives in the environment. */
#include <omp.h>
#include <stdio.h>
#include <string.h>

/* Inside other work, or if OpenMP may choose, the largest team depends on what is idle; so it isn't printed. */
static void print(const char *where) {
    omp_sched_t kind;
    int chunk;
    omp_get_schedule(&kind, &chunk);
    printf("%s: max %d dynamic %d nested %d levels %d limit %d kind %x chunk %d level %d active %d in %d final %d\n", where,
           omp_get_level() || omp_get_dynamic() ? 0 : omp_get_max_threads(), omp_get_dynamic(), omp_get_nested(), omp_get_max_active_levels(), omp_get_thread_limit(), kind,
           chunk, omp_get_level(), omp_get_active_level(), omp_in_parallel(), omp_in_final());
}

int main(void) {
    print("start");
    printf("supported %d cancellation %d priority %d bind %d places %d %d %d device %d %d %d\n", omp_get_supported_active_levels(), omp_get_cancellation(), omp_get_max_task_priority(), omp_get_proc_bind(),
           omp_get_num_places(), omp_get_place_num(), omp_get_partition_num_places(), omp_get_default_device(),
           omp_get_initial_device(), omp_get_num_devices());
    int size[3] = {0};
#pragma omp parallel
    {
#pragma omp single
        size[0] = omp_get_dynamic() ? 0 : omp_get_num_threads();
#pragma omp masked
#pragma omp parallel num_threads(2)
        {
#pragma omp single
            {
                size[1] = omp_get_dynamic() ? 0 : omp_get_num_threads();
                printf("inner: ancestors %d %d %d sizes %d %d %d %d\n", omp_get_ancestor_thread_num(0), omp_get_ancestor_thread_num(1),
                       omp_get_ancestor_thread_num(5), omp_get_team_size(0), omp_get_dynamic() ? 0 : omp_get_team_size(1), omp_get_dynamic() ? 0 : omp_get_team_size(2),
                       omp_get_team_size(-1));
            }
        }
    }
    printf("sizes %d %d\n", size[0], size[1]);
    omp_set_num_threads(3);
    print("after 3");
#pragma omp parallel
    {
        omp_set_num_threads(7);
#pragma omp single
        size[0] = omp_get_dynamic() ? 0 : omp_get_num_threads();
    }
    print("after region");
    printf("size %d\n", size[0]);
    omp_set_max_active_levels(2);
    print("levels 2");
#pragma omp parallel num_threads(2)
    {
#pragma omp critical
        if (omp_get_thread_num() == 1 && !omp_get_dynamic()) print("member"); /* a dynamic team may have one member */
#pragma omp barrier
#pragma omp parallel num_threads(2)
        {
#pragma omp parallel num_threads(2)
            if (omp_get_num_threads() != 1) printf("third level has %d\n", omp_get_num_threads());
        }
    }
#pragma omp parallel if (0)
    print("if 0");
    omp_set_nested(0);
    omp_set_dynamic(1);
    print("not nested, dynamic");
    omp_set_nested(1);
    omp_set_dynamic(0);
    omp_set_schedule(omp_sched_guided, 5);
    print("nested, guided");
    omp_set_max_active_levels(100000);
    omp_set_default_device(3);
    printf("levels %d device %d\n", omp_get_max_active_levels(), omp_get_default_device());
#pragma omp task final(1)
    {
#pragma omp task
        print("final");
    }
    printf("wtime %d wtick %d\n", omp_get_wtime() > 0, omp_get_wtick() > 0 && omp_get_wtick() < 1);
    char text[100];
    omp_set_affinity_format("%L|%5n|%.5n|%0.5N|%{team_num}|%{num_teams}|%{nesting_level}|%a|%%");
    size_t n = omp_capture_affinity(text, sizeof text, NULL);
    printf("%zu %s\n", n, text);
    n = omp_get_affinity_format(text, 6);
    printf("%zu %s\n", n, text);
    n = omp_capture_affinity(text, 4, "abcdef");
    printf("%zu %s\n", n, text);
    return 0;
}
