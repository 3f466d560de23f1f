/* teams, distribute and target on the host. */
#include <omp.h>
#include <stdio.h>
#include <string.h>

int main(void) {
    int a[100], teams = 0, f = 5, wrong = 0, level = -1;
#pragma omp teams num_teams(3) thread_limit(2) reduction(+ : teams)
    {
        teams += 1 + 10 * omp_get_num_teams() + 100 * (omp_get_team_num() < 3);
#pragma omp parallel num_threads(8)
        {
#pragma omp single
            if (omp_get_num_threads() > 2 || omp_get_thread_limit() != 2) printf("too many\n");
        }
    }
    printf("teams %d\n", teams);
    memset(a, 0, sizeof a);
#pragma omp teams distribute parallel for num_teams(4)
    for (int i = 0; i < 100; i++) a[i] += i;
    for (int i = 0; i < 100; i++) wrong += a[i] != i;
#pragma omp target map(tofrom : a, level) firstprivate(f)
    {
        f += 37;
        level = omp_get_level();
        a[0] = f;
#pragma omp parallel for
        for (int i = 1; i < 100; i++) a[i] += 2;
    }
    printf("wrong %d, target %d %d, f %d, level %d\n", wrong, a[0], a[99], f, level);
#pragma omp target teams distribute parallel for num_teams(2) thread_limit(2) map(tofrom : a)
    for (int i = 0; i < 100; i++) a[i] = omp_get_thread_limit() == 2 ? i : -1;
    wrong = 0;
    for (int i = 0; i < 100; i++) wrong += a[i] != i;
    printf("target teams: %d wrong\n", wrong);
    int x = 1;
#pragma omp target data map(tofrom : a)
    {
#pragma omp target update to(a)
#pragma omp target nowait depend(inout : x) map(tofrom : x)
        x = 6;
#pragma omp taskwait
#pragma omp target enter data map(to : x)
#pragma omp target exit data map(from : x)
    }
    int from[3][4], to[3][4] = {{0}};
    for (int i = 0; i < 12; i++) ((int *)from)[i] = i;
    size_t volume[2] = {2, 2}, at[2] = {1, 1}, sizes[2] = {3, 4};
    int h = omp_get_initial_device();
    printf("rect %d", omp_target_memcpy_rect(to, from, sizeof(int), 2, volume, at, at, sizes, sizes, h, h));
    for (int i = 0; i < 12; i++) printf(" %d", ((int *)to)[i]);
    int *p = omp_target_alloc(40, h);
    printf(" memcpy %d", omp_target_memcpy(p, from, 12, 4, 8, h, h));
    printf(" %d present %d\n", p[1], omp_target_is_present(p, h));
    omp_target_free(p, h);
    printf("x %d host %d devices %d teams %d %d\n", x, omp_is_initial_device(), omp_get_num_devices(), omp_get_num_teams(), omp_get_team_num());
    omp_set_num_teams(5);
    omp_set_teams_thread_limit(3);
    printf("most %d %d\n", omp_get_max_teams(), omp_get_teams_thread_limit());
    return 0;
}
