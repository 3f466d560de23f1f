/* A library with a region, for loads.c. */
long plugin_sum(int n);
long plugin_sum(int n) {
    long sum = 0;
#pragma omp parallel for reduction(+ : sum)
    for (int i = 0; i < n; i++) sum += i;
    return sum;
}
