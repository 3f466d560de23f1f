/* A program without OpenMP loads, uses and closes a library that has it. Arguments: the library, how often. */
#include <dlfcn.h>
#include <stdio.h>
#include <stdlib.h>

int main(int count, char **words) {
    if (count < 3) return 2;
    for (int i = 0; i < atoi(words[2]); i++) {
        void *library = dlopen(words[1], RTLD_NOW);
        long (*sum)(int) = library ? (long (*)(int))dlsym(library, "plugin_sum") : NULL;
        if (!sum || sum(1000) != 499500) {
            printf("FAILED %s\n", library ? "" : dlerror());
            return 1;
        }
        dlclose(library);
    }
    puts("ok");
    return 0;
}
