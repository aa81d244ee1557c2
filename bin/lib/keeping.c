// Writes the memory in kB that the process still has as it ends to the file that the variable KEPT names.
#include <stdio.h>
#include <stdlib.h>

__attribute__((destructor)) static void end(void) {
    const char *path = getenv("KEPT");
    FILE *status = fopen("/proc/self/status", "r"), *kept = path ? fopen(path, "w") : NULL;
    char line[256];
    long size;
    while (status && kept && fgets(line, sizeof line, status))
        if (sscanf(line, "VmRSS: %ld", &size) == 1)
            fprintf(kept, "%ld\n", size);
    if (kept)
        fclose(kept);
}
