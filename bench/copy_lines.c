/* The yardstick: copies standard input to standard output, line by line. */
#include <stdio.h>

int main(void) {
    static char line[1 << 16];
    while (fgets(line, sizeof line, stdin))
        fputs(line, stdout);
    return 0;
}
