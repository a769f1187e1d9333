/* Gives a program the words of its command line, where there is none: WORDS, or nothing. */
#include <stdlib.h>

int program(int count, char **words);

int main(void) {
    static char *words[] = {"program", WORDS 0};
    int count = 0;
    while (words[count] != 0) count++;
    exit(program(count, words));
}
