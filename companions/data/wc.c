/* Lines, words and bytes of the input, and the length of its longest line. */
#include "io.h"

int main(void)
{
    int lines = 0, words = 0, inside = 0, width = 0, widest = 0;

    read_input();
    for (long i = 0; i < length; i++) {
        int blank = input[i] == ' ' || input[i] == '\t' || input[i] == '\n';
        if (!blank && !inside)
            words++;
        inside = !blank;
        width++;
        if (input[i] == '\n') {
            lines++;
            widest = width - 1 > widest ? width - 1 : widest;
            width = 0;
        }
    }
    print(lines, ' ');
    print(words, ' ');
    print(length, ' ');
    print(widest, '\n');
    return lines;
}
