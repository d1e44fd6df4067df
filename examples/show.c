#include "rainbow_computer.h"
#include <stdio.h>

static rainbow_computer c; /* all memories, the picture and the machine */

int main(void)
{
    static const uint8_t row[] = {'B', 'E', 'R', 'T', 'A', 0xFF, 0x00, 0x01}; /* FF, then the next row's start */
    char text[RAINBOW_TEXT_BYTES];
    rainbow_computer_power_up(&c);
    for (uint32_t place = 0; place < sizeof row; place++)
        rainbow_computer_store(&c, 0xEE000 + place, row[place]);
    rainbow_computer_text(&c, 0, text);
    printf("row 0 is %s\n", text);

    uint32_t marks = rainbow_computer_store(&c, 0xEE004, 'H').marks; /* the picture is mended */
    rainbow_computer_text(&c, 0, text);
    printf("row 0 is %s, marks %07X\n", text, (unsigned)marks);

    uint8_t refusal = rainbow_computer_store(&c, 0xF0000, 'H').refusal;
    printf("refused by %d: %s\n", refusal, rainbow_refusal_text(refusal));
    return 0;
}
