/* first: a desk, two handsets, one of which asks for the floor; then what goes out to whom, and what the wall shows. */
#include <floor_text.h>
#include <stdio.h>

int main(void)
{
    const uint8_t ask[] = {0x80, 204, 0, 3, 0, 0, 0, 10, 'M', 'C', 'P', 'T', 0, 2, 5, 0}; /* a Request as SSRC 10 sends it, priority 5 */
    struct floor_desk desk;
    struct floor_report report;
    char text[FLOOR_TEXT];
    if (floor_desk_make(&desk, &(struct floor_making){.ssrc = 1, .level = 200, .limit = FLOOR_LINE, .c7 = 3, .c20 = 3, .duration = 30}) < 0
        || floor_desk_join(&desk, &(struct floor_newcomer){.identity = "test1", .identity_len = 5, .ssrc = 10, .highest = 255}) < 0
        || floor_desk_join(&desk, &(struct floor_newcomer){.identity = "test2", .identity_len = 5, .ssrc = 11, .highest = 255}) < 0
        || floor_desk_start(&desk, &report) < 0 || floor_desk_packet(&desk, ask, sizeof ask, &report) < 0)
        return 1; /* below 0 is a refusal; floor.h has what each function can refuse */
    floor_text_report(text, sizeof text, &desk, &report);
    fputs(text, stdout);
    floor_text_desk(text, sizeof text, &desk);
    puts(text);
    return 0;
}
