/* The texts of the answers. They are the words of docs/RIDES.md. */
#include "matlink.h"

struct matlink_text {
    uint8_t answer;
    const char *text;
};

static const struct matlink_text matlink_texts[] = {
    {MATLINK_DONE, "the event was carried out"},
    {MATLINK_BAD_WINDOW, "the window is not 1 to 32"},
    {MATLINK_BAD_TIMES, "the data life, the reply life or the reply wait is not 1 to 250"},
    {MATLINK_BAD_WAIT, "the resend wait is neither 0 nor from the three times' sum less 2 to 1000"},
    {MATLINK_UNSOUND, "the link or part handed in is not sound: a limit, number, mark, timer, table or cell breaks question 4"},
    {MATLINK_ODD_EVENTS, "the last event has a kind and no argument"},
    {MATLINK_PARTIAL_ROW, "the supply ends inside a row"},
    {MATLINK_SHORT_ANSWERS, "the answer buffer has fewer bytes than there are events"},
    {MATLINK_UNKNOWN_KIND, "there is no event of this kind"},
    {MATLINK_BAD_ARGUMENT, "send and reply have argument 0, a tick is at least 1"},
    {MATLINK_WINDOW_FULL, "a full window of rows is outstanding"},
    {MATLINK_NO_ROW_LEFT, "every row of the supply has been sent"},
    {MATLINK_ILLEGAL_CELL, "a cell is neither 0 to 4095 nor 65535, a torn one"},
    {MATLINK_DATA_TABLE_FULL, "32 data messages are in the air"},
    {MATLINK_NOT_OUTSTANDING, "no outstanding row has this place (places count from 0)"},
    {MATLINK_ALREADY_ACKNOWLEDGED, "this row has been acknowledged"},
    {MATLINK_TIMER_RUNNING, "the resend timer of this row has not run out"},
    {MATLINK_NO_MESSAGE, "no message is at this place of the table"},
    {MATLINK_REPLY_TABLE_FULL, "32 replies are in the air"},
    {MATLINK_SPAN_NOT_OUTSTANDING, "the reply names a row that is not outstanding"},
    {MATLINK_NOTHING_READY, "the wanted row is not held, or its reply timer has run out"},
    {MATLINK_RECORD_FULL, "the record has no space for all the rows that are ready"},
    {MATLINK_UNKNOWN_FRAME, "the frame does not begin with 1 or 2, or it is of the kind that the device itself sends"},
    {MATLINK_BAD_FRAME_LENGTH, "the frame is not 36 bytes (data) or 5 bytes (reply) long"},
    {MATLINK_BAD_FRAME_WINDOW, "the frame's window is not 1 to 32, or is not that of the device"},
    {MATLINK_BAD_FRAME_NUMBER, "a number in the frame is twice its window or more"},
    {MATLINK_BAD_FRAME_LIFE, "the frame's life is not 1 to 250"},
    {MATLINK_BAD_FRAME_SPAN, "the reply in the frame covers more rows than its window"},
    {MATLINK_SHORT_BUFFER, "the buffer is shorter than the frame"},
    {MATLINK_BAD_INPUT_LENGTH, "the input ends before its rows do, or is longer than 40,960 bytes"},
    {MATLINK_BAD_RECORD_LENGTH, "the record ends inside a row, or has more than 100,000 rows"},
    {MATLINK_NO_SUCH_PAGE, "the record has no row for this page (pages count from 0)"},
    {MATLINK_SHORT_PAGE_BUFFER, "the buffer is shorter than the page"},
    {MATLINK_BAD_FILE, "contents, bodies or cells are not those of a horse's file, or the buffer is shorter than the file"},
    {MATLINK_SAVED_TWICE, "a horse, leg and save stand in the file twice"},
    {MATLINK_NO_SUCH_LEG, "the file has no such leg of the horse"},
};

const char *matlink_answer_text(uint8_t answer) {
    size_t i;
    for (i = 0; i < sizeof matlink_texts / sizeof matlink_texts[0]; i++)
        if (matlink_texts[i].answer == answer) return matlink_texts[i].text;
    return "unknown answer";
}
