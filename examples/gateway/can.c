/*
 * The CAN line of the emulated board: the debugger's standard input and output, 8 bytes a frame; a table ends where the input ends, and its last
 * frame may be shorter. On a board of your own: the controller's receive queue, and whatever your line says at the end of a table.
 */
#include "board.h"
#include "can.h"

int can_receive(struct can_frame *frame)
{
    frame->size = (uint32_t)board_read(frame->bytes, sizeof frame->bytes);
    return frame->size > 0;
}

void can_send(const struct can_frame *frame) { board_write(frame->bytes, frame->size); }
