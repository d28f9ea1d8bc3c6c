/* The CAN line as the gateway sees it: a table comes as frames, a record each, and goes out so. can.c has it for the emulated board. */
#ifndef CAN_H
#define CAN_H

#include <stdint.h>

struct can_frame {
    uint32_t size; /* 0 to 8 */
    uint8_t bytes[8];
};

/* Waits for the next frame of a table: 1 with the frame, 0 where the table has ended. */
int can_receive(struct can_frame *frame);

/* Sends a frame. */
void can_send(const struct can_frame *frame);

#endif
