/* The node `control` of the cruise controller (examples/cruise/setup.toml), written by hand for the interface that its header declares. */
#include "control.h"

enum { TARGET = 60, MOST = 100 };

static ltta_control_from_panel panel;
static ltta_control_from_sensor sensor;
static bool panel_used, sensor_used;   /* the bits of the messages that were used last */
static bool ack, ack_used;
static bool sending;                   /* what was computed waits to be sent */
static bool sent, executed;            /* the bits of what was sent last */
static int64_t last_gap, cmd;

static int64_t limit(int64_t v)
{
    return v < 0 ? 0 : v > MOST ? MOST : v;
}

void ltta_control_init(void)
{
    panel = (ltta_control_from_panel){ false, false };
    sensor = (ltta_control_from_sensor){ false, 0 };
    panel_used = true;
    sensor_used = true;
    ack = false;
    ack_used = false;
    sending = false;
    sent = false;
    executed = false;
    last_gap = 0;
    cmd = 0;
}

static void step(ltta_control_outputs *outputs)
{
    outputs->has_gap = panel.m0;
    if (panel.m0) {
        int64_t gap = TARGET - sensor.m0;
        outputs->out_gap = gap;
        cmd = limit(gap + last_gap);
        last_gap = gap;
    } else {
        cmd = 0;
    }
}

ltta_control_deed ltta_control_activate(bool has_inputs, ltta_control_outputs *outputs)
{
    if (sending) {
        if (ack == ack_used) { return ltta_control_did_nothing; }
        ack_used = ack;
        sending = false;
        sent = !sent;
        return ltta_control_did_send;
    }
    if (!has_inputs || panel.bit == panel_used || sensor.bit == sensor_used) { return ltta_control_did_nothing; }
    step(outputs);
    panel_used = panel.bit;
    sensor_used = sensor.bit;
    sending = true;
    executed = !executed;
    return ltta_control_did_execute;
}

void ltta_control_deliver_panel(const ltta_control_from_panel *message)
{
    panel = *message;
}

void ltta_control_deliver_sensor(const ltta_control_from_sensor *message)
{
    sensor = *message;
}

void ltta_control_acknowledge_engine(bool bit)
{
    ack = bit;
}

void ltta_control_message_engine(ltta_control_to_engine *message)
{
    message->bit = sent;
    message->m0 = cmd;
}

bool ltta_control_acknowledgement(void)
{
    return executed;
}
