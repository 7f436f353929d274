/* The node `panel` of the cruise controller (examples/cruise/setup.toml), written by hand for the interface that its header declares. */
#include "panel.h"

static bool ack, ack_used;   /* the bit that came from `control`, and the one that was used last */
static bool sending, sent;
static bool last_button, last_on, on;

void ltta_panel_init(void)
{
    ack = false;
    ack_used = false;
    sending = false;
    sent = false;
    last_button = false;
    last_on = false;
    on = false;
}

ltta_panel_deed ltta_panel_activate(bool has_inputs, const ltta_panel_inputs *inputs, ltta_panel_outputs *outputs)
{
    if (sending) {
        if (ack == ack_used) { return ltta_panel_did_nothing; }
        ack_used = ack;
        sending = false;
        sent = !sent;
        return ltta_panel_did_send;
    }
    if (!has_inputs) { return ltta_panel_did_nothing; }
    on = last_on != (inputs->in_button && !last_button);
    last_on = on;
    last_button = inputs->in_button;
    outputs->out_on = on;
    sending = true;
    return ltta_panel_did_execute;
}

void ltta_panel_acknowledge_control(bool bit)
{
    ack = bit;
}

void ltta_panel_message_control(ltta_panel_to_control *message)
{
    message->bit = sent;
    message->m0 = on;
}
