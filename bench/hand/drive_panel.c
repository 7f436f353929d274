/* Two activations of `panel` an instant: it executes, and it sends. */
#include "panel.h"
#include "drive.h"

static uint64_t instants(uint64_t count)
{
    ltta_panel_inputs inputs = { false };
    ltta_panel_outputs outputs = { false };
    ltta_panel_to_control to_control;
    uint64_t sum = 0;
    bool bit = false;
    ltta_panel_init();
    for (uint64_t k = 0; k < count; k++) {
        inputs.in_button = (k & 3) == 0;
        if (ltta_panel_activate(true, &inputs, &outputs) != ltta_panel_did_execute) { abort(); }
        bit = !bit;
        ltta_panel_acknowledge_control(bit);
        if (ltta_panel_activate(true, &inputs, &outputs) != ltta_panel_did_send) { abort(); }
        ltta_panel_message_control(&to_control);
        sum = sum * 3 + (outputs.out_on ? 2 : 0) + (to_control.m0 ? 1 : 0);
    }
    return sum;
}
